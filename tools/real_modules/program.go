// A program that uses a good part of the standard library.
package main

import (
	"encoding/json"
	"fmt"
	"os"
	"regexp"
	"sort"
	"strings"
	"sync"
	"text/template"
)

type entry struct {
	Name  string         `json:"name"`
	Parts map[string]int `json:"parts"`
}

func main() {
	var group sync.WaitGroup
	found := make(chan entry, 4)
	for i := 0; i < 4; i++ {
		group.Add(1)
		go func(i int) {
			defer group.Done()
			found <- entry{Name: strings.Repeat("x", i), Parts: map[string]int{"a": i}}
		}(i)
	}
	group.Wait()
	close(found)
	var all []entry
	for one := range found {
		all = append(all, one)
	}
	sort.Slice(all, func(a, b int) bool { return all[a].Name < all[b].Name })
	json.NewEncoder(os.Stdout).Encode(all)
	fmt.Println(regexp.MustCompile(`(\w+)=(\d+)`).FindAllString("a=1 b=22", -1))
	template.Must(template.New("t").Parse("{{range .}}{{.Name}}\n{{end}}")).Execute(os.Stdout, all)
}
