/* Prints where a core module names its functions: by a body, an export, an element segment, and so on, a line each.

   uses IN

   code 3: 0 5 0        the body of the fourth function that the module defines calls, or refers to, function 0, then 5, and 0 again
   export 1: 5          the second export is function 5
   start: 2             the start stands in no row */
#include "hyssopplinth.h"
#include "read_file.h"

static const char *const sections[] = {"custom", "type", "import", "function", "table", "memory", "global",
                                       "export", "start", "element", "code", "data", "data count", "tag"};

int main(int argc, char **argv) {
    const struct reencode_visit *last = NULL, *v;
    struct reencode_visit *visits;
    struct reencode_outcome outcome;
    uint8_t *bytes;
    size_t length = 0, i;
    char text[200];
    if (argc != 2) return 2;
    bytes = read_file(argv[1], &length);
    if (!bytes) return 3;
    if (reencode_visits_new(bytes, length, &visits, &outcome) != REENCODE_DONE) {
        reencode_say(&outcome, REENCODE_NO_CEILING, text, sizeof text);
        fprintf(stderr, "%s\n", text);
    } else {
        for (i = 0; i < outcome.length; i++) {
            v = &visits[i];
            if (v->kind != REENCODE_INDEX || v->space != REENCODE_FUNCTION) continue;
            if (!last || v->section != last->section || v->row != last->row) {
                printf("%s%s", last ? "\n" : "", sections[v->section]);
                if (v->row != REENCODE_NO_ROW) printf(" %lu", (unsigned long)v->row);
                printf(":");
            }
            printf(" %lu", (unsigned long)v->index);
            last = v;
        }
        if (last) printf("\n");
    }
    free(visits);
    free(bytes);
    return (int)outcome.status;
}
