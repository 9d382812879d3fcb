/* Moves, removes and joins the functions of core modules.

   tools renumber IN OUT ORDER    the defined functions in another order: the j-th at the place that the j-th number of ORDER says
   tools prune IN OUT             without the functions that nothing reaches; it prints which are kept
   tools merge IN OUT SECOND      one module of two
   tools calls IN                 prints the roots, and what each defined function asks for

   ORDER is a file of numbers. */
#include "hyssopplinth.h"
#include "read_file.h"
#include <string.h>

static uint32_t *read_numbers(const char *path, size_t *count) {
    FILE *file = fopen(path, "r");
    uint32_t *numbers = NULL;
    unsigned number;
    size_t room = 0;
    if (!file) return NULL;
    for (*count = 0;; numbers[(*count)++] = number) {
        if (*count == room) {
            uint32_t *more = realloc(numbers, (room = 2 * room + 16) * sizeof *more);
            if (!more) break;
            numbers = more;
        }
        if (fscanf(file, "%u", &number) != 1) break;
    }
    fclose(file);
    return numbers;
}

static void print_numbers(const char *what, const uint32_t *numbers, size_t count) {
    size_t i;
    printf("%s", what);
    for (i = 0; i < count; i++) printf(" %lu", (unsigned long)numbers[i]);
    printf("\n");
}

/* The list that the library gives: imported functions stand before the defined ones. */
static void print_calls(const uint32_t *calls) {
    uint32_t imports = calls[0], defined = reencode_calls_defined(calls), j;
    const uint32_t *asked;
    char what[40];
    size_t count;
    asked = reencode_calls_at(calls, 0, &count);
    print_numbers("roots", asked, count);
    for (j = 0; j < defined; j++) {
        asked = reencode_calls_at(calls, (size_t)j + 1, &count);
        snprintf(what, sizeof what, "%lu:", (unsigned long)imports + j);
        print_numbers(what, asked, count);
    }
}

int main(int argc, char **argv) {
    struct reencode_outcome outcome;
    uint8_t *bytes, *second = NULL, *made = NULL;
    uint32_t *numbers = NULL;
    size_t length = 0, second_length = 0, count = 0;
    const char *what = argc > 2 ? argv[1] : "";
    char text[200];
    if (argc != (!strcmp(what, "calls") ? 3 : !strcmp(what, "prune") ? 4 : 5)) return 2;
    bytes = read_file(argv[2], &length);
    if (!bytes) return 3;
    if (!strcmp(what, "renumber")) {
        numbers = read_numbers(argv[4], &count);
        if (!numbers) return 3;
        reencode_renumber_new(bytes, length, numbers, count, REENCODE_NO_CEILING, &made, &outcome);
    } else if (!strcmp(what, "prune")) {
        reencode_prune_new(bytes, length, REENCODE_NO_CEILING, &made, &numbers, &outcome);
        if (outcome.status == REENCODE_DONE) print_numbers("kept", numbers, outcome.count);
    } else if (!strcmp(what, "merge")) {
        second = read_file(argv[4], &second_length);
        if (!second) return 3;
        reencode_merge_new(bytes, length, second, second_length, REENCODE_NO_CEILING, &made, &outcome);
    } else if (strcmp(what, "calls")) {
        return 2;
    } else {
        reencode_calls_new(bytes, length, &numbers, &outcome);
        if (outcome.status == REENCODE_DONE) print_calls(numbers);
    }
    if (outcome.status == REENCODE_DONE && argc > 3) {
        FILE *file = fopen(argv[3], "wb");
        if (!file || fwrite(made, 1, outcome.length, file) != outcome.length || fclose(file)) return 4;
    }
    if (outcome.status != REENCODE_DONE) {
        reencode_say(&outcome, REENCODE_NO_CEILING, text, sizeof text);
        fprintf(stderr, "%s", text);
        if (outcome.status == REENCODE_EXPORT_CLASH) fprintf(stderr, " %.*s", (int)outcome.length, (const char *)made);
        fprintf(stderr, "\n");
    }
    free(made);
    free(bytes);
    free(second);
    free(numbers);
    return (int)outcome.status;
}
