/* Renumbers the indices of a module or component by a table of its own.

   renumber plain IN OUT           the normal spelling
   renumber rename IN OUT TABLE    by the table, which is handed to the library
   renumber answer IN OUT TABLE    by the table, which this program asks at each visit

   TABLE has lines of a space's number, an index and what becomes of it. */
#include "hyssopplinth.h"
#include "read_file.h"
#include <string.h>

struct table {
    struct reencode_entry *entries;
    size_t count;
};

static int read_table(const char *path, struct table *table) {
    FILE *file = fopen(path, "r");
    unsigned space, from, to;
    size_t room = 0;
    if (!file) return 1;
    while (fscanf(file, "%u %u %u", &space, &from, &to) == 3) {
        struct reencode_entry entry = {space, from, to};
        if (table->count == room) {
            struct reencode_entry *more = realloc(table->entries, (room = 2 * room + 16) * sizeof *more);
            if (!more) break;
            table->entries = more;
        }
        table->entries[table->count++] = entry;
    }
    return fclose(file);
}

/* The hook: it may ask anything, as often as it likes. This one looks the index up, and leaves others as they are. */
static int ask(void *context, const struct reencode_visit *visit, uint32_t *answer) {
    const struct table *table = context;
    size_t i;
    if (visit->kind != REENCODE_INDEX && visit->kind != REENCODE_OUTER) return 0;
    for (i = table->count; i-- > 0;) {
        if (table->entries[i].space == visit->space && table->entries[i].from == visit->index) {
            *answer = table->entries[i].to;
            return 0;
        }
    }
    return 0;
}

int main(int argc, char **argv) {
    struct table table = {NULL, 0};
    struct reencode_outcome outcome;
    uint8_t *bytes, *made = NULL;
    size_t length = 0;
    char text[200];
    if (argc != 4 && argc != 5) return 2;
    bytes = read_file(argv[2], &length);
    if (!bytes || (argc == 5 && read_table(argv[4], &table))) return 3;
    if (argc == 4)
        reencode_plain_new(bytes, length, REENCODE_NO_CEILING, &made, &outcome);
    else if (!strcmp(argv[1], "rename"))
        reencode_rename_new(bytes, length, table.entries, table.count, 0, REENCODE_NO_CEILING, &made, &outcome);
    else
        reencode_with(bytes, length, ask, &table, REENCODE_NO_CEILING, &made, &outcome);
    if (outcome.status == REENCODE_DONE) {
        FILE *file = fopen(argv[3], "wb");
        if (!file || fwrite(made, 1, outcome.length, file) != outcome.length || fclose(file)) return 4;
    } else {
        reencode_say(&outcome, REENCODE_NO_CEILING, text, sizeof text);
        fprintf(stderr, "%s\n", text);
    }
    free(made);
    free(bytes);
    free(table.entries);
    return (int)outcome.status;
}
