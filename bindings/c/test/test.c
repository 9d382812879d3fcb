/* Runs cases through the calls, in room of exactly the wanted length.

   test cases          lines of standard input, each CALL CEILING STRICT ENTRIES HEX, are run, and what came is printed: the status,
                       the length, the place, the size, the space, the index, the module, the count, the stated number, the rows, the
                       id, and the output in hexadecimal. CALL is plain, rename, answer (by the entries, at each visit), visits
                       (printed as KIND:SPACE:COUNT:INDEX), renumber, prune (printed with :KEPT,KEPT behind it), merge (of two,
                       HEX+HEX; of a name that clashes this is printed) or calls (printed as NUMBER,NUMBER); ENTRIES are
                       SPACE:FROM:TO behind commas, of renumber the numbers of the order, or -; HEX is the digits, - for none,
                       or @FILE for a binary
   test memory         the same lines; each request for memory of a call is refused in turn (built with -DREFUSING)
   test threads        the same lines, in four threads at once

   It ends with status 1 where room was written that is not to be, a length was wrong, a block was left, or runs differ. */
#define _POSIX_C_SOURCE 200809L
#include "hyssopplinth.h"
#include <ctype.h>
#include <pthread.h>
#include <string.h>

/* ---- What the header says of the structs: that they lie as the library has them shows each run. */
#if defined(__STDC_VERSION__) && __STDC_VERSION__ >= 201112L
_Static_assert(sizeof(struct reencode_entry) == 12, "entry");
_Static_assert(offsetof(struct reencode_entry, from) == 4 && offsetof(struct reencode_entry, to) == 8, "entry");
_Static_assert(sizeof(struct reencode_visit) == 24, "visit");
_Static_assert(offsetof(struct reencode_visit, space) == 4 && offsetof(struct reencode_visit, count) == 8, "visit");
_Static_assert(offsetof(struct reencode_visit, index) == 12 && offsetof(struct reencode_visit, section) == 16, "visit");
_Static_assert(offsetof(struct reencode_visit, row) == 20, "visit");
_Static_assert(sizeof(struct reencode_outcome) == 64 && sizeof(size_t) == 8, "outcome");
_Static_assert(offsetof(struct reencode_outcome, length) == 0 && offsetof(struct reencode_outcome, place) == 8, "outcome");
_Static_assert(offsetof(struct reencode_outcome, size) == 16 && offsetof(struct reencode_outcome, status) == 24, "outcome");
_Static_assert(offsetof(struct reencode_outcome, space) == 28 && offsetof(struct reencode_outcome, index) == 32, "outcome");
_Static_assert(offsetof(struct reencode_outcome, by) == 36 && offsetof(struct reencode_outcome, count) == 40, "outcome");
_Static_assert(offsetof(struct reencode_outcome, stated) == 48 && offsetof(struct reencode_outcome, rows) == 52, "outcome");
_Static_assert(offsetof(struct reencode_outcome, id) == 56 && offsetof(struct reencode_outcome, spare) == 60, "outcome");
#endif

static int failed;

static void fail(const char *what, unsigned long line) {
    fprintf(stderr, "case %lu: %s\n", line, what);
    failed = 1;
}

#ifdef REFUSING
/* The library's three functions for memory, of which one request is refused. */
static long requests, refused = -1, live;

static void *refusing_malloc(size_t size) {
    if (requests++ == refused) return NULL;
    live++;
    return malloc(size);
}

static void *refusing_realloc(void *at, size_t size) { return requests++ == refused ? NULL : realloc(at, size); }

static void counting_free(void *at) {
    live--;
    free(at);
}

#define malloc refusing_malloc
#define realloc refusing_realloc
#define free counting_free
#include "../heap.c"
#undef malloc
#undef realloc
#undef free
#endif

/* ---- A case. */
enum { PLAIN, RENAME, ANSWER, VISITS, RENUMBER, PRUNE, MERGE, CALLS, CALL_COUNT };

struct test_case {
    int call;
    uint32_t ceiling, strict;
    struct reencode_entry *entries;
    uint32_t *order;
    size_t entry_count;
    uint8_t *bytes, *second;
    size_t length, second_length;
    unsigned long line;
};

/* What came of a call, and the output where there is one. */
struct result {
    struct reencode_outcome outcome;
    uint8_t *made;
    size_t size;
    uint32_t *kept;
};

static uint32_t answer_of(const struct test_case *it, const struct reencode_visit *visit) {
    size_t i;
    if (visit->kind == REENCODE_PUSH || visit->kind == REENCODE_POP) return 0;
    for (i = it->entry_count; i-- > 0;)
        if (it->entries[i].space == visit->space && it->entries[i].from == visit->index) return it->entries[i].to;
    return visit->index;
}

/* One call with rooms of so many items, which lie between nothing else: a tool sees what is read or written outside. */
static uint32_t call(const struct test_case *it, int which, const uint32_t *answers, size_t answer_count, void *room, size_t count,
                     uint32_t *kept, size_t kept_count, struct reencode_outcome *outcome) {
    memset(outcome, 0xA5, sizeof *outcome);
    switch (which) {
    case PLAIN: return reencode_plain(it->bytes, it->length, it->ceiling, room, count, outcome);
    case RENAME:
        return reencode_rename(it->bytes, it->length, it->entries, it->entry_count, it->strict, it->ceiling, room, count, outcome);
    case VISITS: return reencode_visits(it->bytes, it->length, room, count, outcome);
    case RENUMBER:
        return reencode_renumber(it->bytes, it->length, it->order, it->entry_count, it->ceiling, room, count, outcome);
    case PRUNE: return reencode_prune(it->bytes, it->length, it->ceiling, room, count, kept, kept_count, outcome);
    case MERGE:
        return reencode_merge(it->bytes, it->length, it->second, it->second_length, it->ceiling, room, count, outcome);
    case CALLS: return reencode_calls(it->bytes, it->length, room, count, outcome);
    default: return reencode_answer(it->bytes, it->length, answers, answer_count, it->ceiling, room, count, outcome);
    }
}

/* Whether what does not go with the status is 0. */
static int is_cleared(const struct reencode_outcome *it, int which) {
    uint32_t status = it->status;
    int room = status == REENCODE_DONE || status == REENCODE_TOO_SMALL, named = status == REENCODE_EXPORT_CLASH;
    int by = which == MERGE && (status == REENCODE_PARSE_ERROR || status == REENCODE_CODE_SECTION_SIZE ||
                                status == REENCODE_NON_CORE_MODULE || status == REENCODE_DANGLING || status == REENCODE_UNEVEN ||
                                status == REENCODE_REPEATED_SECTION);
    if (it->spare || (it->by && !by) || (by && it->by != 1 && it->by != 2)) return 0;
    if (it->length && !room && !named && status != REENCODE_MISCOUNTED) return 0;
    if (it->count && !(room && which == PRUNE)) return 0;
    if (it->place && status != REENCODE_PARSE_ERROR && status != REENCODE_BAD_RENAMING && status != REENCODE_NOT_AN_ORDER) return 0;
    if (it->size && status != REENCODE_TOO_LARGE) return 0;
    if ((it->stated || it->rows) && status != REENCODE_UNEVEN) return 0;
    if (it->id && status != REENCODE_REPEATED_SECTION) return 0;
    return (!it->space && !it->index) || status == REENCODE_REFUSED || status == REENCODE_BAD_RENAMING || status == REENCODE_DANGLING;
}

/* Whether the room is as it was filled before. */
static int is_untouched(const void *room, size_t size) {
    const uint8_t *bytes = room;
    size_t i;
    for (i = 0; i < size && bytes[i] == 0x5A; i++) {}
    return i == size;
}

/* Calls without room, with too little, and with exactly the wanted room. */
static struct result in_room(const struct test_case *it, int which, const uint32_t *answers, size_t answer_count) {
    struct result result = {0};
    size_t item = which == VISITS ? sizeof(struct reencode_visit) : which == CALLS ? sizeof(uint32_t) : 1, wanted, kept;
    uint8_t *room;
    uint32_t *kept_room;
    uint32_t status = call(it, which, answers, answer_count, NULL, 0, NULL, 0, &result.outcome), small = status;
    if (status != result.outcome.status || !is_cleared(&result.outcome, which)) fail("the outcome is not as answered", it->line);
    if (status != REENCODE_TOO_SMALL && status != REENCODE_EXPORT_CLASH) return result;
    if (status == REENCODE_EXPORT_CLASH && !result.outcome.length) return result;
    wanted = result.outcome.length;
    kept = result.outcome.count;
    room = malloc(wanted * item);
    kept_room = malloc((kept ? kept : 1) * sizeof *kept_room);
    if (!room || !kept_room) {
        free(room);
        free(kept_room);
        result.outcome.status = REENCODE_NO_MEMORY;
        return result;
    }
    memset(room, 0x5A, wanted * item);
    memset(kept_room, 0x5A, (kept ? kept : 1) * sizeof *kept_room);
    status = call(it, which, answers, answer_count, room, wanted - 1, kept_room, kept, &result.outcome);
    if (status == small && (result.outcome.length != wanted || result.outcome.count != kept)) fail("another room is wanted", it->line);
    if (kept) {
        status = call(it, which, answers, answer_count, room, wanted, kept_room, kept - 1, &result.outcome);
        if (status == small && (result.outcome.length != wanted || result.outcome.count != kept)) fail("another room is wanted", it->line);
    }
    if (!is_untouched(room, wanted * item) || !is_untouched(kept_room, kept * sizeof *kept_room))
        fail("room was written that is too small", it->line);
    status = call(it, which, answers, answer_count, room, wanted, kept_room, kept, &result.outcome);
    if (!is_cleared(&result.outcome, which)) fail("the outcome is not as answered", it->line);
    if ((status == REENCODE_DONE || status == REENCODE_EXPORT_CLASH) && result.outcome.length == wanted && result.outcome.count == kept) {
        result.made = room;
        result.size = wanted * item;
        if (which == PRUNE) result.kept = kept_room;
        else free(kept_room);
    } else {
        if (!is_untouched(room, wanted * item) || !is_untouched(kept_room, kept * sizeof *kept_room))
            fail("room was written with a status that is not 0", it->line);
        if (status == REENCODE_DONE || status == REENCODE_EXPORT_CLASH) fail("another length came", it->line);
        free(room);
        free(kept_room);
    }
    return result;
}

static struct result run(const struct test_case *it) {
    struct result listed, result;
    struct reencode_visit *visits;
    uint32_t *answers;
    size_t count, i;
    if (it->call != ANSWER) return in_room(it, it->call, NULL, 0);
    listed = in_room(it, VISITS, NULL, 0);
    if (listed.outcome.status != REENCODE_DONE) return listed;
    visits = (struct reencode_visit *)(void *)listed.made;
    count = listed.outcome.length;
    answers = malloc((count + 1) * sizeof *answers);
    if (!answers) {
        free(listed.made);
        listed.made = NULL;
        listed.outcome.status = REENCODE_NO_MEMORY;
        return listed;
    }
    for (i = 0; i < count; i++) answers[i] = answer_of(it, &visits[i]);
    answers[count] = 0;
    result = in_room(it, ANSWER, answers, count);
    if (result.outcome.status == REENCODE_DONE) {
        /* One more and one fewer are refused, and the number that is wanted is told. */
        struct reencode_outcome outcome;
        uint32_t status = call(it, ANSWER, answers, count + 1, NULL, 0, NULL, 0, &outcome);
        if (status != REENCODE_NO_MEMORY && (status != REENCODE_MISCOUNTED || outcome.length != count)) fail("one answer more", it->line);
        status = count ? call(it, ANSWER, answers, count - 1, NULL, 0, NULL, 0, &outcome) : (uint32_t)REENCODE_NO_MEMORY;
        if (status != REENCODE_NO_MEMORY && status != REENCODE_TOO_LARGE && (status != REENCODE_MISCOUNTED || outcome.length != count))
            fail("one answer fewer", it->line);
    }
    free(answers);
    free(listed.made);
    return result;
}

/* ---- Lines. */
static int digit(int c) { return isdigit(c) ? c - '0' : tolower(c) - 'a' + 10; }

static uint8_t *read_file(const char *path, size_t *length) {
    FILE *file = fopen(path, "rb");
    uint8_t *bytes = NULL;
    long size;
    if (file && !fseek(file, 0, SEEK_END) && (size = ftell(file)) >= 0 && !fseek(file, 0, SEEK_SET)) {
        *length = (size_t)size;
        bytes = malloc(*length ? *length : 1);
        if (bytes && fread(bytes, 1, *length, file) != *length) exit(3);
    }
    if (!file || !bytes) exit(3);
    fclose(file);
    return bytes;
}

/* The bytes of a word, null where there are none. */
static uint8_t *read_bytes(const char *word, size_t *length) {
    uint8_t *bytes;
    size_t i;
    if (*word == '@') return read_file(word + 1, length);
    *length = strcmp(word, "-") ? strlen(word) / 2 : 0;
    bytes = *length ? malloc(*length) : NULL;
    for (i = 0; i < *length; i++) bytes[i] = (uint8_t)(16 * digit(word[2 * i]) + digit(word[2 * i + 1]));
    return bytes;
}

static int read_case(char *line, struct test_case *it) {
    static const char *const names[CALL_COUNT] = {"plain", "rename", "answer", "visits", "renumber", "prune", "merge", "calls"};
    char *word = strtok(line, " \n"), *at;
    size_t i;
    if (!word) return 0;
    for (it->call = 0; it->call < CALL_COUNT && strcmp(names[it->call], word); it->call++) {}
    if (it->call == CALL_COUNT) exit(2);
    it->ceiling = (uint32_t)strtoul(strtok(NULL, " \n"), NULL, 10);
    it->strict = (uint32_t)strtoul(strtok(NULL, " \n"), NULL, 10);
    word = strtok(NULL, " \n");
    if (strcmp(word, "-")) {
        for (it->entry_count = 1, at = word; *at; at++) it->entry_count += *at == ',';
        if (it->call == RENUMBER) {
            it->order = malloc(it->entry_count * sizeof *it->order);
            for (i = 0, at = word; i < it->entry_count; i++, at++) it->order[i] = (uint32_t)strtoul(at, &at, 10);
        } else {
            it->entries = malloc(it->entry_count * sizeof *it->entries);
            for (i = 0, at = word; i < it->entry_count; i++, at++) {
                it->entries[i].space = (uint32_t)strtoul(at, &at, 10);
                it->entries[i].from = (uint32_t)strtoul(at + 1, &at, 10);
                it->entries[i].to = (uint32_t)strtoul(at + 1, &at, 10);
            }
        }
    }
    word = strtok(NULL, " \n");
    at = it->call == MERGE ? strchr(word, '+') : NULL;
    if (at) {
        *at = 0;
        it->second = read_bytes(at + 1, &it->second_length);
    }
    it->bytes = read_bytes(word, &it->length);
    return 1;
}

static void free_case(const struct test_case *it) {
    free(it->entries);
    free(it->order);
    free(it->bytes);
    free(it->second);
}

static void free_result(const struct result *result) {
    free(result->made);
    free(result->kept);
}

static void print_numbers(const uint32_t *numbers, size_t count) {
    size_t i;
    for (i = 0; i < count; i++) printf("%s%lu", i ? "," : "", (unsigned long)numbers[i]);
}

static void print_result(const struct test_case *it, const struct result *result) {
    const struct reencode_outcome *o = &result->outcome;
    size_t i;
    printf("%u %zu %llu %llu %u %u ", o->status, o->length, (unsigned long long)o->place, (unsigned long long)o->size, o->space, o->index);
    printf("%u %zu %u %u %u ", o->by, o->count, o->stated, o->rows, o->id);
    if (it->call == VISITS && o->status == REENCODE_DONE) {
        const struct reencode_visit *visits = (const struct reencode_visit *)(const void *)result->made;
        for (i = 0; i < o->length; i++) {
            const struct reencode_visit *v = &visits[i];
            printf("%s%u:%u:%u:%u:%u:%u", i ? "," : "", v->kind, v->space, v->count, v->index, v->section, v->row);
        }
    } else if (it->call == CALLS && o->status == REENCODE_DONE) {
        print_numbers((const uint32_t *)(const void *)result->made, o->length);
    } else {
        static const char digits[] = "0123456789abcdef";
        for (i = 0; i < result->size; i++) {
            putchar(digits[result->made[i] >> 4]);
            putchar(digits[result->made[i] & 15]);
        }
    }
    if (it->call == PRUNE && o->status == REENCODE_DONE) {
        putchar(':');
        print_numbers(result->kept, o->count);
    }
    printf("%s\n", result->size ? "" : "-");
}

static int is_same(const struct result *one, const struct result *other) {
    return !memcmp(&one->outcome, &other->outcome, sizeof one->outcome) && one->size == other->size &&
           (!one->size || !memcmp(one->made, other->made, one->size)) && !one->kept == !other->kept &&
           (!one->kept || !memcmp(one->kept, other->kept, one->outcome.count * sizeof *one->kept));
}

#ifdef REFUSING
/* Each request for memory is refused in turn: the status is then 1, or all is as it was before. */
static void refuse_each(const struct test_case *it, const struct result *whole) {
    for (refused = 0;; refused++) {
        struct result result;
        long before = live;
        requests = 0;
        result = run(it);
        if (live != before) fail("a block was left", it->line);
        if (result.outcome.status != REENCODE_NO_MEMORY && !is_same(&result, whole)) fail("another result where memory ran out", it->line);
        free_result(&result);
        if (requests <= refused) break;
    }
    refused = -1;
}
#endif

/* ---- Threads. */
static struct test_case *cases;
static struct result *results;
static size_t case_count;

static void *all_again(void *at) {
    size_t i, n;
    for (n = 0; n < 3; n++)
        for (i = 0; i < case_count; i++) {
            struct result result = run(&cases[i]);
            if (!is_same(&result, &results[i])) *(int *)at = 1;
            free_result(&result);
        }
    return NULL;
}

static void in_threads(void) {
    pthread_t threads[4];
    int differs[4] = {0, 0, 0, 0}, i;
    for (i = 0; i < 4; i++)
        if (pthread_create(&threads[i], NULL, all_again, &differs[i])) exit(3);
    for (i = 0; i < 4; i++) {
        pthread_join(threads[i], NULL);
        if (differs[i]) fail("another result in a thread", 0);
    }
}

int main(int argc, char **argv) {
    const char *what = argc == 2 ? argv[1] : "";
    char *line = NULL;
    size_t room = 0, i;
    unsigned long number = 0;
    if (strcmp(what, "cases") && strcmp(what, "memory") && strcmp(what, "threads")) return 2;
    while (getline(&line, &room, stdin) > 0) {
        struct test_case it = {0};
        struct result result;
        it.line = ++number;
        if (!read_case(line, &it)) continue;
        result = run(&it);
        if (!strcmp(what, "cases")) print_result(&it, &result);
#ifdef REFUSING
        if (!strcmp(what, "memory")) refuse_each(&it, &result);
#endif
        if (!strcmp(what, "threads")) {
            cases = realloc(cases, (case_count + 1) * sizeof *cases);
            results = realloc(results, (case_count + 1) * sizeof *results);
            if (!cases || !results) return 3;
            cases[case_count] = it;
            results[case_count++] = result;
            continue;
        }
        free_result(&result);
        free_case(&it);
    }
    free(line);
    if (!strcmp(what, "threads")) in_threads();
    for (i = 0; i < case_count; i++) {
        free_result(&results[i]);
        free_case(&cases[i]);
    }
    free(cases);
    free(results);
    if (strcmp(what, "cases")) printf("%lu cases\n", number);
    return failed;
}
