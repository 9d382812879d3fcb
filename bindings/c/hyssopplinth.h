/* Hyssopplinth: WebAssembly modules and components re-encoded with other indices, and tools over core modules, for C and C++.
   docs/C.md tells how. */
#ifndef HYSSOPPLINTH_H
#define HYSSOPPLINTH_H

#include <stddef.h>
#include <stdint.h>
#include <stdio.h>
#include <stdlib.h>

/* The version of the library whose calls stand here: 0.2 brought the tools over core modules, 0.3 the places of visits. */
#define REENCODE_VERSION_MAJOR 0
#define REENCODE_VERSION_MINOR 3
#define REENCODE_VERSION_PATCH 0
#define REENCODE_VERSION "0.3.0"

#ifdef __cplusplus
extern "C" {
#endif

/* The version of this header, as text. */
static inline const char *reencode_version(void) { return REENCODE_VERSION; }

/* What a call answers. The numbers from 0 to 14 and from 17 to 20 are the program's exit statuses, 115 and 116 are its 15 and 16, and
   no number is ever given another meaning. In brackets what the outcome holds beside it; where two modules are merged, [by] tells in
   5, 7, 8, 18, 115 and 116 which of them it is, 1 or 2. */
enum {
    REENCODE_DONE = 0,              /* [length] of the output, which is the front of the room; [count] of the kept functions */
    REENCODE_NO_MEMORY = 1,
    REENCODE_PARSE_ERROR = 5,       /* [place] of the first section without a reading, or 0 without a header */
    REENCODE_REFUSED = 6,           /* [space, index] a strict renaming has no entry for */
    REENCODE_CODE_SECTION_SIZE = 7, /* a code section states a size that passes the end */
    REENCODE_NON_CORE_MODULE = 8,   /* the header of a component stands where a core module is taken */
    REENCODE_NON_COMPONENT = 9,     /* the header of a core module stands where a component is taken */
    REENCODE_TOO_LARGE = 10,        /* [size] of the first frame above the ceiling */
    REENCODE_BAD_RENAMING = 11,     /* [place, space, index] the first entry whose space is none of those below, whatever the bytes are */
    REENCODE_MISCOUNTED = 15,       /* [length] so many answers are wanted, one for each visit; the frames fit by those that there are */
    REENCODE_TOO_SMALL = 16,        /* [length] of the room that is wanted; [count] of that for the kept functions */
    REENCODE_NOT_AN_ORDER = 17,     /* [place] of the first number that is too great or stood before, or is missing or too many */
    REENCODE_DANGLING = 18,         /* [space, index] the first index that is not there */
    REENCODE_EXPORT_CLASH = 19,     /* [length] of the first name that the second module exports and the first does too; it is the
                                       front of the room where that is long enough, and else the room is as it was */
    REENCODE_TWO_STARTS = 20,       /* both modules have a start */
    REENCODE_UNEVEN = 115,          /* [stated, rows] so many functions are stated, and so many bodies stand there; or data segments */
    REENCODE_REPEATED_SECTION = 116 /* [id] two sections have this id */
};

/* The index spaces. REENCODE_DATA_COUNT is the number in a data count section. */
enum {
    REENCODE_DATA = 0,
    REENCODE_ELEMENT = 1,
    REENCODE_FUNCTION = 2,
    REENCODE_GLOBAL = 3,
    REENCODE_MEMORY = 4,
    REENCODE_TABLE = 5,
    REENCODE_TAG = 6,
    REENCODE_TYPE = 7,
    REENCODE_DATA_COUNT = 8,
    /* of components */
    REENCODE_COMPONENT_TYPE = 9,
    REENCODE_COMPONENT_INSTANCE = 10,
    REENCODE_COMPONENT_FUNC = 11,
    REENCODE_COMPONENT = 12,
    REENCODE_MODULE = 13,
    REENCODE_INSTANCE = 14,
    REENCODE_COMPONENT_VALUE = 15
};

/* What is asked at a visit: an index; one of `count` scopes further out; the begin of a scope, as of a nested module, or its end. */
enum { REENCODE_INDEX = 0, REENCODE_OUTER = 1, REENCODE_PUSH = 2, REENCODE_POP = 3 };

/* The index `from` of a space becomes `to`. Entries stand in any order; of several for an index the last counts. */
struct reencode_entry {
    uint32_t space, from, to;
};

/* The sections of core modules, by their ids. */
enum {
    REENCODE_CUSTOM_SECTION = 0,
    REENCODE_TYPE_SECTION = 1,
    REENCODE_IMPORT_SECTION = 2,
    REENCODE_FUNCTION_SECTION = 3,
    REENCODE_TABLE_SECTION = 4,
    REENCODE_MEMORY_SECTION = 5,
    REENCODE_GLOBAL_SECTION = 6,
    REENCODE_EXPORT_SECTION = 7,
    REENCODE_START_SECTION = 8,
    REENCODE_ELEMENT_SECTION = 9,
    REENCODE_CODE_SECTION = 10,
    REENCODE_DATA_SECTION = 11,
    REENCODE_DATA_COUNT_SECTION = 12,
    REENCODE_TAG_SECTION = 13
};

/* What stands in no row that is told. No section has a row of this number. */
#define REENCODE_NO_ROW UINT32_MAX

/* A visit: one occurrence of an index, or the begin or end of a scope, of which `space`, `count` and `index` are 0; and where it stands.

   In a core module `section` is the id of its section, and `row` the number of the row in that section, counted from 0: of an import,
   a type or a group of types, a function's type, a table, a memory, a global, an export, an element segment, a function's body, a data
   segment or a tag. So a function's own index is that of its body and the number of the imported ones. REENCODE_NO_ROW stands for what
   is in no row: the start (section 8), the data count (12), and the names of a custom section (0).

   In a component rows are not told: `row` is REENCODE_NO_ROW. In the sections from 1 to 13 of a core module inside it `section` is the
   id. Everywhere else it is 0: in its own sections, in custom ones, and at the begin and the end of a scope. */
struct reencode_visit {
    uint32_t kind, space, count, index, section, row;
};

/* What a call answers. A call writes all of it; what does not go with the status is 0. */
struct reencode_outcome {
    size_t length;
    uint64_t place, size;
    uint32_t status, space, index, by;
    size_t count;
    uint32_t stated, rows, id, spare;
};

/* A ceiling is the most bytes that a frame (a section's body, a function's) of the output may have. */
#define REENCODE_NO_CEILING UINT32_MAX

/* ---- The library's own calls, as the linker knows them.

   Each answers the status, which the outcome holds too. It reads `bytes` and what else is handed in, writes the room and the
   outcome, keeps none of them, and frees what it allocates. No pointer is null, also where its count is 0; each is aligned for
   its type; the rooms and the outcome overlap nothing. With every status but 0 and REENCODE_EXPORT_CLASH the rooms are as they were;
   with 0 what stands behind the first [length] items, or [count], may be overwritten. A count is of items. */

uint32_t reencode_raw_plain(const uint8_t *bytes, size_t length, uint32_t ceiling,
                            uint8_t *room, size_t room_length, struct reencode_outcome *outcome);
uint32_t reencode_raw_rename(const uint8_t *bytes, size_t length, const struct reencode_entry *entries, size_t entry_count,
                             uint32_t strict, uint32_t ceiling,
                             uint8_t *room, size_t room_length, struct reencode_outcome *outcome);
uint32_t reencode_raw_visits(const uint8_t *bytes, size_t length,
                             struct reencode_visit *room, size_t room_count, struct reencode_outcome *outcome);
uint32_t reencode_raw_answer(const uint8_t *bytes, size_t length, const uint32_t *answers, size_t answer_count,
                             uint32_t ceiling, uint8_t *room, size_t room_length, struct reencode_outcome *outcome);

/* These take core modules alone. */
uint32_t reencode_raw_renumber(const uint8_t *bytes, size_t length, const uint32_t *order, size_t order_count,
                               uint32_t ceiling, uint8_t *room, size_t room_length, struct reencode_outcome *outcome);
uint32_t reencode_raw_prune(const uint8_t *bytes, size_t length, uint32_t ceiling, uint8_t *room, size_t room_length,
                            uint32_t *kept, size_t kept_count, struct reencode_outcome *outcome);
uint32_t reencode_raw_merge(const uint8_t *first, size_t first_length, const uint8_t *second, size_t second_length,
                            uint32_t ceiling, uint8_t *room, size_t room_length, struct reencode_outcome *outcome);
uint32_t reencode_raw_calls(const uint8_t *bytes, size_t length,
                            uint32_t *room, size_t room_count, struct reencode_outcome *outcome);

/* ---- The same, where null is taken for what is empty. What follows is C over these calls, and not proved. */

static const uint64_t reencode_nothing[2] = {0, 0};

#ifdef __cplusplus
#define REENCODE_AS(type, pointer) const_cast<type *>(reinterpret_cast<const type *>(pointer))
#else
#define REENCODE_AS(type, pointer) ((type *)(uintptr_t)(pointer))
#endif
#define REENCODE_SOME(type, pointer) ((pointer) ? (pointer) : REENCODE_AS(type, reencode_nothing))

/* The normal spelling, with no index renamed. */
static inline uint32_t reencode_plain(const uint8_t *bytes, size_t length, uint32_t ceiling,
                                      uint8_t *room, size_t room_length, struct reencode_outcome *outcome) {
    return reencode_raw_plain(REENCODE_SOME(uint8_t, bytes), length, ceiling,
                              REENCODE_SOME(uint8_t, room), room_length, outcome);
}

/* The same with the indices renamed by entries. An index without an entry stays; where `strict` is not 0, one of a core module's
   eight spaces is refused. */
static inline uint32_t reencode_rename(const uint8_t *bytes, size_t length, const struct reencode_entry *entries,
                                       size_t entry_count, uint32_t strict, uint32_t ceiling,
                                       uint8_t *room, size_t room_length, struct reencode_outcome *outcome) {
    return reencode_raw_rename(REENCODE_SOME(uint8_t, bytes), length, REENCODE_SOME(struct reencode_entry, entries), entry_count,
                               strict, ceiling, REENCODE_SOME(uint8_t, room), room_length, outcome);
}

/* The visits, in order, with their places. They depend on the bytes alone. It takes as much memory as the room has,
   beside what re-encoding a section takes, or a whole component. */
static inline uint32_t reencode_visits(const uint8_t *bytes, size_t length,
                                       struct reencode_visit *room, size_t room_count, struct reencode_outcome *outcome) {
    return reencode_raw_visits(REENCODE_SOME(uint8_t, bytes), length,
                               REENCODE_SOME(struct reencode_visit, room), room_count, outcome);
}

/* The normal spelling with these answers in the places of the visits: one for each, in order. That of a begin or an end of a scope
   is not looked at. */
static inline uint32_t reencode_answer(const uint8_t *bytes, size_t length, const uint32_t *answers, size_t answer_count,
                                       uint32_t ceiling, uint8_t *room, size_t room_length, struct reencode_outcome *outcome) {
    return reencode_raw_answer(REENCODE_SOME(uint8_t, bytes), length, REENCODE_SOME(uint32_t, answers), answer_count, ceiling,
                               REENCODE_SOME(uint8_t, room), room_length, outcome);
}

/* A core module with its defined functions in another order, the j-th at the place `order[j]`, and each use of one renamed. The order
   has each number below that of the defined functions once. */
static inline uint32_t reencode_renumber(const uint8_t *bytes, size_t length, const uint32_t *order, size_t order_count,
                                         uint32_t ceiling, uint8_t *room, size_t room_length, struct reencode_outcome *outcome) {
    return reencode_raw_renumber(REENCODE_SOME(uint8_t, bytes), length, REENCODE_SOME(uint32_t, order), order_count, ceiling,
                                 REENCODE_SOME(uint8_t, room), room_length, outcome);
}

/* A core module without the functions that nothing reaches from its exports, its start, its segments and the initial values of
   globals and tables; and the defined functions that stay, [count] of them, by their old indices, rising. Where either room is too
   small, neither is written. */
static inline uint32_t reencode_prune(const uint8_t *bytes, size_t length, uint32_t ceiling, uint8_t *room, size_t room_length,
                                      uint32_t *kept, size_t kept_count, struct reencode_outcome *outcome) {
    return reencode_raw_prune(REENCODE_SOME(uint8_t, bytes), length, ceiling, REENCODE_SOME(uint8_t, room), room_length,
                              REENCODE_SOME(uint32_t, kept), kept_count, outcome);
}

/* One core module of two: the imports of both, then the definitions of the first and of the second. No import is resolved. */
static inline uint32_t reencode_merge(const uint8_t *first, size_t first_length, const uint8_t *second, size_t second_length,
                                      uint32_t ceiling, uint8_t *room, size_t room_length, struct reencode_outcome *outcome) {
    return reencode_raw_merge(REENCODE_SOME(uint8_t, first), first_length, REENCODE_SOME(uint8_t, second), second_length, ceiling,
                              REENCODE_SOME(uint8_t, room), room_length, outcome);
}

/* Which functions a core module asks for, as often as it does, in order: its roots, and what the body of each defined function asks
   for. The list has first the number of imported functions; then where the roots begin in it, where what each defined function asks
   for begins, and where the last of these ends; and then these. */
static inline uint32_t reencode_calls(const uint8_t *bytes, size_t length,
                                      uint32_t *room, size_t room_count, struct reencode_outcome *outcome) {
    return reencode_raw_calls(REENCODE_SOME(uint8_t, bytes), length, REENCODE_SOME(uint32_t, room), room_count, outcome);
}

/* How many functions such a list has behind the imported ones. */
static inline uint32_t reencode_calls_defined(const uint32_t *calls) { return calls[1] - 3; }

/* The roots of such a list, at 0, or what the defined function j asks for, at j + 1: `*count` of them. */
static inline const uint32_t *reencode_calls_at(const uint32_t *calls, size_t place, size_t *count) {
    *count = calls[place + 2] - calls[place + 1];
    return calls + calls[place + 1];
}

/* ---- The same, which allocate the room. `*made` is for free(); it is NULL where the status is not 0, but that with
   REENCODE_EXPORT_CLASH it is the name. */

/* Calls with room for so many, and once more where it was too small. */
#define REENCODE_INTO(made, type, first, outcome, call)                                                       \
    do {                                                                                                      \
        size_t room_length = (first);                                                                         \
        type *room = REENCODE_AS(type, malloc((room_length ? room_length : 1) * sizeof(type)));               \
        *(made) = NULL;                                                                                       \
        (outcome)->status = REENCODE_NO_MEMORY;                                                               \
        if (room && (call) == REENCODE_TOO_SMALL) {                                                           \
            room_length = (outcome)->length;                                                                  \
            free(room);                                                                                       \
            room = NULL;                                                                                      \
            (outcome)->status = REENCODE_NO_MEMORY;                                                           \
            if (room_length <= SIZE_MAX / sizeof(type))                                                       \
                room = REENCODE_AS(type, malloc(room_length * sizeof(type)));                                 \
            if (room) (void)(call);                                                                           \
        }                                                                                                     \
        if ((outcome)->status == REENCODE_DONE || (outcome)->status == REENCODE_EXPORT_CLASH) *(made) = room; \
        else free(room);                                                                                      \
    } while (0)

static inline uint32_t reencode_plain_new(const uint8_t *bytes, size_t length, uint32_t ceiling,
                                          uint8_t **made, struct reencode_outcome *outcome) {
    REENCODE_INTO(made, uint8_t, length, outcome, reencode_plain(bytes, length, ceiling, room, room_length, outcome));
    return outcome->status;
}

static inline uint32_t reencode_rename_new(const uint8_t *bytes, size_t length, const struct reencode_entry *entries,
                                           size_t entry_count, uint32_t strict, uint32_t ceiling,
                                           uint8_t **made, struct reencode_outcome *outcome) {
    REENCODE_INTO(made, uint8_t, length + length / 8 + 64, outcome,
                  reencode_rename(bytes, length, entries, entry_count, strict, ceiling, room, room_length, outcome));
    return outcome->status;
}

static inline uint32_t reencode_visits_new(const uint8_t *bytes, size_t length,
                                           struct reencode_visit **made, struct reencode_outcome *outcome) {
    REENCODE_INTO(made, struct reencode_visit, length / 8 + 64, outcome,
                  reencode_visits(bytes, length, room, room_length, outcome));
    return outcome->status;
}

static inline uint32_t reencode_answer_new(const uint8_t *bytes, size_t length, const uint32_t *answers, size_t answer_count,
                                           uint32_t ceiling, uint8_t **made, struct reencode_outcome *outcome) {
    REENCODE_INTO(made, uint8_t, length + length / 8 + 64, outcome,
                  reencode_answer(bytes, length, answers, answer_count, ceiling, room, room_length, outcome));
    return outcome->status;
}

static inline uint32_t reencode_renumber_new(const uint8_t *bytes, size_t length, const uint32_t *order, size_t order_count,
                                             uint32_t ceiling, uint8_t **made, struct reencode_outcome *outcome) {
    REENCODE_INTO(made, uint8_t, length + length / 8 + 64, outcome,
                  reencode_renumber(bytes, length, order, order_count, ceiling, room, room_length, outcome));
    return outcome->status;
}

/* `*kept` is for free() too. A function takes four bytes of a module at least. */
static inline uint32_t reencode_prune_new(const uint8_t *bytes, size_t length, uint32_t ceiling,
                                          uint8_t **made, uint32_t **kept, struct reencode_outcome *outcome) {
    size_t count = length / 4 + 1;
    uint32_t *functions = REENCODE_AS(uint32_t, malloc(count * sizeof(uint32_t)));
    *made = NULL;
    outcome->status = REENCODE_NO_MEMORY;
    if (functions)
        REENCODE_INTO(made, uint8_t, length + 64, outcome,
                      reencode_prune(bytes, length, ceiling, room, room_length, functions, count, outcome));
    *kept = *made ? functions : NULL;
    if (!*made) free(functions);
    return outcome->status;
}

/* The first room takes each name of the second module. */
static inline uint32_t reencode_merge_new(const uint8_t *first, size_t first_length, const uint8_t *second, size_t second_length,
                                          uint32_t ceiling, uint8_t **made, struct reencode_outcome *outcome) {
    REENCODE_INTO(made, uint8_t, first_length + second_length + (first_length + second_length) / 8 + 64, outcome,
                  reencode_merge(first, first_length, second, second_length, ceiling, room, room_length, outcome));
    return outcome->status;
}

static inline uint32_t reencode_calls_new(const uint8_t *bytes, size_t length,
                                          uint32_t **made, struct reencode_outcome *outcome) {
    REENCODE_INTO(made, uint32_t, length / 4 + 64, outcome, reencode_calls(bytes, length, room, room_length, outcome));
    return outcome->status;
}

/* ---- A hook: it writes the new index of a visit and returns 0, or refuses by another number. */
typedef int (*reencode_hook)(void *context, const struct reencode_visit *visit, uint32_t *answer);

/* Re-encodes by a hook, which is asked once a visit, in order, between two calls of the library. Nothing is asked of bytes without a
   reading. */
static inline uint32_t reencode_with(const uint8_t *bytes, size_t length, reencode_hook hook, void *context,
                                     uint32_t ceiling, uint8_t **made, struct reencode_outcome *outcome) {
    struct reencode_visit *visits;
    uint32_t *answers;
    size_t count, i;
    *made = NULL;
    if (reencode_visits_new(bytes, length, &visits, outcome) != REENCODE_DONE) return outcome->status;
    count = outcome->length;
    outcome->length = 0;
    answers = REENCODE_AS(uint32_t, malloc((count ? count : 1) * sizeof(uint32_t)));
    if (!answers) outcome->status = REENCODE_NO_MEMORY;
    for (i = 0; answers && i < count; i++) {
        answers[i] = visits[i].index;
        if (hook(context, &visits[i], &answers[i])) {
            outcome->status = REENCODE_REFUSED;
            outcome->space = visits[i].space;
            outcome->index = visits[i].index;
            break;
        }
    }
    free(visits);
    if (outcome->status == REENCODE_DONE) reencode_answer_new(bytes, length, answers, count, ceiling, made, outcome);
    free(answers);
    return outcome->status;
}

/* ---- Texts. */

/* The name of a space. */
static inline const char *reencode_space_name(uint32_t space) {
    static const char *const names[16] = {"data", "element", "function", "global", "memory", "table", "tag", "type", "data_count",
                                          "component_type", "component_instance", "component_func", "component", "module",
                                          "instance", "component_value"};
    return space < 16 ? names[space] : "no space";
}

/* Writes what an outcome says, in a line without its end: for 0 nothing, and the program's own text for what it has too, but that
   the name of 19, which the outcome does not hold, is left out. It answers the text's length, as snprintf does. */
static inline int reencode_say(const struct reencode_outcome *outcome, uint32_t ceiling, char *text, size_t size) {
    unsigned long long place = outcome->place, frame = outcome->size, length = outcome->length, count = outcome->count;
    const char *by = outcome->by == 1 ? " by 1" : outcome->by == 2 ? " by 2" : "";
    switch (outcome->status) {
    case REENCODE_DONE: return snprintf(text, size, "%s", "");
    case REENCODE_NO_MEMORY: return snprintf(text, size, "no memory");
    case REENCODE_PARSE_ERROR: return snprintf(text, size, "parse error at %llu%s", place, by);
    case REENCODE_REFUSED:
        return snprintf(text, size, "refused %s %lu", reencode_space_name(outcome->space), (unsigned long)outcome->index);
    case REENCODE_CODE_SECTION_SIZE: return snprintf(text, size, "invalid code section size%s", by);
    case REENCODE_NON_CORE_MODULE:
        return snprintf(text, size, "There was a section that does not belong in a core wasm module%s", by);
    case REENCODE_NON_COMPONENT: return snprintf(text, size, "There was a section that does not belong in a component");
    case REENCODE_TOO_LARGE: return snprintf(text, size, "too large: %llu over %lu", frame, (unsigned long)ceiling);
    case REENCODE_BAD_RENAMING: return snprintf(text, size, "bad renaming");
    case REENCODE_MISCOUNTED: return snprintf(text, size, "wrong number of answers: %llu are wanted", length);
    case REENCODE_TOO_SMALL:
        return outcome->count ? snprintf(text, size, "room too small: %llu and %llu are wanted", length, count)
                              : snprintf(text, size, "room too small: %llu are wanted", length);
    case REENCODE_NOT_AN_ORDER: return snprintf(text, size, "not an order at %llu", place);
    case REENCODE_DANGLING:
        return snprintf(text, size, "dangling %s %lu%s", reencode_space_name(outcome->space), (unsigned long)outcome->index, by);
    case REENCODE_EXPORT_CLASH: return snprintf(text, size, "export clash");
    case REENCODE_TWO_STARTS: return snprintf(text, size, "two starts");
    case REENCODE_UNEVEN:
        return snprintf(text, size, "uneven: %lu and %lu%s", (unsigned long)outcome->stated, (unsigned long)outcome->rows, by);
    case REENCODE_REPEATED_SECTION: return snprintf(text, size, "repeated section %lu%s", (unsigned long)outcome->id, by);
    default: return snprintf(text, size, "unknown status %lu", (unsigned long)outcome->status);
    }
}

#ifdef __cplusplus
}
#endif
#endif
