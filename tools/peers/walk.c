// A straight walk in C, to measure against: `walk WAY KIND FUNCTIONS ROWS ROUNDS`. It makes the module that the program `bench`
// makes, decodes each number and operator, asks a hook through a pointer, and writes the shortest spelling. The ways: `make`,
// which does not re-encode, `copy`, which copies the module as it is, `walk`, whose hook answers each index as it is, and
// `renamed`, whose hook answers 1000 for 3.
#include <stdint.h>
#include <stdio.h>
#include <stdlib.h>
#include <string.h>

typedef struct {
    uint8_t *p;
    size_t len, cap;
} Buf;

static void grow(Buf *b, size_t more) {
    size_t cap = b->cap ? b->cap * 2 : 64;
    while (cap < b->len + more) cap *= 2;
    b->p = realloc(b->p, cap);
    if (!b->p) abort();
    b->cap = cap;
}

static inline void push(Buf *b, uint8_t x) {
    if (b->len == b->cap) grow(b, 1);
    b->p[b->len++] = x;
}

static inline void append(Buf *b, const uint8_t *p, size_t len) {
    if (b->cap - b->len < len) grow(b, len);
    memcpy(b->p + b->len, p, len);
    b->len += len;
}

static inline void write_u32(Buf *b, uint32_t n) {
    while (n >= 128) {
        push(b, (n & 127) | 128);
        n >>= 7;
    }
    push(b, n);
}

static inline void write_s32(Buf *b, int32_t n) {
    for (;;) {
        uint8_t x = n & 127;
        n >>= 7;
        if ((n == 0 && !(x & 64)) || (n == -1 && (x & 64))) {
            push(b, x);
            return;
        }
        push(b, x | 128);
    }
}

static inline uint32_t read_u32(const uint8_t **p, const uint8_t *end) {
    uint32_t n = 0, s = 0;
    for (;;) {
        if (*p == end) abort();
        uint8_t x = *(*p)++;
        if (s == 28 && x > 15) abort();
        n |= (uint32_t)(x & 127) << s;
        if (x < 128) return n;
        s += 7;
    }
}

static inline int32_t read_s32(const uint8_t **p, const uint8_t *end) {
    uint32_t n = 0, s = 0;
    for (;;) {
        if (*p == end) abort();
        uint8_t x = *(*p)++;
        n |= (uint32_t)(x & 127) << s;
        s += 7;
        if (x < 128) {
            if (s < 32 && (x & 64)) n |= ~0u << s;
            return (int32_t)n;
        }
        if (s >= 35) abort();
    }
}

typedef struct {
    uint64_t asked;
} State;

typedef uint32_t (*Hook)(State *, uint32_t);

static uint32_t same(State *s, uint32_t i) {
    s->asked++;
    return i;
}

static uint32_t other(State *s, uint32_t i) {
    s->asked++;
    return i == 3 ? 1000 : i;
}

static void add_sized(Buf *out, const Buf *b) {
    write_u32(out, b->len);
    append(out, b->p, b->len);
}

static void walk_body(const uint8_t *p, const uint8_t *end, Buf *out, Hook h, State *s) {
    uint32_t locals = read_u32(&p, end);
    write_u32(out, locals);
    if (locals) abort();
    while (p < end) {
        uint8_t op = *p++;
        push(out, op);
        switch (op) {
        case 0x0b:
        case 0x45:
        case 0x6a:
            break;
        case 0x02:
            if (p == end) abort();
            push(out, *p++);
            break;
        case 0x28:
        case 0x36: {
            uint32_t align = read_u32(&p, end), memory = h(s, 0);
            write_u32(out, memory ? align + 64 : align);
            if (memory) write_u32(out, memory);
            write_u32(out, read_u32(&p, end));
            break;
        }
        case 0x10:
            write_u32(out, h(s, read_u32(&p, end)));
            break;
        case 0x0d:
        case 0x20:
        case 0x21:
        case 0x22:
            write_u32(out, read_u32(&p, end));
            break;
        case 0x41:
            write_s32(out, read_s32(&p, end));
            break;
        default:
            abort();
        }
    }
}

// Walks an expression.
static const uint8_t *walk_expression(const uint8_t *p, const uint8_t *end, Buf *out, Hook h, State *s) {
    while (p < end) {
        uint8_t op = *p++;
        push(out, op);
        switch (op) {
        case 0x0b:
            return p;
        case 0x23:
        case 0xd2:
            write_u32(out, h(s, read_u32(&p, end)));
            break;
        case 0x41:
            write_s32(out, read_s32(&p, end));
            break;
        case 0x6a:
            break;
        default:
            abort();
        }
    }
    abort();
}

// A global: its type, whether it may change, and its expression.
static const uint8_t *walk_global(const uint8_t *p, const uint8_t *end, Buf *out, Hook h, State *s) {
    if (end - p < 2 || p[0] < 0x6f || p[0] > 0x7f || p[1] > 1) abort();
    append(out, p, 2);
    return walk_expression(p + 2, end, out, h, s);
}

// The place of a segment that is active in what the flags leave out, which is asked as 0.
static const uint8_t *walk_place(const uint8_t *p, const uint8_t *end, Buf *out, Hook h, State *s) {
    if (read_u32(&p, end) || h(s, 0)) abort();
    push(out, 0);
    return walk_expression(p, end, out, h, s);
}

static const uint8_t *walk_elements(const uint8_t *p, const uint8_t *end, Buf *out, Hook h, State *s) {
    p = walk_place(p, end, out, h, s);
    uint32_t count = read_u32(&p, end);
    write_u32(out, count);
    while (count--) write_u32(out, h(s, read_u32(&p, end)));
    return p;
}

static const uint8_t *walk_data(const uint8_t *p, const uint8_t *end, Buf *out, Hook h, State *s) {
    p = walk_place(p, end, out, h, s);
    uint32_t len = read_u32(&p, end);
    if (len > end - p) abort();
    write_u32(out, len);
    append(out, p, len);
    return p + len;
}

static void walk(const uint8_t *p, const uint8_t *end, Buf *out, Buf *section, Buf *body, Hook h, State *s) {
    append(out, p, 8);
    p += 8;
    while (p < end) {
        uint8_t id = *p++;
        uint32_t size = read_u32(&p, end);
        const uint8_t *stop = p + size;
        if (stop > end) abort();
        section->len = 0;
        if (id == 3 || id == 6 || id == 9 || id == 10 || id == 11) {
            uint32_t rows = read_u32(&p, stop);
            write_u32(section, rows);
            while (rows--) {
                switch (id) {
                case 3:
                    write_u32(section, h(s, read_u32(&p, stop)));
                    break;
                case 6:
                    p = walk_global(p, stop, section, h, s);
                    break;
                case 9:
                    p = walk_elements(p, stop, section, h, s);
                    break;
                case 11:
                    p = walk_data(p, stop, section, h, s);
                    break;
                default: {
                    uint32_t len = read_u32(&p, stop);
                    if (len > stop - p) abort();
                    body->len = 0;
                    walk_body(p, p + len, body, h, s);
                    p += len;
                    add_sized(section, body);
                }
                }
            }
        } else {
            append(section, p, size);
        }
        p = stop;
        push(out, id);
        add_sized(out, section);
    }
}

static Buf make_functions(int mixed, uint32_t functions, uint32_t rows) {
    static const uint8_t numbers[14] = {0x20, 0, 0x41, 5, 0x6a, 0x20, 1, 0x6a, 0x41, 0xe8, 7, 0x6a, 0x10, 3};
    static const uint8_t mix[32] = {
        2,    0x40, 0x20, 0, 0x28, 2, 0x10, 0x22, 1, 0x45, 0x0d, 0, 0x20, 1, 0x41, 0xe8,
        7,    0x6a, 0x21, 2, 0x20, 0, 0x20, 2, 0x36, 2, 0x0c, 0x20, 2, 0x10, 3, 0x0b,
    };
    static const uint8_t front[14] = {0, 0x61, 0x73, 0x6d, 1, 0, 0, 0, 1, 4, 1, 0x60, 0, 0};
    Buf body = {0}, types = {0}, code = {0}, out = {0};
    push(&body, 0);
    for (uint32_t i = 0; i < rows; i++) append(&body, mixed ? mix : numbers, mixed ? 32 : 14);
    push(&body, 0x0b);
    write_u32(&types, functions);
    write_u32(&code, functions);
    for (uint32_t i = 0; i < functions; i++) {
        push(&types, 0);
        add_sized(&code, &body);
    }
    append(&out, front, 14);
    push(&out, 3);
    add_sized(&out, &types);
    push(&out, 10);
    add_sized(&out, &code);
    free(body.p);
    free(types.p);
    free(code.p);
    return out;
}

// A module of one section: so many segments or sets of globals, each of so many rows.
static Buf make_section(uint8_t id, uint32_t segments, uint32_t rows) {
    static const uint8_t header[8] = {0, 0x61, 0x73, 0x6d, 1, 0, 0, 0};
    static const uint8_t globals[20] = {
        0x7f, 0, 0x41, 5, 0x0b, 0x7f, 1, 0x41, 0xe8, 7, 0x0b, 0x70, 0, 0xd2, 3, 0x0b, 0x7f, 0, 0x23, 0,
    };
    static const uint8_t place[4] = {0, 0x41, 0, 0x0b};
    Buf section = {0}, out = {0};
    write_u32(&section, id == 6 ? 4 * segments * rows : segments);
    for (uint32_t i = 0; i < segments; i++) {
        if (id != 6) {
            append(&section, place, 4);
            write_u32(&section, rows);
        }
        for (uint32_t k = 0; k < rows; k++) {
            if (id == 6) {
                append(&section, globals, 20);
                push(&section, 0x0b);
            } else {
                push(&section, id == 9 ? k % 128 : k % 256);
            }
        }
    }
    append(&out, header, 8);
    push(&out, id);
    add_sized(&out, &section);
    free(section.p);
    return out;
}

static Buf make(const char *kind, uint32_t functions, uint32_t rows) {
    if (!strcmp(kind, "globals")) return make_section(6, functions, rows);
    if (!strcmp(kind, "elements")) return make_section(9, functions, rows);
    if (!strcmp(kind, "data")) return make_section(11, functions, rows);
    return make_functions(!strcmp(kind, "mixed"), functions, rows);
}

int main(int argc, char **argv) {
    if (argc != 6) return 2;
    Buf in = make(argv[2], atoi(argv[3]), atoi(argv[4]));
    uint64_t sum = 0;
    Hook volatile hook = strcmp(argv[1], "renamed") ? same : other;
    for (int round = atoi(argv[5]); round > 0; round--) {
        Buf out = {0}, section = {0}, body = {0};
        State s = {0};
        if (!strcmp(argv[1], "copy")) {
            append(&out, in.p, in.len);
            sum += out.len;
        } else if (strcmp(argv[1], "make")) {
            walk(in.p, in.p + in.len, &out, &section, &body, hook, &s);
            sum += out.len;
        } else {
            sum += in.len;
        }
        free(out.p);
        free(section.p);
        free(body.p);
    }
    printf("%llu\n", (unsigned long long)sum);
    return 0;
}
