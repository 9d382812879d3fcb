/* The three functions by which the library takes memory, over those of the C library. */
#include <stddef.h>
#include <stdint.h>
#include <stdlib.h>

/* Whether there was memory, and where. */
struct given {
    uint64_t some;
    void *at;
};

struct given rattle_alloc(size_t size, size_t align);
struct given rattle_realloc(void *at, size_t old, size_t size, size_t align);
void rattle_dealloc(void *at);

static char nothing[16];

static struct given given(void *at) {
    struct given it;
    it.some = at != NULL;
    it.at = at ? at : nothing;
    return it;
}

struct given rattle_alloc(size_t size, size_t align) { return given(malloc(size ? size : align)); }

struct given rattle_realloc(void *at, size_t old, size_t size, size_t align) {
    (void)old;
    return given(realloc(at, size ? size : align));
}

void rattle_dealloc(void *at) { free(at); }
