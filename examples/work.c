/* Functions of which two do nearly all the work: docs/TOOLS.md puts these first. */
static unsigned state = 1;
unsigned seldom(unsigned n) { return n * 2654435761u ^ 17; }
unsigned never(unsigned n) { return seldom(n) + 5; }
__attribute__((noinline)) static unsigned step(unsigned n) { return (n >> 1) ^ (-(n & 1u) & 0xd0000001u); }
__attribute__((noinline)) static unsigned turn(unsigned n) {
    for (int i = 0; i < 1000; i++) state = step(state + n);
    return state;
}
unsigned run(unsigned n) {
    for (unsigned i = 0; i < n; i++) turn(i);
    return state;
}
