/* The first of two modules that docs/TOOLS.md merges. */
static int calls;
int area(int width, int height) { calls++; return width * height; }
int asked(void) { return calls; }
