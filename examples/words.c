/* The second of two modules that docs/TOOLS.md merges. */
static const char *volatile text = "two modules in one";
int words(void) {
    int count = 1;
    for (const char *at = text; *at; at++) count += *at == ' ';
    return count;
}
