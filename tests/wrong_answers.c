/*
 * A program that asks for memory twice, and answers a refusal in the way that its first word names: `tells` is the right
 * way, and each other is wrong. tests/refuse.py must find them all.
 */
#include <stdio.h>
#include <stdlib.h>
#include <string.h>

static const char *way;

static int is(const char *name) { return strcmp(way, name) == 0; }

int main(int words, char **word) {
    way = words > 1 ? word[1] : "";
    if (is("asks_for_none")) {
        puts("whole");
        return 0;
    }
    char *volatile first = malloc(16);
    if (is("writes_first")) {
        puts("who");
        fflush(stdout);
    }
    char *volatile second = realloc(first, 1 << 20);
    if (!first || !second) {
        if (is("is_stopped"))
            abort();
        if (is("goes_on")) {
            puts("half");
            return 0;
        }
        if (!is("keeps_quiet"))
            fputs("ccq: out of memory\n", stderr);
        return is("answers_success") ? 0 : 3;
    }
    puts("whole");
    return 0;
}
