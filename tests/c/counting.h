/* What the C tests share: counting, and bytes with their length. */
#ifndef COUNTING_H
#define COUNTING_H

#include <stddef.h>
#include <stdio.h>
#include <string.h>

struct bytes {
    const char *at;
    size_t length;
};
#define TEXT(literal) {literal, sizeof literal - 1}

static unsigned long passed, failed;

static void check(int ok, int line, const char *of, const char *what)
{
    if (ok) {
        passed++;
        return;
    }
    failed++;
    printf("FAILED line %d: %s: %s\n", line, of, what);
}

#endif
