/* What the callers in C count: how many answers were compared, and how many are not as they must be. */
#ifndef SAME_H
#define SAME_H

#include <stdbool.h>
#include <stdio.h>

static unsigned compared, different;

static void same(bool is, const char *what) {
    compared++;
    if (!is) {
        different++;
        printf("not as it must be: %s\n", what);
    }
}

#endif
