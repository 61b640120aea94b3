/* The checks of a linked program: each is printed and counted, and the last line adds them up. */
#ifndef LINKED_H
#define LINKED_H

#include <stdio.h>

static int passed, failed;

static void holds(const char *what, int yes)
{
    printf("%s: %s\n", yes ? "ok" : "FAILED", what);
    if (yes)
        passed++;
    else
        failed++;
}

/* The last line; gives main's status. */
static int counted(void)
{
    printf("%d passed, %d failed\n", passed, failed);
    return failed != 0;
}

#endif
