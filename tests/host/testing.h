/* What the C tests share: counting, and the run table of list A (rule 14.4). */
#ifndef TESTING_H
#define TESTING_H

#include <stdint.h>
#include <stdio.h>

static int passed, failed;

static void check(const char *what, int ok)
{
    if (ok)
        passed++;
    else {
        failed++;
        printf("failed: %s\n", what);
    }
}

/* The last line, and the status for main. */
static int finish(void)
{
    printf("%d passed, %d failed\n", passed, failed);
    return failed == 0 ? 0 : 1;
}

static const uint32_t starts_of_a[10] = {0,          0xc8180000, 0xc81a0000, 0xc81b0000, 0xc81b4000,
                                         0xc81b7000, 0xc81b8000, 0xc81b9000, 0xc81bf000, 0xc81c0000};
static const uint16_t hops_of_a[10] = {0, 1, 2, 3, 1, 2, 1, 3, 2, 0};

#endif
