/* Lent slices at the end of memory, for the guard tests: the page behind a slice can't be touched, so that a read or a write past it ends the test.
   Whoever includes this has _DEFAULT_SOURCE, EXPORTED, which is {"NAME", 0, 0} for each export, and an enum of slices up to SLICES before it. */
#ifndef LENT_H
#define LENT_H

#include <stdlib.h>
#include <string.h>
#include <sys/mman.h>

#include "testing.h"

#define PAGE 4096
#define FILL 0xa5

/* Every export, with how many checks of its calls there were, and how many were wrong. */
static struct export {
    const char *name;
    unsigned long checks, wrong;
} exports[] = {EXPORTED};
#define EXPORTS (sizeof exports / sizeof *exports)

static void call(const char *name, int ok)
{
    for (size_t i = 0; i < EXPORTS; i++)
        if (strcmp(exports[i].name, name) == 0) {
            exports[i].checks++;
            exports[i].wrong += !ok;
            return;
        }
    check(name, 0);
}

/* A lent slice at the end of a page. `length` counts elements of `size` bytes. */
struct lent {
    uint8_t *page;
    size_t size, length;
    uint8_t before[PAGE]; /* the page as it was lent */
};

static struct lent slices[SLICES];

static void map_slices(void)
{
    for (int i = 0; i < SLICES; i++) {
        uint8_t *pages = mmap(NULL, 3 * PAGE, PROT_NONE, MAP_PRIVATE | MAP_ANONYMOUS, -1, 0);
        if (pages == MAP_FAILED || mprotect(pages + PAGE, PAGE, PROT_READ | PROT_WRITE) != 0) {
            puts("no memory");
            exit(1);
        }
        slices[i].page = pages + PAGE;
    }
}

static void *place(int slice)
{
    return slices[slice].page + PAGE - slices[slice].size * slices[slice].length;
}

/* Lends `length` elements; the first of them are those of `from`, as many as there are and fit. */
static void lend(int slice, size_t length, size_t size, const void *from, size_t there)
{
    struct lent *s = &slices[slice];
    s->size = size;
    s->length = length;
    memset(s->page, FILL, PAGE);
    if (from) memcpy(place(slice), from, size * (there < length ? there : length));
    memcpy(s->before, s->page, PAGE);
}

/* Whether all of a slice's page is as it was lent but for its first `written` elements, which are those of `from`. */
static int left(int slice, const void *from, size_t written)
{
    struct lent *s = &slices[slice];
    size_t start = PAGE - s->size * s->length, end = start + s->size * written;
    return end <= PAGE && memcmp(s->page, s->before, start) == 0 && memcmp(s->page + end, s->before + end, PAGE - end) == 0 &&
           (written == 0 || memcmp(s->page + start, from, s->size * written) == 0);
}

static int stays(int slice)
{
    return left(slice, NULL, 0);
}

#define SLICE(slice) place(slice), slices[slice].length

/* The lengths that are tried of a slice which needs `n` elements: none, one less, enough, more. */
static size_t tried(int which, size_t n)
{
    const size_t lengths[4] = {0, n - 1, n, n + 3};
    return lengths[which];
}

/* Runs `body` for each of the lengths of two slices. */
#define EACH(a, need_a, b, need_b) \
    for (int i_##a = 0; i_##a < 4; i_##a++) \
        for (int i_##b = 0; i_##b < 4; i_##b++) \
            for (size_t a = tried(i_##a, need_a), b = tried(i_##b, need_b), once_##a = 1; once_##a; once_##a = 0)

/* A check for each export, and the last line. */
static int finish_exports(void)
{
    for (size_t i = 0; i < EXPORTS; i++) {
        printf("%s: %lu checks, %lu wrong\n", exports[i].name, exports[i].checks, exports[i].wrong);
        check(exports[i].name, exports[i].checks > 0 && exports[i].wrong == 0);
    }
    return finish();
}

#endif
