/* What the tools share: how a call that failed is said, a feed read whole and imported, and the place of a key. Each tool defines `tool`, its name,
   before it includes this. */
#include <errno.h>
#include <signal.h>
#include <stdio.h>
#include <stdlib.h>
#include <string.h>

#include "whelkhollow.h"

static int fail(const char *what, const char *why)
{
    fprintf(stderr, "%s: %s: %s\n", tool, what, why);
    return 2;
}

/* 0 if all that was printed on a stream has gone out, else the status of a failed call. */
static int sent(FILE *stream, const char *name)
{
    return fflush(stream) == 0 && !ferror(stream) ? 0 : fail(name, strerror(errno));
}

/* Prints a text on standard output and nothing else. */
static int say(const char *text)
{
    fputs(text, stdout);
    return sent(stdout, "standard output");
}

/* All bytes of a file; NULL with errno set where they can't be had. */
static uint8_t *read_all(FILE *file, size_t *length)
{
    size_t room = 1 << 16, used = 0;
    uint8_t *bytes = malloc(room);
    while (bytes) {
        size_t got = fread(bytes + used, 1, room - used, file);
        used += got;
        if (got == 0) {
            if (ferror(file)) {
                free(bytes);
                return NULL;
            }
            *length = used;
            return bytes;
        }
        if (used == room) {
            uint8_t *more = realloc(bytes, room * 2);
            if (!more) free(bytes);
            bytes = more;
            room *= 2;
        }
    }
    errno = ENOMEM;
    return NULL;
}

/* A feed with what its import left: a list of counts.taken rows, and a row number for each of counts.rows rows. */
struct feed {
    const char *name;
    uint8_t *bytes, *report;
    size_t length;
    uint64_t *keys;
    uint16_t *hops;
    struct whelk_counts counts;
};

/* Reads and imports the feed of a name, where - and NULL are standard input. 0, or the status of a failed call. */
static int import_feed(struct feed *feed, const char *name)
{
    FILE *file = stdin;
    if (name && strcmp(name, "-") != 0) {
        file = fopen(name, "rb");
        if (!file) return fail(name, strerror(errno));
    } else {
        name = "-";
    }
    feed->name = name;
    feed->bytes = read_all(file, &feed->length);
    if (!feed->bytes) return fail(name, strerror(errno));

    size_t rows = 1;
    for (size_t i = 0; i < feed->length; i++) rows += feed->bytes[i] == '\n';
    size_t room = rows < WHELK_TOP_ROWS ? rows : WHELK_TOP_ROWS;
    feed->keys = malloc(room * sizeof *feed->keys);
    feed->hops = malloc(room * sizeof *feed->hops);
    feed->report = malloc(rows);
    if (!feed->keys || !feed->hops || !feed->report) return fail(name, strerror(ENOMEM));
    feed->counts = whelk_import(feed->bytes, feed->length, feed->keys, room, feed->hops, room, feed->report, rows);
    return feed->counts.number == WHELK_DONE ? 0 : fail(name, whelk_number_text(feed->counts.number));
}

/* Whether a row was refused: neither taken nor put in the place of an earlier row's hop. */
static int is_refused(uint8_t number)
{
    return number != WHELK_ROW_TAKEN && number != WHELK_ROW_REPLACED;
}

/* The place of a listed key. */
static size_t place_of(const uint64_t *keys, size_t count, uint64_t key)
{
    size_t low = 0;
    while (count > 1) {
        size_t half = count / 2;
        if (keys[low + half] <= key) low += half;
        count -= half;
    }
    return low;
}
