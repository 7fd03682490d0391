/* whelk-why: reads a feed file of any size, or standard input, and says of each address why it goes where it goes: the rows that hold it, each with
   its line, and which of them decides. What the duty desk runs while somebody waits on the telephone. Exit status: 0 if every address has a hop, 1 if
   one has none, 2 if the call itself failed. */
#define tool "whelk-why"
#include "tool.h"

static const char usage[] =
    "usage: whelk-why [--] FEED ADDRESS..\n"
    "Reads a route feed from FEED, a row a line: a.b.c.d/len hop\n"
    "If FEED is -, it reads standard input.\n"
    "Prints for each ADDRESS, as 10.64.0.1, the rows that hold it, the shortest prefix first, each\n"
    "as FEED:LINE: the row, and then the answer in one line: the hop, the row that decides, and up\n"
    "to which address, from this one on, the hop is the same; or that no listed prefix holds it.\n"
    "LINE is the line that gave the prefix its hop: of several rows with one prefix, the last one\n"
    "that wasn't refused.\n"
    "If rows of the feed were refused, or replaced an earlier hop, the counts go to standard error\n"
    "first: rows and taken, and the others that aren't 0. A route that is missing here may be among\n"
    "the refused rows. whelk-import names those rows.\n"
    "It changes no file.\n"
    "Options:\n"
    "  --version prints the version\n"
    "  --help    prints this text, and so does -h\n"
    "  --        ends the options, for a FEED whose name begins with -\n"
    "Exit status: 0 every address has a hop, 1 one has none, 2 the call failed: an ADDRESS is none,\n"
    "the feed can't be read, or something couldn't be written.\n";

/* Reads an address as a feed's rows have it: four numbers from 0 to 255 without zeros in front. 1 where it is one. The library's own row reader
   is asked, with the address as a route of length 32. */
static int address_of(const char *text, uint32_t *address)
{
    char row[sizeof "255.255.255.255/32 1"];
    int length = snprintf(row, sizeof row, "%s/32 1", text);
    if (length < 0 || (size_t)length >= sizeof row) return 0;
    struct whelk_row read = whelk_pull((const uint8_t *)row, (size_t)length, 0);
    *address = (uint32_t)(read.key / 64);
    return read.number == WHELK_ROW_TAKEN && read.next == (size_t)length;
}

/* Says the counts of an import of which rows were refused or replaced an earlier hop. 0, or the status of a failed call: counts that can't be
   said aren't passed over. */
static int say_counts(const struct feed *feed)
{
    const struct whelk_counts *c = &feed->counts;
    const struct {
        const char *name;
        size_t rows;
    } counts[] = {{"shape", c->shape},       {"zeros", c->zeros},       {"range", c->range},
                  {"hostbits", c->hostbits}, {"replaced", c->replaced}, {"noroom", c->noroom}};
    if (c->taken == c->rows) return 0;
    fprintf(stderr, "%s: %s: rows %zu, taken %zu", tool, feed->name, c->rows, c->taken);
    for (size_t i = 0; i < sizeof counts / sizeof *counts; i++)
        if (counts[i].rows) fprintf(stderr, ", %s %zu", counts[i].name, counts[i].rows);
    fputs(" (whelk-import names refused rows, with --replaced replacing ones too)\n", stderr);
    return sent(stderr, "standard error");
}

/* The line that gave each row of the list its hop; NULL where there is no memory. */
static size_t *lines_of(const struct feed *feed)
{
    size_t *lines = malloc((feed->counts.taken + 1) * sizeof *lines), line = 0;
    struct whelk_row row;
    if (!lines) return NULL;
    for (size_t at = 0; (row = whelk_pull(feed->bytes, feed->length, at)).found; at = row.next, line++)
        if (!is_refused(feed->report[line])) lines[place_of(feed->keys, feed->counts.taken, row.key)] = line + 1;
    return lines;
}

static void print_address(uint32_t a)
{
    printf("%u.%u.%u.%u", (unsigned)(a >> 24), (unsigned)(a >> 16 & 255), (unsigned)(a >> 8 & 255), (unsigned)(a & 255));
}

/* Says of one address why it goes where it goes. 0 if it has a hop, 1 if it has none, or the status of a failed call. */
static int say_why(const struct feed *feed, const size_t *lines, size_t runs, const uint32_t *starts, const uint16_t *run_hops, uint32_t address)
{
    size_t count = feed->counts.taken, places[WHELK_MOST_MATCHES];
    uint8_t text[WHELK_MOST_MATCHES * WHELK_ROW_BYTES];
    uint32_t last = address;
    struct whelk_reason why = whelk_why(count, feed->keys, count, feed->hops, count, address, places, WHELK_MOST_MATCHES);
    uint64_t wrote = whelk_why_text(count, feed->keys, count, feed->hops, count, address, text, sizeof text);
    uint64_t found = whelk_run_lookup_slices(runs, starts, runs, run_hops, runs, address, &last);
    size_t number = why.number ? why.number : whelk_write_number(wrote) ? whelk_write_number(wrote) : whelk_lookup_number(found);
    if (number != WHELK_DONE) return fail(feed->name, whelk_number_text(number));

    size_t at = 0, length = 0, prefix = 0;
    for (size_t i = 0; i < why.listed; i++, at += length) {
        length = (size_t)((uint8_t *)memchr(text + at, '\n', whelk_write_bytes(wrote) - at) - (text + at)) + 1;
        prefix = at;
        printf("%s:%zu: %.*s", feed->name, lines[places[i]], (int)length, (const char *)text + at);
    }
    print_address(address);
    if (why.listed == 0) {
        printf(" has no hop: no listed prefix holds it. From ");
        print_address(address);
        printf(" up to ");
        print_address(last);
        printf(" no address has one.\n");
        return 1;
    }
    size_t shown = (size_t)((uint8_t *)memchr(text + prefix, ' ', length) - (text + prefix));
    printf(" goes to hop %u: %.*s (line %zu) is the longest listed prefix that holds it. From ", whelk_lookup_hop(found), (int)shown,
           (const char *)text + prefix, lines[why.place]);
    print_address(address);
    printf(" up to ");
    print_address(last);
    printf(" every address goes to hop %u.\n", whelk_lookup_hop(found));
    return 0;
}

int main(int argc, char **argv)
{
    int first = 1, status = 0;
    signal(SIGPIPE, SIG_IGN); /* so that writing to a closed pipe fails like any other write, and is said */
    if (argc > 1 && argv[1][0] == '-' && argv[1][1] != '\0') {
        if (strcmp(argv[1], "--version") == 0) return say(tool " " WHELK_VERSION "\n");
        if (strcmp(argv[1], "--help") == 0 || strcmp(argv[1], "-h") == 0) return say(usage);
        if (strcmp(argv[1], "--") != 0) return fail(argv[1], "unknown option (--help tells)");
        first = 2;
    }
    if (argc - first < 2) return fail(argc - first < 1 ? "no feed" : "no address", "FEED ADDRESS.. (--help tells)");
    for (int i = first + 1; i < argc; i++) {
        uint32_t address;
        if (!address_of(argv[i], &address)) return fail(argv[i], "not an address such as 10.64.0.1 (--help tells)");
    }

    struct feed feed;
    int failed = import_feed(&feed, argv[first]);
    if (failed) return failed;
    failed = say_counts(&feed);
    if (failed) return failed;
    size_t *lines = lines_of(&feed), count = feed.counts.taken, room = 2 * count + 1;
    uint32_t *starts = malloc(room * sizeof *starts);
    uint16_t *run_hops = malloc(room * sizeof *run_hops);
    if (!lines || !starts || !run_hops) return fail(feed.name, strerror(ENOMEM));
    uint64_t built = whelk_build(count, feed.keys, count, feed.hops, count, starts, room, run_hops, room);
    if (whelk_build_number(built) != WHELK_DONE) return fail(feed.name, whelk_number_text(whelk_build_number(built)));

    for (int i = first + 1; i < argc && status < 2; i++) {
        uint32_t address = 0;
        address_of(argv[i], &address);
        if (i > first + 1) putchar('\n');
        int one = say_why(&feed, lines, whelk_build_runs(built), starts, run_hops, address);
        if (one > status) status = one;
    }
    failed = sent(stdout, "standard output");
    return failed ? failed : status;
}
