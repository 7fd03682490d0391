/* whelk-import: reads a feed file of any size, or standard input, names every refused row, counts all, and prints the list or the corrections if
   asked. What an operator runs each night. Exit status: 0 if nothing was refused, 1 if something was, 2 if the call itself failed. */
#include <arpa/inet.h>

#define tool "whelk-import"
#include "tool.h"

static const char usage[] =
    "usage: whelk-import [--list] [--quiet] [--replaced] [--] [FILE]\n"
    "Reads a route feed from FILE, a row a line: a.b.c.d/len hop\n"
    "Without FILE, or if FILE is -, it reads standard input.\n"
    "Names every refused row as FILE:LINE: reason: the row, then prints the eight counts.\n"
    "Of a row with more than 200 bytes it prints the first 200 and says how many it has.\n"
    "Lines behind the counts that begin with hint: say what rows of bad shape look like, as\n"
    "with a CR at the end or without a hop, how many do, and what helps. A hint counts rows\n"
    "that no hint above it has counted.\n"
    "It changes no file. The reason is the first that holds:\n"
    "  shape     not of that form: also a CR at the end, a tab, a comment, an empty row\n"
    "  zeros     a number of more than one digit starts with 0, as 010: ten to some, eight to others\n"
    "  range     an octet over 255, a length over 32, a hop of 0 or over 65535\n"
    "  hostbits  a bit of the address beyond the length is 1\n"
    "  noroom    its prefix isn't in the list, which has 1048576 rows\n"
    "A later row of a prefix that was taken isn't refused: its hop replaces the hop before it,\n"
    "and the row is counted as replaced.\n"
    "Options:\n"
    "  --list    prints the list that is left on standard output, by address and then by length,\n"
    "            numbers without zeros in front, and nothing else there: it is a feed again.\n"
    "            All else then goes to standard error.\n"
    "  --quiet   doesn't name refused rows; counts and hints are still printed\n"
    "  --replaced\n"
    "            names every replacing row too, behind the refused ones, with the line and the\n"
    "            hop that it replaces, as FILE:LINE: replaced: row (line N had hop H)\n"
    "  --version prints the version\n"
    "  --help    prints this text, and so does -h\n"
    "  --        ends the options, for a FILE whose name begins with -\n"
    "Exit status: 0 nothing was refused, 1 something was, 2 the call failed. It failed too\n"
    "if something couldn't be written, as on a full disk or to a pipe that nobody reads.\n";

/* How many bytes of a refused row are printed. */
#define ROW_SHOWN 200

/* A row's bytes on one line, those that don't print as \xNN. A long row is cut, and its length said. */
static void print_row(FILE *out, const uint8_t *row, size_t length)
{
    for (size_t i = 0; i < length && i < ROW_SHOWN; i++) {
        if (row[i] == '\\')
            fputs("\\\\", out);
        else if (row[i] >= 32 && row[i] < 127)
            putc(row[i], out);
        else
            fprintf(out, "\\x%02x", row[i]);
    }
    if (length > ROW_SHOWN) fprintf(out, " .. (%zu bytes)", length);
    putc('\n', out);
}

/* The first byte from `at` on that isn't one of a set. */
static const uint8_t *past(const uint8_t *at, const uint8_t *end, const char *set)
{
    while (at < end && *at != 0 && strchr(set, *at)) at++;
    return at;
}

/* What follows four numbers with dots between them, of however many digits; NULL where there is something else. */
static const uint8_t *past_four(const uint8_t *at, const uint8_t *end)
{
    for (int i = 0; i < 4; i++) {
        if (i > 0 && (at == end || *at++ != '.')) return NULL;
        const uint8_t *number = at;
        at = past(at, end, "0123456789");
        if (at == number) return NULL;
    }
    return at;
}

/* Whether a part of a row ends here: with the row or before a space. */
static int ends(const uint8_t *at, const uint8_t *end)
{
    return at == end || *at == ' ';
}

static int has_cr_last(const uint8_t *row, const uint8_t *end)
{
    return row < end && end[-1] == '\r';
}

static int is_blank(const uint8_t *row, const uint8_t *end)
{
    return past(row, end, " \t\r") == end;
}

static int is_comment(const uint8_t *row, const uint8_t *end)
{
    row = past(row, end, " \t");
    return past(row, end, "#;!") > row || past(row, end, "/") - row > 1;
}

static int is_ipv6(const uint8_t *row, const uint8_t *end)
{
    char text[INET6_ADDRSTRLEN];
    struct in6_addr address;
    row = past(row, end, " \t");
    const uint8_t *last = past(row, end, "0123456789abcdefABCDEF:.");
    size_t length = (size_t)(last - row);
    if (length >= sizeof text || !(ends(last, end) || *last == '/' || *last == '\t')) return 0;
    memcpy(text, row, length);
    text[length] = '\0';
    return inet_pton(AF_INET6, text, &address) == 1;
}

static int has_tab(const uint8_t *row, const uint8_t *end)
{
    return memchr(row, '\t', (size_t)(end - row)) != NULL;
}

static int has_spaces(const uint8_t *row, const uint8_t *end)
{
    const uint8_t *space = memchr(row, ' ', (size_t)(end - row));
    return space && memchr(space + 1, ' ', (size_t)(end - space - 1));
}

static int has_netmask(const uint8_t *row, const uint8_t *end)
{
    const uint8_t *slash = past_four(row, end);
    if (!slash || slash == end || *slash != '/') return 0;
    const uint8_t *mask = past_four(slash + 1, end);
    return mask && ends(mask, end);
}

static int has_no_length(const uint8_t *row, const uint8_t *end)
{
    const uint8_t *slash = past_four(row, end);
    return slash && (ends(slash, end) || (*slash == '/' && ends(slash + 1, end)));
}

static int has_no_hop(const uint8_t *row, const uint8_t *end)
{
    const uint8_t *slash = past_four(row, end);
    if (!slash || slash == end || *slash != '/') return 0;
    const uint8_t *space = past(slash + 1, end, "0123456789");
    return past(space, end, " ") == end;
}

/* What rows of bad shape look like: a test, what is said of one such row and of more, and what helps. A row counts under the first that fits
   it, and under the last, which has no test, if none does. */
static const struct {
    int (*fits)(const uint8_t *row, const uint8_t *end);
    const char *one, *more, *help;
} patterns[] = {
    {has_cr_last, "ends in CR", "end in CR", NULL}, /* what helps is a command with the feed's name in it */
    {is_blank, "is blank", "are blank", "delete such rows"},
    {is_comment, "begins like a comment (# ; ! //)", "begin like a comment (# ; ! //)", "delete such rows"},
    {is_ipv6, "begins with an IPv6 address", "begin with an IPv6 address", "delete such rows, since only IPv4 is read"},
    {has_tab, "has a tab", "have a tab", "write one space before the hop, and no tab"},
    {has_spaces, "has more than one space", "have more than one space", "write only the one before the hop"},
    {has_netmask, "has a.b.c.d behind the slash", "have a.b.c.d behind the slash", "write the length, 8 for the netmask 255.0.0.0"},
    {has_no_length, "has no length", "have no length", "write it behind the address, /32 for that address alone"},
    {has_no_hop, "has no hop", "have no hop", "write it behind one space"},
    {NULL, "fits no hint", "fit no hint", "a row is a.b.c.d/len hop"},
};

#define PATTERNS (sizeof patterns / sizeof *patterns)

/* Names the refused rows, where there is a stream for that, and counts those of bad shape by their pattern. */
static void name_refused(FILE *out, const char *name, const uint8_t *feed, size_t length, const uint8_t *report, size_t *fit)
{
    size_t line = 0;
    for (size_t at = 0; at < length; line++) {
        const uint8_t *lf = memchr(feed + at, '\n', length - at);
        size_t end = lf ? (size_t)(lf - feed) : length;
        if (out && is_refused(report[line])) {
            fprintf(out, "%s:%zu: %s: ", name, line + 1, whelk_row_number_text(report[line]));
            print_row(out, feed + at, end - at);
        }
        if (report[line] == WHELK_ROW_SHAPE) {
            size_t pattern = 0;
            while (patterns[pattern].fits && !patterns[pattern].fits(feed + at, feed + end)) pattern++;
            fit[pattern]++;
        }
        at = end + 1;
    }
}

/* Names every row whose hop replaced another, with the line and the hop of the row that it replaced: the last one before it that had the prefix's
   hop in the list. 0, or the status of a failed call. */
static int name_replaced(FILE *out, const char *name, const uint8_t *feed, size_t length, const uint8_t *report, const uint64_t *keys,
                         size_t count)
{
    struct last {
        size_t line;
        uint16_t hop;
    } *last = malloc((count + 1) * sizeof *last);
    if (!last) return fail(name, strerror(ENOMEM));
    struct whelk_row row;
    size_t line = 0;
    for (size_t at = 0; (row = whelk_pull(feed, length, at)).found; at = row.next, line++) {
        if (is_refused(report[line])) continue;
        struct last *before = last + place_of(keys, count, row.key);
        if (report[line] == WHELK_ROW_REPLACED) {
            size_t end = feed[row.next - 1] == '\n' ? row.next - 1 : row.next;
            fprintf(out, "%s:%zu: replaced: %.*s (line %zu had hop %u)\n", name, line + 1, (int)(end - at), (const char *)feed + at,
                    before->line, (unsigned)before->hop);
        }
        before->line = line + 1;
        before->hop = row.hop;
    }
    free(last);
    return 0;
}

/* A file's name as a word for bash: in quotes where it needs them, and with bytes that don't print in octal. */
static void print_word(FILE *out, const char *name)
{
    const char *plain = "ABCDEFGHIJKLMNOPQRSTUVWXYZabcdefghijklmnopqrstuvwxyz0123456789_./-+,:@%";
    int bare = 1, prints = 1;
    for (const char *at = name; *at; at++) {
        if (!strchr(plain, *at)) bare = 0;
        if (*at < 32 || *at > 126) prints = 0;
    }
    fputs(bare ? "" : prints ? "'" : "$'", out);
    for (const char *at = name; *at; at++) {
        if (!prints && (*at < 32 || *at > 126 || *at == '\'' || *at == '\\'))
            fprintf(out, "\\%03o", (unsigned)(unsigned char)*at);
        else if (*at == '\'')
            fputs("'\\''", out);
        else
            putc(*at, out);
    }
    fputs(bare ? "" : "'", out);
}

/* What takes CRs off the ends of rows, and leaves CRs inside a row, since the row would become another. Standard input has no name, and one
   under /dev may stand for a pipe. */
static void print_command(FILE *out, const char *name)
{
    const char *sed = "sed 's/\\r*$//'";
    if (strcmp(name, "-") == 0 || strncmp(name, "/dev/", 5) == 0) {
        fprintf(out, "pipe the feed through %s", sed);
    } else {
        fprintf(out, "this takes it off: %s <", sed);
        print_word(out, name);
        fputs(" >", out);
        print_word(out, name);
        fputs(".new", out);
    }
}

/* Says how many rows of bad shape fit each pattern, unless none fits any. */
static void print_hints(FILE *out, const char *name, const size_t *fit)
{
    const char *of = "rows with bad shape";
    for (size_t i = 0, said = 0; i < PATTERNS; i++) {
        if (fit[i] == 0 || (i == PATTERNS - 1 && !said)) continue;
        fprintf(out, "hint: of the %s, %zu %s; ", of, fit[i], fit[i] == 1 ? patterns[i].one : patterns[i].more);
        if (patterns[i].help)
            fputs(patterns[i].help, out);
        else
            print_command(out, name);
        putc('\n', out);
        of = "others";
        said = 1;
    }
}

/* Prints a list on standard output; 0, or the status of a failed call. */
static int print_list(size_t count, const uint64_t *keys, const uint16_t *hops)
{
    size_t room = count * WHELK_ROW_BYTES + 1; /* 1 more, since a call is lent no null pointer */
    uint8_t *text = malloc(room);
    if (!text) return fail("the list", strerror(ENOMEM));
    uint64_t wrote = whelk_write(count, keys, count, hops, count, text, room);
    if (whelk_write_number(wrote) != WHELK_DONE) return fail("the list", whelk_number_text(whelk_write_number(wrote)));
    fwrite(text, 1, whelk_write_bytes(wrote), stdout);
    free(text);
    return sent(stdout, "standard output");
}

int main(int argc, char **argv)
{
    const char *name = NULL;
    int list = 0, quiet = 0, replaced = 0, options = 1;
    signal(SIGPIPE, SIG_IGN); /* so that writing to a closed pipe fails like any other write, and is said */
    for (int i = 1; i < argc; i++) {
        if (!options || argv[i][0] != '-' || argv[i][1] == '\0') {
            if (name) return fail(argv[i], "one feed at a time (--help tells)");
            name = argv[i];
        } else if (strcmp(argv[i], "--") == 0) {
            options = 0;
        } else if (strcmp(argv[i], "--list") == 0) {
            list = 1;
        } else if (strcmp(argv[i], "--quiet") == 0) {
            quiet = 1;
        } else if (strcmp(argv[i], "--replaced") == 0) {
            replaced = 1;
        } else if (strcmp(argv[i], "--version") == 0) {
            return say(tool " " WHELK_VERSION "\n");
        } else if (strcmp(argv[i], "--help") == 0 || strcmp(argv[i], "-h") == 0) {
            return say(usage);
        } else {
            return fail(argv[i], "unknown option (--help tells)");
        }
    }
    struct feed feed;
    int failed = import_feed(&feed, name);
    if (failed) return failed;
    name = feed.name;
    struct whelk_counts counts = feed.counts;

    /* What was refused is said first, so that it is said too if the list can't be written. */
    FILE *out = list ? stderr : stdout;
    if (list) setvbuf(stderr, NULL, _IOFBF, BUFSIZ);
    size_t fit[PATTERNS] = {0};
    name_refused(quiet ? NULL : out, name, feed.bytes, feed.length, feed.report, fit);
    if (replaced) {
        failed = name_replaced(out, name, feed.bytes, feed.length, feed.report, feed.keys, counts.taken);
        if (failed) return failed;
    }
    fprintf(out, "rows %zu\ntaken %zu\nshape %zu\nzeros %zu\nrange %zu\nhostbits %zu\nreplaced %zu\nnoroom %zu\n", counts.rows,
            counts.taken, counts.shape, counts.zeros, counts.range, counts.hostbits, counts.replaced, counts.noroom);
    print_hints(out, name, fit);
    failed = sent(out, list ? "standard error" : "standard output");
    if (!failed && list) failed = print_list(counts.taken, feed.keys, feed.hops);
    if (failed) return failed;
    return counts.taken + counts.replaced == counts.rows ? 0 : 1;
}
