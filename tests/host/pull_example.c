/* A feed pulled row by row: each good row's prefix and hop, the number of each other row, and where the feed ends. */
#include <stdio.h>
#include "whelkhollow.h"

int main(void)
{
    const uint8_t feed[] = "10.0.0.0/8 7\n10.0.0.1/8 7\n\n10.1.0.0/16 70000\n010.0.0.0/8 7\n10.64.0.0/10 9";
    struct whelk_row r = whelk_pull(feed, sizeof feed - 1, 0);
    for (; r.found; r = whelk_pull(feed, sizeof feed - 1, r.next)) {
        uint32_t network = whelk_key_network(r.key);
        if (r.number == WHELK_ROW_TAKEN)
            printf("%u.%u.%u.%u/%u goes to hop %u\n", network >> 24, network >> 16 & 255, network >> 8 & 255, network & 255,
                   whelk_key_length(r.key), r.hop);
        else
            printf("a row with number %zu\n", r.number);
    }
    printf("no row at place %zu\n", r.next);
    return 0;
}
