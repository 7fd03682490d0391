/* The same text as a C programmer writes it, in three ways.
   c_write has the whole contract: it checks the list, measures the text and then writes it, by a loop over each number's digits.
   c_write_unchecked does the same without the check of the list: it never gives 11, and of an ill-formed list it writes what comes out.
   c_write_by_libc is what a user has at hand: inet_ntop and snprintf, row after row. It checks no list and measures nothing, so that where it
   gives 13 rows are written already; and it puts a zero byte behind the text, for which the buffer needs a place. */
#include "../in_c.h"
#include "list.h"

#include <arpa/inet.h>
#include <stdio.h>

static size_t digits(uint32_t v)
{
    return v < 10 ? 1 : v < 100 ? 2 : v < 1000 ? 3 : v < 10000 ? 4 : 5;
}

/* A number below 100,000 and the mark behind it; where the next one goes. */
static uint8_t *put(uint8_t *at, uint32_t v, uint8_t mark)
{
    uint8_t *end = at + digits(v), *digit = end;
    do {
        *--digit = (uint8_t)('0' + v % 10);
        v /= 10;
    } while (v > 0);
    *end = mark;
    return end + 1;
}

uint64_t c_write_unchecked(size_t count, const uint64_t *keys, size_t keys_length, const uint16_t *hops, size_t hops_length, uint8_t *buffer,
                           size_t buffer_length)
{
    uint8_t *at = buffer;
    size_t bytes = 0, i;
    (void)keys_length;
    (void)hops_length;
    for (i = 0; i < count; i++) {
        uint32_t a = (uint32_t)(keys[i] >> 6);
        bytes += digits(a >> 24) + digits(a >> 16 & 255) + digits(a >> 8 & 255) + digits(a & 255) + digits(keys[i] & 63) + digits(hops[i]) + 6;
    }
    if (bytes > buffer_length) return 13ull << 32;
    for (i = 0; i < count; i++) {
        uint32_t a = (uint32_t)(keys[i] >> 6);
        at = put(at, a >> 24, '.');
        at = put(at, a >> 16 & 255, '.');
        at = put(at, a >> 8 & 255, '.');
        at = put(at, a & 255, '/');
        at = put(at, keys[i] & 63, ' ');
        at = put(at, hops[i], '\n');
    }
    return bytes;
}

uint64_t c_write(size_t count, const uint64_t *keys, size_t keys_length, const uint16_t *hops, size_t hops_length, uint8_t *buffer,
                 size_t buffer_length)
{
    if (!list_ok(count, keys, keys_length, hops, hops_length)) return 11ull << 32;
    return c_write_unchecked(count, keys, keys_length, hops, hops_length, buffer, buffer_length);
}

uint64_t c_write_by_libc(size_t count, const uint64_t *keys, size_t keys_length, const uint16_t *hops, size_t hops_length, uint8_t *buffer,
                         size_t buffer_length)
{
    char address[INET_ADDRSTRLEN];
    size_t at = 0, i;
    (void)keys_length;
    (void)hops_length;
    for (i = 0; i < count; i++) {
        struct in_addr network = {htonl((uint32_t)(keys[i] >> 6))};
        inet_ntop(AF_INET, &network, address, sizeof address);
        at += (size_t)snprintf((char *)buffer + at, buffer_length - at, "%s/%u %u\n", address, (unsigned)(keys[i] & 63), hops[i]);
        if (at >= buffer_length) return 13ull << 32;
    }
    return at;
}
