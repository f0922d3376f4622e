/* Loops that only go from element to element of an accepted file and judge nothing: what reading the sizes costs. */
#include <stddef.h>
#include <stdint.h>
#include <string.h>

static inline size_t word(const uint8_t *file, size_t at)
{
    uint16_t w;
    memcpy(&w, file + 2 * at, 2);
    return w;
}

/* By sizes: how many elements there are at all depths. */
size_t hop_sizes(const uint8_t *file)
{
    size_t n = 0;
    for (size_t at = 0; word(file, at) != 65535; at += word(file, at + 1) + 2)
        n++;
    return n;
}

/* By sizes, up to a place: how many elements there are from another place on. */
size_t hop_extent(const uint8_t *file, size_t at, size_t end)
{
    size_t n = 0;
    for (; at < end; at += word(file, at + 1) + 2)
        n++;
    return n;
}

/* By totals: how many there are at the top. */
size_t hop_totals(const uint8_t *file)
{
    const unsigned headers = 1u << 1 | 1u << 2 | 1u << 7 | 1u << 12 | 1u << 14 | 1u << 18 | 1u << 19;
    size_t n = 0;
    size_t first;
    for (size_t at = 0; (first = word(file, at)) != 65535; n++) {
        unsigned type = first >> 8 & 127;
        if (type < 32 && headers >> type & 1)
            at += word(file, at + 18) + 19;
        else
            at += word(file, at + 1) + 2;
    }
    return n;
}
