/* The index of a file in plain C, for the bench alone: judges once by plain_judge, goes from element to element, and sorts with
 * qsort, written from the rules. It promises nothing beyond what the bench compares. */
#include <stddef.h>
#include <stdint.h>
#include <stdlib.h>
#include <string.h>

size_t plain_judge(const uint8_t *file, size_t len, size_t dim, size_t *out);

/* Word k from p, low byte first as on x86-64. */
static inline unsigned word(const uint8_t *p, size_t k)
{
    uint16_t w;
    memcpy(&w, p + 2 * k, 2);
    return w;
}

/* The words of an entry as digits of one number. */
static inline uint64_t number(const void *entry)
{
    const uint8_t *p = entry;
    return (uint64_t)word(p, 0) << 48 | (uint64_t)word(p, 1) << 32 | (uint64_t)word(p, 2) << 16 | word(p, 3);
}

static int compare(const void *a, const void *b)
{
    const uint64_t x = number(a), y = number(b);
    return (x > y) - (x < y);
}

/* The number of cells up to the marker; each one's entry is put into the index, where there is one. */
static size_t cells(const uint8_t *file, size_t marker, uint8_t *index)
{
    size_t n = 0;
    for (size_t at = 0; at < marker; at += word(file, at + 1) + 2) {
        const unsigned type = word(file, at) >> 8 & 127;
        if (type != 1 && type != 2)
            continue;
        if (index) {
            uint16_t entry[4];
            memcpy(entry, file + 2 * (at + (type == 1 ? 16 : 19)), 4);
            entry[2] = at >> 16;
            entry[3] = at & 65535;
            memcpy(index + 8 * n, entry, 8);
        }
        n++;
    }
    return n;
}

/* As dgn_index: the number of a refusal, or 0 and the used length. */
size_t plain_index(const uint8_t *file, size_t len, size_t dim, uint8_t *index, size_t room, size_t *out)
{
    size_t judged[3];
    const size_t refused = plain_judge(file, len, dim, judged);
    if (refused)
        return refused;
    const size_t n = cells(file, judged[2], NULL);
    if (room / 8 < n)
        return 15;
    cells(file, judged[2], index);
    qsort(index, n, 8, compare);
    memset(index + 8 * n, 0, room - 8 * n);
    *out = 8 * n;
    return 0;
}

/* As dgn_cells, but for the elements and the depth: how many cells there are. */
size_t plain_cells(const uint8_t *file, size_t len, size_t dim, uint8_t *entries, size_t *out)
{
    size_t judged[3];
    const size_t refused = plain_judge(file, len, dim, judged);
    if (refused)
        return refused;
    *out = cells(file, judged[2], entries);
    return 0;
}
