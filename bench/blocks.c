/* A journal to blocks and back, with the same checks in the same order, written from the rules. */
#include <stddef.h>
#include <stdint.h>
#include <string.h>

enum { BLOCK = 512, ROOM = 508, WORDS = 256, MOST = 1048576, MOST_STORED = 1057280 };

/* a 16-bit load, low byte first as the machine has it */
static uint16_t word(const uint8_t *b)
{
    uint16_t w;
    memcpy(&w, b, 2);
    return w;
}

static void put(uint8_t *b, uint16_t w)
{
    b[0] = w & 255;
    b[1] = w >> 8;
}

static uint16_t sum(const uint8_t *b, size_t words)
{
    uint16_t t = 0;
    for (size_t i = 0; i < words; i++)
        t += word(b + 2 * i);
    return t;
}

static void put_block(uint8_t *b, const uint8_t *journal, size_t n)
{
    memcpy(b, journal, n);
    memset(b + n, 0, ROOM - n);
    put(b + ROOM, (uint16_t)n);
    put(b + ROOM + 2, (uint16_t)-sum(b, WORDS - 1));
}

/* 0 and the bytes written, or the refusal's number */
size_t plain_to_blocks(const uint8_t *journal, size_t n, uint8_t *b, size_t room, size_t *out)
{
    if (n % 2 != 0 || n > MOST)
        return 1;
    const size_t size = (n + ROOM - 1) / ROOM * BLOCK;
    if (room < size)
        return 15;
    for (; n >= ROOM; n -= ROOM, journal += ROOM, b += BLOCK)
        put_block(b, journal, ROOM);
    if (n > 0)
        put_block(b, journal, n);
    *out = size;
    return 0;
}

/* whether the block number k, with so many bytes left from its start on, is good */
static int good(const uint8_t *b, size_t left, size_t k)
{
    if (left < BLOCK)
        return 0;
    const size_t used = word(b + ROOM), least = left > BLOCK ? ROOM : 2, most = MOST - ROOM * k < ROOM ? MOST - ROOM * k : ROOM;
    if (used < least || used > most || used % 2 != 0)
        return 0;
    for (size_t i = used; i < ROOM; i++)
        if (b[i] != 0)
            return 0;
    return sum(b, WORDS) == 0;
}

/* 0 and the bytes written, or the refusal's number + 256 * the block */
size_t plain_from_blocks(const uint8_t *b, size_t n, uint8_t *journal, size_t room, size_t *out)
{
    if (n % 2 != 0 || n > MOST_STORED)
        return 1;
    const size_t blocks = (n + BLOCK - 1) / BLOCK;
    size_t size = 0;
    for (size_t k = 0; k < blocks; k++) {
        if (!good(b + BLOCK * k, n - BLOCK * k, k))
            return 22 + 256 * k;
        size += word(b + BLOCK * k + ROOM);
    }
    if (room < size)
        return 15;
    *out = size;
    for (; size >= ROOM; size -= ROOM, journal += ROOM, b += BLOCK)
        memcpy(journal, b, ROOM);
    memcpy(journal, b, size);
    return 0;
}
