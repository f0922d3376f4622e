/* A plain judge in C, for the bench alone: the checks of judging a file in their order, written from the rules. It
 * promises nothing beyond what the bench compares. */
#include <stdbool.h>
#include <stddef.h>
#include <stdint.h>
#include <string.h>

#define LARGEST 65535u
#define DEEPEST 8u

enum {
    HEADER = 1,    /* word 18 is a total */
    COUNTED = 2,   /* word 19 counts the direct components */
    POINTED = 4,   /* word 18 is N */
    LINKED = 8,    /* may have an attribute part */
    SOLID = 16,    /* in 3D files only */
    NOT_READ = 32,
    LETTERED = 64, /* the fixed part's last word counts characters and fields, which follow it */
    FLOATED = 128, /* has floats: two axes and an origin, which ends the fixed part */
};

/* What the rules say of a type: the fixed part in 2D and 3D without its points or characters, and where the name is, if
 * any. Raw types are all zeros. */
struct kind {
    uint8_t fixed[2];
    uint8_t flags;
    uint8_t name;
};

static const struct kind kinds[128] = {
    [1] = {{35, 35}, HEADER, 16},
    [2] = {{46, 62}, HEADER | LINKED, 19},
    [3] = {{26, 30}, LINKED, 0},
    [4] = {{19, 19}, POINTED | LINKED, 0},
    [6] = {{19, 19}, POINTED | LINKED, 0},
    [7] = {{35, 43}, HEADER | COUNTED | LINKED, 0},
    [11] = {{19, 19}, POINTED | LINKED, 0},
    [12] = {{20, 20}, HEADER | COUNTED | LINKED, 0},
    [14] = {{20, 20}, HEADER | COUNTED | LINKED, 0},
    [15] = {{36, 46}, LINKED | FLOATED, 0},
    [16] = {{40, 50}, LINKED | FLOATED, 0},
    [17] = {{30, 38}, LINKED | LETTERED, 0},
    [18] = {{21, 21}, HEADER | COUNTED | LINKED | SOLID, 0},
    [19] = {{21, 21}, HEADER | COUNTED | LINKED | SOLID, 0},
    [21] = {{19, 19}, POINTED | LINKED, 0},
    [24] = {{0, 0}, NOT_READ, 0},
    [27] = {{0, 0}, NOT_READ, 0},
    [87] = {{0, 0}, NOT_READ, 0},
};

struct judging {
    const uint8_t *file;
    size_t dim;
    size_t elements;
    size_t deepest;
    size_t number;
    size_t place;
};

/* Word k from p, low byte first as on x86-64. gcc makes two loads of p[2 * k] | p[2 * k + 1] << 8 for a variable k. */
static inline unsigned word(const uint8_t *p, size_t k)
{
    uint16_t w;
    memcpy(&w, p + 2 * k, 2);
    return w;
}

/* No extent ends at 0. */
static size_t refuse(struct judging *j, size_t number, size_t place)
{
    j->number = number;
    j->place = place;
    return 0;
}

static inline bool may_stand(const struct kind *k, unsigned type, unsigned under, size_t dim)
{
    if (k->flags & NOT_READ || (k->flags & SOLID && dim == 2))
        return false;
    switch (under) {
    case 0:
        return true;
    case 7:
        return type == 17;
    case 12: case 14: case 18: case 19:
        return !(k->flags & HEADER);
    default:
        return type != 1;
    }
}

/* Whether linkages fill the words from `at` to `size` of the element at p. */
static bool linkages_fill(const uint8_t *p, size_t at, size_t size)
{
    while (at < size) {
        unsigned first = word(p, at);
        size_t words;
        if (first & 0x1000) {
            if ((first & 255) == 0)
                return false;
            words = 1 + (first & 255);
        } else if (first == 0 || first == 32768) {
            words = 4;
        } else {
            return false;
        }
        if (size - at < words)
            return false;
        at += words;
    }
    return true;
}

/* Whether the enter-data fields of a text are right: `fields` of them, three bytes each, from p on. */
static bool fields_right(const uint8_t *p, unsigned fields, unsigned characters)
{
    for (; fields > 0; fields--, p += 3) {
        if (p[0] < 1 || p[0] > characters || p[0] + p[1] > characters + 1)
            return false;
        if (p[2] > 1 && p[2] != 255)
            return false;
    }
    return true;
}

static inline bool letters(unsigned w)
{
    return w < 64000 && w / 1600 != 29 && w / 40 % 40 != 29 && w % 40 != 29;
}

/* Whether the float that begins at word k is a number: the exponent is 0 with the sign set in one that is none. */
static inline bool number(const uint8_t *p, size_t k)
{
    return (word(p, k) & 0xff80) != 0x8000;
}

/* Whether all floats of the ellipse or arc at p are, whose fixed part is that long: two axes, then a float for each dimension at the
 * end. */
static inline bool numbers(const uint8_t *p, unsigned type, size_t fixed, size_t dim)
{
    size_t axes = type == 15 ? 18 : 22;
    if (!number(p, axes) || !number(p, axes + 4))
        return false;
    for (size_t k = fixed - 4 * dim; k < fixed; k += 4)
        if (!number(p, k))
            return false;
    return true;
}

/* The fixed part of a text whose counts end its first `fixed` words, or 0 and the refusal. */
static size_t lettered(struct judging *j, size_t at, size_t size, size_t fixed)
{
    const uint8_t *counts = j->file + 2 * (at + fixed - 1);
    fixed += (counts[0] + 3 * (size_t)counts[1] + 1) / 2;
    if (size < fixed)
        return refuse(j, 7, at);
    if (!fields_right(counts + 2 + counts[0], counts[1], counts[0]))
        return refuse(j, 20, at);
    return fixed;
}

/* The element at `at` with all beneath it: the end of its extent, or 0. */
static inline size_t element(struct judging *j, size_t at, size_t bound, unsigned depth, unsigned under)
{
    const uint8_t *p = j->file + 2 * at;
    size_t left = bound - at;
    if (left < 2)
        return refuse(j, 3, at);
    unsigned first = word(p, 0);
    size_t size = word(p, 1) + 2;
    if (left < size)
        return refuse(j, 3, at);
    unsigned type = first >> 8 & 127;
    if (type != 9) {
        if (first & 0x40)
            return refuse(j, 4, at);
        if ((first >> 7 & 1) != (depth > 0))
            return refuse(j, 5, at);
    }
    if (depth > DEEPEST)
        return refuse(j, 10, at);
    const struct kind *k = &kinds[type];
    if (!may_stand(k, type, under, j->dim))
        return refuse(j, 6, at);

    size_t fixed = k->fixed[j->dim == 3];
    if (size < fixed)
        return refuse(j, 7, at);
    if (k->flags & POINTED) {
        size_t n = word(p, 18);
        fixed += 2 * j->dim * n;
        if (n < 2 || n > 101 || size < fixed)
            return refuse(j, 7, at);
    }
    if (k->flags & LETTERED) {
        fixed = lettered(j, at, size, fixed);
        if (fixed == 0)
            return 0;
    }
    if (size > LARGEST)
        return refuse(j, 8, at);
    size_t extent = size;
    if (k->flags & HEADER) {
        extent = 19 + word(p, 18);
        if (extent < size || extent > left || extent > LARGEST)
            return refuse(j, 8, at);
    }
    if (k->flags & LINKED && word(p, 16) & 0x800) {
        size_t part = 16 + word(p, 15);
        if (part < fixed || part > size || !linkages_fill(p, part, size))
            return refuse(j, 11, at);
    }
    if (k->flags & FLOATED && !numbers(p, type, fixed, j->dim))
        return refuse(j, 21, at);
    if (k->name && !(letters(word(p, k->name)) && letters(word(p, k->name + 1))))
        return refuse(j, 12, at);

    j->elements++;
    if (depth > j->deepest)
        j->deepest = depth;
    if (k->flags & HEADER) {
        size_t count = 0;
        for (size_t next = at + size; next < at + extent; count++) {
            next = element(j, next, at + extent, depth + 1, type);
            if (next == 0)
                return 0;
        }
        if (k->flags & COUNTED && word(p, 19) != count)
            return refuse(j, 9, at);
    }
    return at + extent;
}

/* Judges a file: 0 and elements, greatest depth and the marker's place in out, or the number and its place in out[0].
 */
size_t plain_judge(const uint8_t *file, size_t len, size_t dim, size_t *out)
{
    out[0] = 0;
    if ((dim != 2 && dim != 3) || len % 2 != 0 || len > 1048576)
        return 1;
    struct judging j = {.file = file, .dim = dim};
    size_t bound = len / 2;
    size_t at = 0;
    for (;;) {
        if (at == bound) {
            out[0] = at;
            return 2;
        }
        if (word(file, at) == 65535)
            break;
        at = element(&j, at, bound, 0, 0);
        if (at == 0) {
            out[0] = j.place;
            return j.number;
        }
    }
    out[0] = j.elements;
    out[1] = j.deepest;
    out[2] = at;
    return 0;
}
