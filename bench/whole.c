/* All views, points, texts, ellipses and arcs, ranges, and plates of a file in plain C, for the bench alone: judges once by plain_judge
 * and then goes from element to element and fills in the numbers of include/dgn.h, written from the rules. From an element
 * number on, and as many as there is room for. It promises nothing beyond what the bench compares. */
#include <stdbool.h>
#include <stddef.h>
#include <stdint.h>
#include <string.h>

#define DEEPEST 8

size_t plain_judge(const uint8_t *file, size_t len, size_t dim, size_t *out);

static const unsigned headers = 1u << 1 | 1u << 2 | 1u << 7 | 1u << 12 | 1u << 14 | 1u << 18 | 1u << 19;
static const unsigned counted = 1u << 7 | 1u << 12 | 1u << 14 | 1u << 18 | 1u << 19;
static const unsigned pointed = 1u << 4 | 1u << 6 | 1u << 11 | 1u << 21;
static const unsigned ranged = 1u << 3 | 1u << 4 | 1u << 6 | 1u << 11;
static const unsigned known = 1u << 1 | 1u << 2 | 1u << 3 | 1u << 4 | 1u << 6 | 1u << 7 | 1u << 11 | 1u << 12 | 1u << 14 |
                              1u << 15 | 1u << 16 | 1u << 17 | 1u << 18 | 1u << 19 | 1u << 21;

static inline bool among(unsigned types, unsigned type)
{
    return type < 32 && types >> type & 1;
}

/* Word k from p, low byte first as on x86-64. */
static inline unsigned word(const uint8_t *p, size_t k)
{
    uint16_t w;
    memcpy(&w, p + 2 * k, 2);
    return w;
}

/* The long at word k, high word first. */
static inline uint32_t whole(const uint8_t *p, size_t k)
{
    return (uint32_t)word(p, k) << 16 | word(p, k + 1);
}

/* A walk in file order over an accepted file: the element that it stands at, and the headers around it. */
struct walk {
    size_t at;
    size_t depth;
    size_t header[DEEPEST + 1];
    size_t end[DEEPEST + 1];
};

/* To the next element; `type` and `size` are those of the one that it stands at. */
static inline void step(const uint8_t *file, struct walk *w, unsigned type, size_t size)
{
    if (among(headers, type)) {
        w->header[w->depth] = w->at;
        w->end[w->depth] = w->at + 19 + word(file + 2 * w->at, 18);
        w->depth++;
    }
    w->at += size;
    while (w->depth > 0 && w->end[w->depth - 1] == w->at)
        w->depth--;
}

static inline void fill(const uint8_t *p, const struct walk *w, unsigned type, size_t size, int64_t *v)
{
    unsigned first = word(p, 0);
    memset(v, 0, 32 * sizeof *v);
    v[0] = first & 63;
    v[1] = first >> 7 & 1;
    v[2] = type;
    v[3] = first >> 15;
    v[4] = (int64_t)size;
    v[5] = (int64_t)w->depth;
    if (w->depth > 0) {
        v[6] = 1;
        v[7] = (int64_t)w->header[w->depth - 1];
    }
    if (size >= 14) {
        v[8] = 1;
        for (size_t k = 0; k < 6; k++)
            v[9 + k] = (int64_t)whole(p, 2 + 2 * k) - 2147483648;
    }
    if (among(known, type)) {
        if (type != 1) {
            unsigned symbology = word(p, 17);
            v[15] = 1;
            v[16] = word(p, 14);
            v[17] = word(p, 15);
            v[18] = word(p, 16);
            v[19] = symbology & 7;
            v[20] = symbology >> 3 & 31;
            v[21] = symbology >> 8;
        }
        if (among(pointed, type)) {
            v[22] = 1;
            v[23] = word(p, 18);
        }
        if (type <= 2) {
            v[24] = 1;
            v[25] = word(p, type == 1 ? 16 : 19);
            v[26] = word(p, type == 1 ? 17 : 20);
        }
        if (among(headers, type)) {
            v[27] = 1;
            v[28] = word(p, 18);
        }
        if (among(counted, type)) {
            v[29] = 1;
            v[30] = word(p, 19);
        }
    }
    v[31] = (int64_t)w->at;
}

/* The views from element number k on, out[0] how many; or the number of a refusal, and nothing is written. */
size_t plain_views(const uint8_t *file, size_t len, size_t dim, size_t k, int64_t *views, size_t room, size_t *out)
{
    size_t judged[3];
    size_t number = plain_judge(file, len, dim, judged);
    if (number != 0)
        return number;
    if (k < judged[0] && room < 32)
        return 15;
    struct walk w = {.at = 0};
    size_t n = 0;
    for (size_t e = 0; e < judged[0] && 32 * (n + 1) <= room; e++) {
        const uint8_t *p = file + 2 * w.at;
        unsigned type = word(p, 0) >> 8 & 127;
        size_t size = word(p, 1) + 2;
        if (e >= k)
            fill(p, &w, type, size, views + 32 * n++);
        step(file, &w, type, size);
    }
    out[0] = n;
    return 0;
}

/* The points from element number k on, out the next element number and how many numbers were written; or the number of a
 * refusal, and nothing is written. */
size_t plain_points(const uint8_t *file, size_t len, size_t dim, size_t k, int64_t *numbers, size_t room, size_t *out)
{
    size_t judged[3];
    size_t number = plain_judge(file, len, dim, judged);
    if (number != 0)
        return number;
    size_t at = 0, used = 0, e = 0;
    for (; e < judged[0]; e++) {
        const uint8_t *p = file + 2 * at;
        unsigned type = word(p, 0) >> 8 & 127;
        at += word(p, 1) + 2;
        if (e < k || !(type == 3 || among(pointed, type)))
            continue;
        size_t n = type == 3 ? 2 : word(p, 18);
        size_t from = type == 3 ? 18 : 19;
        if (room - used < 2 + n * dim) {
            if (used == 0)
                return 15;
            break;
        }
        numbers[used] = (p - file) / 2;
        numbers[used + 1] = (int64_t)n;
        for (size_t i = 0; i < n * dim; i++)
            numbers[used + 2 + i] = (int32_t)whole(p, from + 2 * i);
        used += 2 + n * dim;
    }
    out[0] = e > k ? e : k;
    out[1] = used;
    return 0;
}

/* Whether n points from p on lie in the range of the six longs at `range`. */
static inline bool inside(const uint8_t *range, const uint8_t *p, size_t n, size_t dim)
{
    for (size_t i = 0; i < n; i++)
        for (size_t axis = 0; axis < dim; axis++) {
            int64_t z = (int32_t)whole(p, 2 * (dim * i + axis));
            if (z < (int64_t)whole(range, 2 * axis) - 2147483648 || z > (int64_t)whole(range, 6 + 2 * axis) - 2147483648)
                return false;
        }
    return true;
}

/* The places of the elements of types 3, 4, 6 and 11 from element number k on whose points do not all lie in their range, out
 * the next element number and how many places; or the number of a refusal, and nothing is written. */
size_t plain_ranges(const uint8_t *file, size_t len, size_t dim, size_t k, int64_t *places, size_t room, size_t *out)
{
    size_t judged[3];
    size_t number = plain_judge(file, len, dim, judged);
    if (number != 0)
        return number;
    size_t at = 0, used = 0, e = 0;
    for (; e < judged[0]; e++) {
        const uint8_t *p = file + 2 * at;
        unsigned type = word(p, 0) >> 8 & 127;
        at += word(p, 1) + 2;
        if (e < k || !among(ranged, type))
            continue;
        size_t n = type == 3 ? 2 : word(p, 18);
        size_t from = type == 3 ? 18 : 19;
        if (inside(p + 4, p + 2 * from, n, dim))
            continue;
        if (used == room) {
            if (used == 0)
                return 15;
            break;
        }
        places[used++] = (p - file) / 2;
    }
    out[0] = e > k ? e : k;
    out[1] = used;
    return 0;
}

/* The texts from element number k on, 18 numbers each, out the next element number and how many texts; or the number of a
 * refusal, and nothing is written. */
size_t plain_texts(const uint8_t *file, size_t len, size_t dim, size_t k, int64_t *numbers, size_t room, size_t *out)
{
    size_t judged[3];
    size_t number = plain_judge(file, len, dim, judged);
    if (number != 0)
        return number;
    const size_t turns = dim == 2 ? 1 : 4, origin = 23 + 2 * turns, counts = origin + 2 * dim;
    struct walk w = {.at = 0};
    size_t n = 0, e = 0;
    for (; e < judged[0]; e++) {
        const uint8_t *p = file + 2 * w.at;
        unsigned first = word(p, 0), type = first >> 8 & 127;
        if (e >= k && type == 17) {
            if (room < 18 * (n + 1)) {
                if (n == 0)
                    return 15;
                break;
            }
            int64_t *v = numbers + 18 * n++;
            unsigned c = p[2 * counts], f = p[2 * counts + 1];
            v[0] = (int64_t)w.at;
            v[1] = first >> 15;
            v[2] = (int64_t)w.depth;
            v[3] = p[36];
            v[4] = p[37];
            v[5] = whole(p, 19);
            v[6] = whole(p, 21);
            v[8] = v[9] = v[10] = 0;
            for (size_t i = 0; i < turns; i++)
                v[7 + i] = whole(p, 23 + 2 * i);
            v[13] = 0;
            for (size_t i = 0; i < dim; i++)
                v[11 + i] = (int32_t)whole(p, origin + 2 * i);
            v[14] = c;
            v[15] = f;
            v[16] = (c + 3 * f) % 2 == 1 ? p[2 * counts + 2 + c + 3 * f] : -1;
            v[17] = (int64_t)(2 * (w.at + counts + 1));
        }
        step(file, &w, type, word(p, 1) + 2);
    }
    out[0] = e > k ? e : k;
    out[1] = n;
    return 0;
}

/* The float of the four words from word k on: the processor rounds its 56 digits as it makes a double of them, and the scale is a
 * power of two. */
static inline double float_at(const uint8_t *p, size_t k)
{
    const unsigned first = word(p, k), exponent = first >> 7 & 255;
    if (exponent == 0)
        return 0.0;
    const uint64_t digits = 1ull << 55 | (uint64_t)(first & 127) << 48 | (uint64_t)word(p, k + 1) << 32 | (uint64_t)word(p, k + 2) << 16 | word(p, k + 3);
    const uint64_t bits = (uint64_t)(first >> 15) << 63 | (uint64_t)(exponent + 839) << 52;
    double scale;
    memcpy(&scale, &bits, sizeof scale);
    return (double)(int64_t)digits * scale;
}

/* The ellipses and arcs from element number k on, 9 numbers and 5 floats each, out the next element number and how many; or the
 * number of a refusal, and nothing is written. */
size_t plain_curves(const uint8_t *file, size_t len, size_t dim, size_t k, int64_t *numbers, size_t room, double *floats, size_t floats_room, size_t *out)
{
    size_t judged[3];
    size_t number = plain_judge(file, len, dim, judged);
    if (number != 0)
        return number;
    const size_t turns = dim == 2 ? 1 : 4;
    size_t at = 0, n = 0, e = 0;
    for (; e < judged[0]; e++) {
        const uint8_t *p = file + 2 * at;
        unsigned first = word(p, 0), type = first >> 8 & 127;
        if (e >= k && (type == 15 || type == 16)) {
            if (room < 9 * (n + 1) || floats_room < 5 * (n + 1)) {
                if (n == 0)
                    return 15;
                break;
            }
            int64_t *v = numbers + 9 * n;
            double *f = floats + 5 * n++;
            size_t axes = type == 15 ? 18 : 22, origin = axes + 8 + 2 * turns;
            v[0] = (int64_t)at;
            v[1] = first >> 15;
            v[2] = type;
            v[3] = type == 15 ? 0 : whole(p, 18);
            v[4] = type == 15 ? 0 : whole(p, 20);
            v[6] = v[7] = v[8] = 0;
            for (size_t i = 0; i < turns; i++)
                v[5 + i] = whole(p, axes + 8 + 2 * i);
            f[0] = float_at(p, axes);
            f[1] = float_at(p, axes + 4);
            f[4] = 0.0;
            for (size_t i = 0; i < dim; i++)
                f[2 + i] = float_at(p, origin + 4 * i);
        }
        at += word(p, 1) + 2;
    }
    out[0] = e > k ? e : k;
    out[1] = n;
    return 0;
}

/* The kind of a type on a plate: lines, what has points, texts, ellipses and arcs, headers, others. */
static inline size_t kind(unsigned type)
{
    if (type == 3)
        return 0;
    if (among(pointed, type))
        return 1;
    if (type == 17)
        return 2;
    if (type == 15 || type == 16)
        return 3;
    return among(headers, type) ? 4 : 5;
}

/* The nine numbers of the plate of the cell at a place. */
static inline void count(const uint8_t *file, size_t at, unsigned type, int64_t *v)
{
    const uint8_t *p = file + 2 * at;
    const size_t name = type == 1 ? 16 : 19, end = at + 19 + word(p, 18);
    uint64_t mask;
    memset(v, 0, 9 * sizeof *v);
    v[0] = word(p, name);
    v[1] = word(p, name + 1);
    for (size_t next = at + word(p, 1) + 2; next < end;) {
        const uint8_t *q = file + 2 * next;
        const unsigned first = word(q, 0), under = first >> 8 & 127;
        if (!(first >> 15))
            v[2 + kind(under)]++;
        next += among(headers, under) ? 19 + word(q, 18) : word(q, 1) + 2;
    }
    memcpy(&mask, p + 44, sizeof mask);
    v[8] = __builtin_popcountll(mask);
}

/* The plates of the cells from element number k on, 11 numbers each, out the next element number and how many; or the number of a
 * refusal, and nothing is written. */
size_t plain_plates(const uint8_t *file, size_t len, size_t dim, size_t k, int64_t *numbers, size_t room, size_t *out)
{
    size_t judged[3];
    size_t number = plain_judge(file, len, dim, judged);
    if (number != 0)
        return number;
    size_t at = 0, n = 0, e = 0;
    for (; e < judged[0]; e++) {
        const uint8_t *p = file + 2 * at;
        unsigned first = word(p, 0), type = first >> 8 & 127;
        if (e >= k && (type == 1 || type == 2)) {
            if (room < 11 * (n + 1)) {
                if (n == 0)
                    return 15;
                break;
            }
            int64_t *v = numbers + 11 * n++;
            v[0] = (int64_t)at;
            v[1] = first >> 15;
            count(file, at, type, v + 2);
        }
        at += word(p, 1) + 2;
    }
    out[0] = e > k ? e : k;
    out[1] = n;
    return 0;
}
