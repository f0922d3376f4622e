/* Makes the sample files in a folder:
 *   make FOLDER
 * Lines, line strings, shapes and curves are made by dgn_write, texts by dgn_write_text, the headers of cells and text nodes,
 * ellipses and arcs here, word by word as docs/RULES.md says; the words of headers' ranges and those that it does not name are 0.
 * Each file is judged before it is written: where an answer is not the expected one, the program says so and ends with status 1.
 */
#include <math.h>
#include <stdio.h>
#include <stdlib.h>
#include <string.h>

#include "dgn.h"

static uint8_t file[65536];
static size_t used;  /* words of it that are made */
static size_t depth; /* headers that are begun and not ended */

static void stop(const char *what)
{
    fprintf(stderr, "make: %s\n", what);
    exit(1);
}

static void put(size_t i, size_t word)
{
    file[2 * i] = word & 255;
    file[2 * i + 1] = word >> 8;
}

/* The fields of an element behind the last one, whose linkages would begin behind so many words. The range is that of the
 * points; z is 0. */
static void fields_of(int64_t *fields, size_t type, size_t deleted, const int32_t *points, size_t n, size_t fixed, size_t linked)
{
    int64_t range[6] = {INT32_MAX, INT32_MAX, 0, INT32_MIN, INT32_MIN, 0};
    for (size_t k = 0; k < n; k++) {
        if (points[k] < range[k % 2]) range[k % 2] = points[k];
        if (points[k] > range[3 + k % 2]) range[3 + k % 2] = points[k];
    }
    const int64_t these[DGN_WRITE_FIELDS] = {
        [DGN_WRITE_TYPE] = (int64_t)type,
        [DGN_WRITE_LEVEL] = 1,
        [DGN_WRITE_COMPONENT] = depth > 0,
        [DGN_WRITE_DELETED] = (int64_t)deleted,
        [DGN_WRITE_LOW_X] = range[0],
        [DGN_WRITE_LOW_Y] = range[1],
        [DGN_WRITE_LOW_Z] = range[2],
        [DGN_WRITE_HIGH_X] = range[3],
        [DGN_WRITE_HIGH_Y] = range[4],
        [DGN_WRITE_HIGH_Z] = range[5],
        [DGN_WRITE_ATTRIBUTE_INDEX] = (int64_t)fixed - 16,
        [DGN_WRITE_PROPERTIES] = (int64_t)linked,
        [DGN_WRITE_WEIGHT] = 1,
        [DGN_WRITE_COLOUR] = 3,
    };
    memcpy(fields, these, sizeof these);
}

/* Writes an element behind the last one. A linkage is the tail; its bit A and its place go into the fields. */
static void draw(size_t type, size_t deleted, const int32_t *points, size_t n, const uint8_t *tail, size_t tail_len)
{
    int64_t fields[DGN_WRITE_FIELDS];
    size_t out[1];
    fields_of(fields, type, deleted, points, n, type == DGN_LINE ? 26 : 19 + 2 * n, tail_len > 0 ? DGN_HAS_ATTRIBUTES : 0);
    if (dgn_write(fields, DGN_WRITE_FIELDS, points, n, tail, tail_len, 2, file + 2 * used, sizeof file - 2 * used, out, 1) != 0)
        stop("an element is not written");
    used += out[0];
}

/* An element of a type with these coordinates, x and y in turn. */
#define POINTS(...) (const int32_t[]){__VA_ARGS__}, sizeof((const int32_t[]){__VA_ARGS__}) / sizeof(int32_t)
#define DRAW(type, ...) draw(type, 0, POINTS(__VA_ARGS__), NULL, 0)
#define DELETED(type, ...) draw(type, 1, POINTS(__VA_ARGS__), NULL, 0)

/* Begins a header of some words. What is drawn until it is ended stands under it. */
static size_t header(size_t type, size_t size)
{
    size_t at = used;
    memset(file + 2 * at, 0, 2 * size);
    put(at, type << 8 | (depth > 0 ? 128 : 0));
    put(at + 1, size - 2);
    used += size;
    depth++;
    return at;
}

/* Begins a cell. */
static size_t begin(size_t type, const char *name)
{
    size_t name_at = type == DGN_LIBRARY_CELL ? 16 : 19, out[2];
    if (dgn_pack((const uint8_t *)name, strlen(name), out, 2) != 0) stop("a name is not packed");
    size_t at = header(type, type == DGN_LIBRARY_CELL ? 35 : 46);
    put(at + name_at, out[0]);
    put(at + name_at + 1, out[1]);
    return at;
}

/* Begins a text node of n texts. */
static size_t begin_node(size_t n)
{
    size_t at = header(DGN_TEXT_NODE, 35);
    put(at + 19, n);
    return at;
}

/* Writes a text behind the last element, of n characters in font 3, 12 units wide and high, from a point to the right. The
 * fields are three bytes each. */
static void letter(size_t deleted, int32_t x, int32_t y, const char *characters, size_t n, const uint8_t *triples, size_t triples_len)
{
    const int32_t corners[4] = {x, y, x + 12 * (int32_t)n, y + 12};
    const int64_t text[DGN_WRITE_TEXT_NUMBERS] = {
        [DGN_WRITE_TEXT_FONT] = 3,
        [DGN_WRITE_TEXT_JUSTIFICATION] = 2, /* left, bottom */
        [DGN_WRITE_TEXT_LENGTH] = 2000,
        [DGN_WRITE_TEXT_HEIGHT] = 2000,
        [DGN_WRITE_TEXT_X] = x,
        [DGN_WRITE_TEXT_Y] = y,
    };
    int64_t fields[DGN_WRITE_FIELDS];
    size_t out[1];
    fields_of(fields, DGN_TEXT, deleted, corners, 4, 30 + (n + triples_len + 1) / 2, 0);
    if (dgn_write_text(fields, DGN_WRITE_FIELDS, text, DGN_WRITE_TEXT_NUMBERS, (const uint8_t *)characters, n, triples, triples_len, NULL, 0, 2,
                       file + 2 * used, sizeof file - 2 * used, out, 1) != 0)
        stop("a text is not written");
    used += out[0];
}

/* A text of the characters of a literal. */
#define TEXT(deleted, x, y, characters) letter(deleted, x, y, characters, sizeof(characters) - 1, NULL, 0)

static void put_long(size_t i, size_t value)
{
    put(i, value >> 16 & 65535);
    put(i + 1, value & 65535);
}

/* A float of four words: sign, exponent and fraction, whose leading digit is left out. */
static void put_float(size_t i, double value)
{
    int power;
    const double part = frexp(fabs(value), &power);
    uint64_t bits = 0;
    if (part != 0) {
        const uint64_t fraction = (uint64_t)ldexp(part, 56) - ((uint64_t)1 << 55);
        bits = (uint64_t)(value < 0) << 63 | (uint64_t)(power + 128) << 55 | fraction;
    }
    for (size_t k = 0; k < 4; k++)
        put(i + k, bits >> (48 - 16 * k) & 65535);
}

/* An ellipse or, where it sweeps an angle, an arc of one. Angles are in degrees. The range is that of the whole ellipse if it
 * is not turned. */
struct ring {
    double primary, secondary, turn, x, y, start, sweep;
};

/* The greatest whole number that is not above a number. */
static int32_t whole(double value)
{
    const int32_t cut = (int32_t)value;
    return cut > value ? cut - 1 : cut;
}

static void ring(size_t deleted, struct ring r)
{
    const int32_t corners[4] = {whole(r.x - r.primary), whole(r.y - r.secondary), -whole(-r.x - r.primary), -whole(-r.y - r.secondary)};
    const size_t type = r.sweep == 0 ? DGN_ELLIPSE : DGN_ARC, size = type == DGN_ELLIPSE ? 36 : 40, at = used;
    int64_t fields[DGN_WRITE_FIELDS];
    size_t axes = at + 18;
    fields_of(fields, type, deleted, corners, 4, size, 0);
    memset(file + 2 * at, 0, 2 * size);
    put(at, (size_t)(fields[DGN_WRITE_LEVEL] | fields[DGN_WRITE_COMPONENT] << 7) | type << 8 | deleted << 15);
    put(at + 1, size - 2);
    /* a range stores coordinate + 2147483648 */
    for (size_t k = 0; k < 6; k++)
        put_long(at + 2 + 2 * k, (size_t)(fields[DGN_WRITE_LOW_X + k] + 2147483648));
    put(at + 15, (size_t)fields[DGN_WRITE_ATTRIBUTE_INDEX]);
    put(at + 17, (size_t)(fields[DGN_WRITE_STYLE] | fields[DGN_WRITE_WEIGHT] << 3 | fields[DGN_WRITE_COLOUR] << 8));
    if (type == DGN_ARC) {
        put_long(axes, (size_t)(360000 * r.start));
        put_long(axes + 2, (size_t)(360000 * r.sweep));
        axes += 4;
    }
    put_float(axes, r.primary);
    put_float(axes + 4, r.secondary);
    put_long(axes + 8, (size_t)(360000 * r.turn));
    put_float(axes + 10, r.x);
    put_float(axes + 14, r.y);
    used += size;
}

#define RING(deleted, ...) ring(deleted, (struct ring){__VA_ARGS__})

/* Ends the header that began at a place: its total is all words after word 18. */
static void end(size_t at)
{
    put(at + 18, used - at - 19);
    depth--;
}

static void marker(void)
{
    put(used, DGN_END_MARKER);
    used++;
}

/* Judges the file, holds what is returned to the expected number and, where that is 0, elements, greatest depth and the
 * marker's place to theirs, and writes the file. */
static void keep(const char *folder, const char *name, size_t answer, size_t elements, size_t deepest, size_t end_at)
{
    char path[4096];
    size_t out[DGN_JUDGE_NUMBERS] = {0};
    size_t r = dgn_judge(file, 2 * used, 2, out, DGN_JUDGE_NUMBERS);
    if (r != answer || out[DGN_JUDGE_ELEMENTS] != elements || out[DGN_JUDGE_DEPTH] != deepest || out[DGN_JUDGE_MARKER] != end_at) {
        fprintf(stderr, "make: %s: %s at %zu, not as expected\n", name, dgn_refusal_name(r), DGN_PLACE(r));
        exit(1);
    }
    snprintf(path, sizeof path, "%s/%s", folder, name);
    FILE *f = fopen(path, "wb");
    if (f == NULL || fwrite(file, 2, used, f) != used || fclose(f) != 0) {
        perror(path);
        exit(1);
    }
}

static void find(const char *text, size_t place)
{
    size_t out[2];
    if (dgn_find(file, 2 * used, 2, (const uint8_t *)text, strlen(text), out, 2) != 0 || out[0] != place)
        stop("a part is not found at its place");
}

/* A cell library: four parts, the seals 00417 and 417 among them. */
static void seals(const char *folder)
{
    size_t at = begin(DGN_LIBRARY_CELL, "00417");
    DRAW(DGN_SHAPE, -40, -40, 40, -40, 40, 40, -40, 40, -40, -40);
    DRAW(DGN_LINE, -50, 0, 50, 0);
    DRAW(DGN_LINE, 0, -50, 0, 50);
    DRAW(DGN_CURVE, 30, -30, 30, 0, 30, 0, 0, 30, -30, 0, 0, -30, 30, 0, 30, 0, 30, 30);
    end(at);

    size_t second = begin(DGN_LIBRARY_CELL, "417");
    DRAW(DGN_LINE_STRING, -90, 20, -70, 0, 70, 0, 90, 20);
    DRAW(DGN_SHAPE, -10, 0, 10, 0, 0, 15, -10, 0);
    end(second);

    size_t third = begin(DGN_LIBRARY_CELL, "PUMP.1");
    DRAW(DGN_SHAPE, 0, 0, 300, 0, 300, 200, 0, 200, 0, 0);
    DRAW(DGN_LINE, 300, 100, 420, 100);
    end(third);

    size_t fourth = begin(DGN_LIBRARY_CELL, "EMPTY");
    end(fourth);
    marker();

    keep(folder, "seals.cel", 0, 12, 1, 421);
    find("00417", at);
    find("417", second);
}

/* seals.cel with the second line of seal 00417, words 100 to 125, taken out by hand and the seal's old total left: seal
 * 417 now begins inside the old extent, which ends at word 181 as before, and does not fit there. */
static void shortened(const char *folder)
{
    memmove(file + 2 * 100, file + 2 * 126, 2 * (used - 126));
    used -= 26;
    keep(folder, "shortened.cel", DGN_CUT + 256 * 155, 0, 0, 0);
}

/* A drawing: cells in cells, a deleted line, a line with a user linkage of four words and id 417. */
static void nested(const char *folder)
{
    static const uint8_t linkage[8] = {3, 16, 417 & 255, 417 >> 8, 7, 0, 0, 0};

    used = 0;
    DRAW(DGN_LINE, 0, 0, 1000, 0);
    size_t pump = begin(DGN_CELL, "PUMP.1");
    DRAW(DGN_SHAPE, 0, 0, 300, 0, 300, 200, 0, 200, 0, 0);
    size_t seal = begin(DGN_CELL, "00417");
    DELETED(DGN_LINE, 250, 100, 350, 100);
    size_t ring = begin(DGN_CELL, "RING");
    DRAW(DGN_CURVE, 330, 70, 330, 100, 330, 100, 300, 130, 270, 100, 300, 70, 330, 100, 330, 100, 330, 130);
    end(ring);
    end(seal);
    draw(DGN_LINE, 0, POINTS(300, 100, 420, 100), linkage, sizeof linkage);
    end(pump);
    DRAW(DGN_LINE_STRING, 0, 0, 0, 500, 1000, 500);
    marker();
    keep(folder, "nested.dgn", 0, 9, 3, 345);
}

/* A plate: the seal 00417 as a cell with two texts, one of them deleted; a text node of three texts, in one of which a byte
 * does not print and in one of which a backslash stands; a text with a field to be filled in; an empty text. */
static void plate(const char *folder)
{
    static const uint8_t pieces[3] = {6, 3, 255}; /* from the sixth character on, three; justification -1 */

    used = 0;
    size_t seal = begin(DGN_CELL, "00417");
    DRAW(DGN_SHAPE, -40, -40, 40, -40, 40, 40, -40, 40, -40, -40);
    TEXT(0, -30, -60, "00417");
    TEXT(1, -30, -80, "417");
    end(seal);
    size_t node = begin_node(3);
    TEXT(0, 100, 40, "SHAFT SEAL");
    TEXT(0, 100, 20, "\330 40 x 52");
    TEXT(0, 100, 0, "NBR\\FKM");
    end(node);
    letter(0, 100, -40, "PCS: ___", 8, pieces, sizeof pieces);
    TEXT(0, 100, -60, "");
    marker();
    keep(folder, "plate.dgn", 0, 10, 1, 355);
}

/* A ring as a cell of two circles and a deleted one, and at the top an ellipse that is turned and an arc of one. */
static void rings(const char *folder)
{
    used = 0;
    size_t seal = begin(DGN_CELL, "RING.7");
    RING(0, .primary = 26, .secondary = 26, .x = 100, .y = -50);
    RING(0, .primary = 19.8, .secondary = 19.8, .x = 100, .y = -50);
    RING(1, .primary = 20, .secondary = 20, .x = 100, .y = -50);
    end(seal);
    RING(0, .primary = 100.5, .secondary = 60.25, .turn = 30, .x = -0.5, .y = 12.75);
    RING(0, .primary = 100.5, .secondary = 60.25, .turn = 30, .x = -0.5, .y = 12.75, .start = 45, .sweep = 90);
    marker();
    keep(folder, "rings.dgn", 0, 6, 1, 230);
}

static void empty(const char *folder)
{
    used = 0;
    marker();
    keep(folder, "empty.dgn", 0, 0, 0, 0);
}

int main(int argc, char **argv)
{
    if (argc != 2) {
        fprintf(stderr, "usage: make FOLDER\n");
        return 2;
    }
    seals(argv[1]);
    shortened(argv[1]);
    nested(argv[1]);
    plate(argv[1]);
    rings(argv[1]);
    empty(argv[1]);
    return 0;
}
