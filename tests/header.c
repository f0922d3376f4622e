/* Every function of include/dgn.h and dgn_session.h, called from C as the headers declare it, on the worked cell of
 * docs/RULES.md: a 2D cell of 46 words named 00417 with one line of 26 words, marked deleted, and the end marker. A
 * refusal leaves every number of the slices that it is handed. Its last line is "N passed, M failed". */
#include <stdio.h>
#include <string.h>

#include "dgn_session.h"

static size_t passed, failed;

static void check(int holds, const char *what)
{
    if (holds) {
        passed++;
    } else {
        failed++;
        printf("header: %s\n", what);
    }
}

/* the slices for answers, filled with a number before each call */
enum { ROOM = 100, FILL = 7777 };
static size_t out[ROOM];
static int64_t numbers[ROOM];
static double floats[ROOM];

static size_t *fresh(void)
{
    for (size_t i = 0; i < ROOM; i++)
        out[i] = FILL;
    return out;
}

static int64_t *fresh_numbers(void)
{
    for (size_t i = 0; i < ROOM; i++)
        numbers[i] = FILL;
    return numbers;
}

static double *fresh_floats(void)
{
    for (size_t i = 0; i < ROOM; i++)
        floats[i] = FILL;
    return floats;
}

/* whether the first n numbers of out are these and all behind them as they were */
static int are(size_t n, const size_t *these)
{
    for (size_t i = 0; i < ROOM; i++)
        if (out[i] != (i < n ? these[i] : FILL))
            return 0;
    return 1;
}

static int numbers_are(size_t n, const int64_t *these)
{
    for (size_t i = 0; i < ROOM; i++)
        if (numbers[i] != (i < n ? these[i] : FILL))
            return 0;
    return 1;
}

/* bit by bit, so that -0 is not 0 */
static int floats_are(size_t n, const double *these)
{
    for (size_t i = 0; i < ROOM; i++) {
        const double is = i < n ? these[i] : FILL;
        if (memcmp(&floats[i], &is, sizeof is) != 0)
            return 0;
    }
    return 1;
}

/* whether a call was refused so, and wrote nowhere */
static int refused(size_t r, size_t number, size_t detail)
{
    const size_t place = number == DGN_NO_SUCH ? 0 : detail;
    return DGN_NUMBER(r) == number && DGN_PLACE(r) == place && DGN_COUNT(r) == detail - place && are(0, NULL) && numbers_are(0, NULL) && floats_are(0, NULL);
}

#define ARE(...) are(sizeof((size_t[]){__VA_ARGS__}) / sizeof(size_t), (size_t[]){__VA_ARGS__})
#define NUMBERS_ARE(...) numbers_are(sizeof((int64_t[]){__VA_ARGS__}) / sizeof(int64_t), (int64_t[]){__VA_ARGS__})
#define FLOATS_ARE(...) floats_are(sizeof((double[]){__VA_ARGS__}) / sizeof(double), (double[]){__VA_ARGS__})
#define TEXT(text) (const uint8_t *)text, sizeof text - 1

static uint8_t file[146];
static const size_t len = sizeof file;

static void put_in(uint8_t *bytes, size_t i, unsigned word)
{
    bytes[2 * i] = word & 255;
    bytes[2 * i + 1] = word >> 8;
}

static void put(size_t i, unsigned word)
{
    put_in(file, i, word);
}

/* the numbers of the cell's view and of the line's */
#define LOWEST INT32_MIN, INT32_MIN, INT32_MIN
#define CELL 0, 0, 2, 0, 46, 0, 0, 0, 1, LOWEST, LOWEST, 1, 0, 0, 0, 0, 0, 0, 0, 0, 1, 49234, 51080, 1, 53, 0, 0, 0
#define LINE 5, 1, 3, 1, 26, 1, 1, 0, 1, 1, -2, INT32_MAX, 65538, 7, INT32_MIN, 1, 15, 16, 17, 2, 3, 4, 0, 0, 0, 0, 0, 0, 0, 0, 0, 46

/* the file: the line is written where the cell's own words end: level 5, C and deleted set, from (1, -2) to (65538, 7), which its
 * range just holds; as z it has a low one above the high one */
static void writing(void)
{
    const int64_t fields[DGN_WRITE_FIELDS] = {3, 5, 1, 1, 1, -2, INT32_MAX, 65538, 7, INT32_MIN, 15, 16, 17, 2, 3, 4};
    int64_t other[DGN_WRITE_FIELDS];
    const int32_t points[4] = {1, -2, 65538, 7};
    uint8_t line[54];
    put(0, DGN_CELL << 8);
    put(1, 44);
    put(18, 53);
    put(19, 49234);
    put(20, 51080);
    put(72, DGN_END_MARKER);

    memset(line, 9, sizeof line);
    check(refused(dgn_write(fields, 16, points, 4, NULL, 0, 2, line, 51, fresh(), 1), DGN_ROOM, 0) && line[0] == 9, "no room");
    check(refused(dgn_write(fields, 15, points, 4, NULL, 0, 2, line, 54, fresh(), 1), DGN_CALL, 0) && line[0] == 9, "fields");
    check(refused(dgn_write(fields, 16, points, 4, NULL, 0, 2, line, 54, fresh(), 0), DGN_CALL, 0) && line[0] == 9, "no out");
    memcpy(other, fields, sizeof other);
    other[DGN_WRITE_HIGH_Z] = (int64_t)INT32_MIN - 1;
    check(refused(dgn_write(other, 16, points, 4, NULL, 0, 2, line, 54, fresh(), 1), DGN_CALL, 0) && line[0] == 9, "below the lowest coordinate");
    other[DGN_WRITE_HIGH_Z] = (int64_t)INT32_MAX + 1;
    check(refused(dgn_write(other, 16, points, 4, NULL, 0, 2, line, 54, fresh(), 1), DGN_CALL, 0) && line[0] == 9, "above the highest");
    other[DGN_WRITE_HIGH_Z] = INT64_MIN;
    check(refused(dgn_write(other, 16, points, 4, NULL, 0, 2, line, 54, fresh(), 1), DGN_CALL, 0) && line[0] == 9, "far below it");
    other[DGN_WRITE_HIGH_Z] = 0;
    other[DGN_WRITE_COLOUR] = -1;
    check(refused(dgn_write(other, 16, points, 4, NULL, 0, 2, line, 54, fresh(), 1), DGN_CALL, 0) && line[0] == 9, "a colour below 0");
    check(dgn_write(fields, 16, points, 4, NULL, 0, 2, line, 54, fresh(), 1) == 0 && ARE(26), "write");
    check(line[52] == 9 && line[53] == 9, "bytes behind the element");
    memcpy(file + 92, line, 52);
    /* a long is two words, high word first: 65538 is 01 00 02 00, -2 is FF FF FE FF; in a range they are 01 80 02 00 and FF 7F FE FF */
    check(memcmp(file + 92 + 44, "\1\0\2\0", 4) == 0 && memcmp(file + 92 + 40, "\377\377\376\377", 4) == 0, "longs");
    check(memcmp(file + 92 + 16, "\1\200\2\0", 4) == 0 && memcmp(file + 92 + 8, "\377\177\376\377", 4) == 0, "longs of a range");
    check(memcmp(file + 92 + 12, "\377\377\377\377\1\200", 6) == 0 && memcmp(file + 92 + 24, "\0\0\0\0", 4) == 0, "the highest and the lowest");
}

static void reading(void)
{
    check(dgn_judge(file, len, 2, fresh(), 3) == 0 && ARE(2, 1, 72), "judge");
    check(refused(dgn_judge(file, len - 1, 2, fresh(), 3), DGN_CALL, 0), "an odd length");
    check(refused(dgn_judge(file, len, 2, fresh(), 2), DGN_CALL, 0), "two numbers for three");
    check(refused(dgn_judge(file, len - 2, 2, fresh(), 3), DGN_NO_END, 72), "no end");
    check(dgn_find(file, len, 2, TEXT("00417"), fresh(), 2) == 0 && ARE(0, 1), "find");
    check(refused(dgn_find(file, len, 2, TEXT("417"), fresh(), 2), DGN_NO_SUCH, 2), "not 417, and the count");
    check(refused(dgn_find(file, len, 2, TEXT("a"), fresh(), 2), DGN_NAME, 0), "no name");
    check(dgn_find_with_deleted(file, len, 2, TEXT("00417"), fresh(), 2) == 0 && ARE(0, 1), "find with deleted cells, a live one");
    file[1] ^= 128;
    check(refused(dgn_find(file, len, 2, TEXT("00417"), fresh(), 2), DGN_NO_SUCH, 2), "a deleted cell is passed over and counted");
    check(dgn_find_with_deleted(file, len, 2, TEXT("00417"), fresh(), 2) == 0 && ARE(0, 1), "a deleted cell, asked for");
    check(refused(dgn_find_with_deleted(file, len, 2, TEXT("417"), fresh(), 2), DGN_NO_SUCH, 2), "no 417, deleted or not");
    check(refused(dgn_find_with_deleted(file, len, 2, TEXT("a"), fresh(), 2), DGN_NAME, 0), "no name of a deleted cell");
    check(refused(dgn_find_with_deleted(file, len, 2, TEXT("00417"), fresh(), 1), DGN_CALL, 0), "one number for two");
    file[1] ^= 128;
    check(dgn_extent(file, len, 2, 0, fresh(), 2) == 0 && ARE(0, 72), "extent");
    check(refused(dgn_extent(file, len, 2, 45, fresh(), 2), DGN_NO_SUCH, 0), "no such place");
    file[92] ^= 64;
    check(refused(dgn_extent(file, len, 2, 0, fresh(), 2), DGN_RESERVED, 46), "the file's own refusal");
    file[92] ^= 64;

    fresh();
    check(dgn_view(file, len, 2, 0, fresh_numbers(), 32) == 0 && NUMBERS_ARE(CELL), "view of the cell");
    check(dgn_view(file, len, 2, 46, fresh_numbers(), ROOM) == 0 && NUMBERS_ARE(LINE), "view of the line");
    check(refused(dgn_view(file, len, 2, 46, fresh_numbers(), 31), DGN_CALL, 0), "31 numbers for a view");
    check(refused(dgn_view(file, len, 2, 72, fresh_numbers(), 32), DGN_NO_SUCH, 0), "the marker is no element");
    check(dgn_point(file, len, 2, 46, 1, fresh_numbers(), 3) == 0 && NUMBERS_ARE(65538, 7, 0), "point 1");
    check(dgn_point(file, len, 2, 46, 0, fresh_numbers(), 3) == 0 && NUMBERS_ARE(1, -2, 0), "point 0");
    check(refused(dgn_point(file, len, 2, 46, 2, fresh_numbers(), 3), DGN_NO_SUCH, 0), "no point 2");
    check(refused(dgn_linkage(file, len, 2, 46, 0, fresh(), 4), DGN_NO_SUCH, 0), "no linkage");
}

/* a 2D text of 35 words: font 3, justification 7, six characters, a field of the last two with justification -1, and an odd
 * byte; then the end marker. The height multiplier is above 2147483647, and the origin is (-2, 5). */
static uint8_t plate[72];
#define PLATE 3, 7, 1000, 4294901761, 65538, 0, 0, 0, -2, 5, 0, 6, 1, 42, 60

/* its words, as they are stored, and its last byte; in a range a 0 is 00 80 00 00 */
#define ZERO 32768, 0
static int is_plate(const uint8_t *at)
{
    static const unsigned words[30] = {17 << 8, 33, ZERO, ZERO, ZERO, ZERO, ZERO, ZERO, 0, 0, 0, 0, 3 | 7 << 8, 0, 1000, 65535, 1, 1, 2, 65535, 65534, 0, 5, 6 | 1 << 8};
    for (size_t i = 0; i < 30; i++)
        if (at[2 * i] != (words[i] & 255) || at[2 * i + 1] != words[i] >> 8)
            return 0;
    return memcmp(at + 60, "SEAL 7\5\2\377\52", 10) == 0;
}

static void writing_text(void)
{
    static const int64_t fields[DGN_WRITE_FIELDS] = {DGN_TEXT};
    static const int64_t of[DGN_WRITE_TEXT_NUMBERS] = {3, 7, 1000, 4294901761, 65538, 0, 0, 0, -2, 5, 0, 42};
    static const int64_t line[DGN_WRITE_FIELDS] = {DGN_LINE};
    static const uint8_t triple[3] = {5, 2, 255}, past[3] = {5, 3, 255};
    static uint8_t tail[131010];
    static const int64_t high[DGN_WRITE_FIELDS] = {DGN_TEXT, [DGN_WRITE_HIGH_X] = 2147483648}, dead[DGN_WRITE_FIELDS] = {DGN_TEXT, [DGN_WRITE_DELETED] = -1};
    static const int64_t linked[DGN_WRITE_FIELDS] = {DGN_TEXT, 0, 0, 0, 0, 0, 0, 0, 0, 0, 0, 19, DGN_HAS_ATTRIBUTES};
    int64_t other[DGN_WRITE_TEXT_NUMBERS];
#define WRITE_TEXT(fields, of, triple, tail, tail_len, room, out_len) \
    dgn_write_text(fields, 16, of, 12, TEXT("SEAL 7"), triple, 3, tail, tail_len, 2, plate, room, fresh(), out_len)
    memset(plate, 255, sizeof plate);
    check(refused(WRITE_TEXT(fields, of, triple, NULL, 0, 69, 1), DGN_ROOM, 0), "no room for a text");
    check(refused(WRITE_TEXT(fields, of, triple, NULL, 0, 72, 0), DGN_CALL, 0), "no out for a text");
    check(refused(WRITE_TEXT(line, of, triple, NULL, 0, 72, 1), DGN_CALL, 0), "a text of type 3");
    check(refused(WRITE_TEXT(high, of, triple, NULL, 0, 72, 1), DGN_CALL, 0), "a text's range above the highest coordinate");
    check(refused(WRITE_TEXT(dead, of, triple, NULL, 0, 72, 1), DGN_CALL, 0), "a text deleted by -1");
    check(refused(WRITE_TEXT(fields, of, triple, tail, 1, 72, 1), DGN_CALL, 0), "an odd tail");
    check(refused(WRITE_TEXT(fields, of, past, tail, 131010, 72, 1), DGN_FIELD, 0), "a field past the characters, before 8");
    check(refused(WRITE_TEXT(fields, of, triple, tail, 131002, 72, 1), DGN_TOTAL, 0), "65,536 words, before 15");
    check(refused(WRITE_TEXT(linked, of, triple, tail, 2, 72, 1), DGN_LINKAGE, 0), "a wrong linkage");
    memcpy(other, of, sizeof other);
    other[DGN_WRITE_TEXT_Z] = 1;
    check(refused(WRITE_TEXT(fields, other, triple, NULL, 0, 72, 1), DGN_CALL, 0), "z in 2D");
    other[DGN_WRITE_TEXT_Z] = 0;
    other[DGN_WRITE_TEXT_HEIGHT] = -1;
    check(refused(WRITE_TEXT(fields, other, triple, NULL, 0, 72, 1), DGN_CALL, 0), "a multiplier below 0");
    check(refused(dgn_write_text(fields, 16, of, 11, TEXT("SEAL 7"), triple, 3, NULL, 0, 2, plate, 72, fresh(), 1), DGN_CALL, 0), "11 numbers");
    check(refused(dgn_write_text(fields, 15, of, 12, TEXT("SEAL 7"), triple, 3, NULL, 0, 2, plate, 72, fresh(), 1), DGN_CALL, 0), "15 fields");
    check(refused(dgn_write_text(fields, 16, of, 12, tail, 256, triple, 3, NULL, 0, 2, plate, 72, fresh(), 1), DGN_CALL, 0), "256 characters");
    check(refused(dgn_write_text(fields, 16, of, 12, TEXT("SEAL 7"), triple, 2, NULL, 0, 2, plate, 72, fresh(), 1), DGN_CALL, 0), "two thirds of a field");
    check(refused(dgn_write_text(fields, 16, of, 12, TEXT("SEAL 7"), NULL, 0, NULL, 0, 2, plate, 72, fresh(), 1), DGN_CALL, 0), "an odd byte where there is none");
    check(plate[0] == 255 && plate[1] == 255, "a refusal leaves the buffer");
    check(WRITE_TEXT(fields, of, triple, NULL, 0, 72, 1) == 0 && ARE(35), "write a text");
    check(is_plate(plate) && plate[70] == 255 && plate[71] == 255, "its bytes, and those behind it");
}

static void text(void)
{
    const size_t size = sizeof plate;
    fresh();
    check(dgn_text(plate, size, 2, 0, fresh_numbers(), 15) == 0 && NUMBERS_ARE(PLATE), "text");
    check(refused(dgn_text(plate, size, 2, 0, fresh_numbers(), 14), DGN_CALL, 0), "14 numbers for a text");
    check(refused(dgn_text(plate, size, 2, 1, fresh_numbers(), 15), DGN_NO_SUCH, 0), "no text at 1");
    check(refused(dgn_text(file, len, 2, 46, fresh_numbers(), 15), DGN_KIND, 46), "a line is no text");
    check(refused(dgn_text(plate, size, 3, 0, fresh_numbers(), 15), DGN_SHORT, 0), "too short for 3D");
    check(dgn_characters(plate, size, 2, 0, fresh(), 2) == 0 && ARE(60, 6), "characters");
    check(refused(dgn_characters(plate, size, 2, 0, fresh(), 1), DGN_CALL, 0), "one number for characters");
    check(refused(dgn_characters(file, len, 2, 0, fresh(), 2), DGN_KIND, 0), "a cell is no text");
    check(refused(dgn_in_range(plate, size, 2, 0, fresh(), 1), DGN_KIND, 0), "a text has no points");
    fresh();
    check(dgn_field(plate, size, 2, 0, 0, fresh_numbers(), 3) == 0 && NUMBERS_ARE(5, 2, -1), "field 0");
    check(refused(dgn_field(plate, size, 2, 0, 1, fresh_numbers(), 3), DGN_NO_SUCH, 0), "no field 1");
    check(refused(dgn_field(plate, size, 2, 0, 0, fresh_numbers(), 2), DGN_CALL, 0), "two numbers for a field");
    check(refused(dgn_field(file, len, 2, 46, 0, fresh_numbers(), 3), DGN_KIND, 46), "a line has no field");

    check(dgn_texts(plate, size, 2, 0, fresh_numbers(), 18, fresh(), 2) == 0 && ARE(1, 1) && NUMBERS_ARE(0, 0, 0, PLATE), "all texts");
    check(dgn_texts(plate, size, 2, 0, fresh_numbers(), ROOM, fresh(), 2) == 0 && ARE(1, 1) && NUMBERS_ARE(0, 0, 0, PLATE), "all texts, with room");
    check(dgn_texts(plate, size, 2, 1, fresh_numbers(), 0, fresh(), 2) == 0 && ARE(1, 0) && numbers_are(0, NULL), "no more texts");
    check(dgn_texts(plate, size, 2, 9, fresh_numbers(), 0, fresh(), 2) == 0 && ARE(9, 0) && numbers_are(0, NULL), "no text behind the end");
    check(dgn_texts(file, len, 2, 0, fresh_numbers(), 0, fresh(), 2) == 0 && ARE(2, 0) && numbers_are(0, NULL), "no text in the cell");
    check(refused(dgn_texts(plate, size, 2, 0, fresh_numbers(), 17, fresh(), 2), DGN_ROOM, 0), "17 numbers for texts");
    check(refused(dgn_texts(plate, size, 2, 0, fresh_numbers(), 18, fresh(), 1), DGN_CALL, 0), "one number for two");
    check(refused(dgn_texts(plate, size, 3, 0, fresh_numbers(), 18, fresh(), 2), DGN_SHORT, 0), "too short for 3D");
    plate[67] = 3;
    fresh();
    check(refused(dgn_field(plate, size, 2, 0, 0, fresh_numbers(), 3), DGN_FIELD, 0), "a field past the characters");
    check(refused(dgn_texts(plate, size, 2, 0, fresh_numbers(), 18, fresh(), 2), DGN_FIELD, 0), "the file's own refusal of texts");
}

/* a deleted 2D ellipse of 36 words, an arc of 40 with the same axes, turn and origin, and the end marker: the axes are 0.1, which is
 * rounded up, and 1, the origin is -2.5 and a zero with a fraction */
static uint8_t rings[154];
#define RING_FLOATS 0.1, 1, -2.5, 0, 0
#define RING 15, 0, 0, 4294901761, 0, 0, 0
#define BOW 16, 4294967294, 65538, 4294901761, 0, 0, 0

static void put_ring(uint8_t *at, size_t first)
{
    static const unsigned words[18] = {16076, 52428, 52428, 52429, 16512, 0, 0, 0, 65535, 1, 49440, 0, 0, 0, 5, 6, 7, 8};
    for (size_t i = 0; i < 18; i++)
        put_in(at, first + i, words[i]);
}

static void curves(void)
{
    const size_t size = sizeof rings;
    put_in(rings, 0, DGN_ELLIPSE << 8 | 32768);
    put_in(rings, 1, 34);
    put_ring(rings, 18);
    put_in(rings, 36, DGN_ARC << 8);
    put_in(rings, 37, 38);
    put_in(rings, 54, 65535);
    put_in(rings, 55, 65534);
    put_in(rings, 56, 1);
    put_in(rings, 57, 2);
    put_ring(rings, 58);
    put_in(rings, 76, DGN_END_MARKER);

    fresh();
    check(dgn_curve(rings, size, 2, 0, fresh_numbers(), 7, fresh_floats(), 5) == 0 && NUMBERS_ARE(RING) && FLOATS_ARE(RING_FLOATS), "ellipse");
    check(dgn_curve(rings, size, 2, 36, fresh_numbers(), ROOM, fresh_floats(), ROOM) == 0 && NUMBERS_ARE(BOW) && FLOATS_ARE(RING_FLOATS), "arc");
    check(refused(dgn_curve(rings, size, 2, 0, fresh_numbers(), 6, fresh_floats(), 5), DGN_CALL, 0), "six numbers for an ellipse");
    check(refused(dgn_curve(rings, size, 2, 0, fresh_numbers(), 7, fresh_floats(), 4), DGN_CALL, 0), "four floats for an ellipse");
    check(refused(dgn_curve(rings, size, 2, 1, fresh_numbers(), 7, fresh_floats(), 5), DGN_NO_SUCH, 0), "no ellipse at 1");
    check(refused(dgn_curve(file, len, 2, 46, fresh_numbers(), 7, fresh_floats(), 5), DGN_KIND, 46), "a line is no ellipse");
    check(refused(dgn_curve(rings, size, 3, 0, fresh_numbers(), 7, fresh_floats(), 5), DGN_SHORT, 0), "too short for 3D");

    check(dgn_curves(rings, size, 2, 0, fresh_numbers(), 18, fresh_floats(), 10, fresh(), 2) == 0 && ARE(2, 2) && NUMBERS_ARE(0, 1, RING, 36, 0, BOW) && FLOATS_ARE(RING_FLOATS, RING_FLOATS), "ellipses and arcs");
    check(dgn_curves(rings, size, 2, 0, fresh_numbers(), ROOM, fresh_floats(), 9, fresh(), 2) == 0 && ARE(1, 1) && NUMBERS_ARE(0, 1, RING) && FLOATS_ARE(RING_FLOATS), "floats for one");
    check(dgn_curves(rings, size, 2, 0, fresh_numbers(), 17, fresh_floats(), ROOM, fresh(), 2) == 0 && ARE(1, 1) && NUMBERS_ARE(0, 1, RING) && FLOATS_ARE(RING_FLOATS), "numbers for one");
    check(dgn_curves(rings, size, 2, 1, fresh_numbers(), 9, fresh_floats(), 5, fresh(), 2) == 0 && ARE(2, 1) && NUMBERS_ARE(36, 0, BOW) && FLOATS_ARE(RING_FLOATS), "those from 1 on");
    check(dgn_curves(rings, size, 2, 2, fresh_numbers(), 0, fresh_floats(), 0, fresh(), 2) == 0 && ARE(2, 0) && numbers_are(0, NULL) && floats_are(0, NULL), "no more of them");
    check(dgn_curves(rings, size, 2, 9, fresh_numbers(), 0, fresh_floats(), 0, fresh(), 2) == 0 && ARE(9, 0) && numbers_are(0, NULL) && floats_are(0, NULL), "none behind the end");
    check(dgn_curves(file, len, 2, 0, fresh_numbers(), 0, fresh_floats(), 0, fresh(), 2) == 0 && ARE(2, 0) && numbers_are(0, NULL) && floats_are(0, NULL), "none in the cell");
    check(refused(dgn_curves(rings, size, 2, 0, fresh_numbers(), 8, fresh_floats(), 5, fresh(), 2), DGN_ROOM, 0), "8 numbers for 9");
    check(refused(dgn_curves(rings, size, 2, 0, fresh_numbers(), 9, fresh_floats(), 4, fresh(), 2), DGN_ROOM, 0), "4 floats for 5");
    check(refused(dgn_curves(rings, size, 2, 0, fresh_numbers(), 9, fresh_floats(), 5, fresh(), 1), DGN_CALL, 0), "one number for two");
    put_in(rings, 72, 32768 | 5);
    check(refused(dgn_judge(rings, size, 2, fresh(), 3), DGN_FLOAT, 36), "a float that is no number");
    check(refused(dgn_curve(rings, size, 2, 0, fresh_numbers(), 7, fresh_floats(), 5), DGN_FLOAT, 36), "the file's own refusal");
    check(refused(dgn_curves(rings, size, 2, 0, fresh_numbers(), 18, fresh_floats(), 10, fresh(), 2), DGN_FLOAT, 36), "the file's own refusal of curves");
    fresh_floats();
}

/* a deleted 2D cell with a line, a deleted line and a cell of no name that holds a raw element of two words, and the end marker; of the
 * mask of the first 18 bits are set */
static uint8_t catalogue[294];
#define OUTER 49234, 51080, 1, 0, 0, 0, 1, 0, 18
#define INNER 0, 0, 0, 0, 0, 0, 0, 1, 0

static void plates(void)
{
    static const unsigned words[][2] = {{0, DGN_CELL << 8 | 32768}, {1, 44}, {18, 127}, {19, 49234}, {20, 51080}, {22, 1}, {23, 32768}, {24, 65535},
                                        {46, DGN_LINE << 8 | 128}, {47, 24}, {72, DGN_LINE << 8 | 32768 | 128}, {73, 24},
                                        {98, DGN_CELL << 8 | 128}, {99, 44}, {116, 29}, {144, 5 << 8 | 128}, {146, DGN_END_MARKER}};
    const size_t size = sizeof catalogue;
    for (size_t i = 0; i < sizeof words / sizeof *words; i++)
        put_in(catalogue, words[i][0], words[i][1]);

    fresh();
    check(dgn_plate(catalogue, size, 2, 0, fresh_numbers(), 9) == 0 && NUMBERS_ARE(OUTER), "the plate of a deleted cell");
    check(dgn_plate(catalogue, size, 2, 98, fresh_numbers(), ROOM) == 0 && NUMBERS_ARE(INNER), "the plate of a cell in it");
    check(dgn_plate(file, len, 2, 0, fresh_numbers(), 9) == 0 && NUMBERS_ARE(49234, 51080, 0, 0, 0, 0, 0, 0, 0), "a deleted line does not count");
    check(refused(dgn_plate(catalogue, size, 2, 0, fresh_numbers(), 8), DGN_CALL, 0), "eight numbers for a plate");
    check(refused(dgn_plate(catalogue, size, 2, 1, fresh_numbers(), 9), DGN_NO_SUCH, 0), "no cell at 1");
    check(refused(dgn_plate(catalogue, size, 2, 46, fresh_numbers(), 9), DGN_NOT_A_CELL, 0), "a line has no plate");
    check(refused(dgn_plate(catalogue, size, 3, 0, fresh_numbers(), 9), DGN_SHORT, 0), "a cell too short for 3D");

    check(dgn_plates(catalogue, size, 2, 0, fresh_numbers(), 22, fresh(), 2) == 0 && ARE(5, 2) && NUMBERS_ARE(0, 1, OUTER, 98, 0, INNER), "plates");
    check(dgn_plates(catalogue, size, 2, 0, fresh_numbers(), 21, fresh(), 2) == 0 && ARE(3, 1) && NUMBERS_ARE(0, 1, OUTER), "numbers for one plate");
    check(dgn_plates(catalogue, size, 2, 1, fresh_numbers(), ROOM, fresh(), 2) == 0 && ARE(5, 1) && NUMBERS_ARE(98, 0, INNER), "plates from 1 on");
    check(dgn_plates(catalogue, size, 2, 4, fresh_numbers(), 0, fresh(), 2) == 0 && ARE(5, 0) && numbers_are(0, NULL), "no more plates");
    check(dgn_plates(catalogue, size, 2, 9, fresh_numbers(), 0, fresh(), 2) == 0 && ARE(9, 0) && numbers_are(0, NULL), "no plates behind the end");
    check(refused(dgn_plates(catalogue, size, 2, 0, fresh_numbers(), 10, fresh(), 2), DGN_ROOM, 0), "10 numbers for 11");
    check(refused(dgn_plates(catalogue, size, 2, 0, fresh_numbers(), 11, fresh(), 1), DGN_CALL, 0), "one number for the two of plates");
    put_in(catalogue, 144, 5 << 8);
    check(refused(dgn_plate(catalogue, size, 2, 0, fresh_numbers(), 9), DGN_WRONG_PLACE, 144), "the file's own refusal of a plate");
    check(refused(dgn_plates(catalogue, size, 2, 0, fresh_numbers(), 22, fresh(), 2), DGN_WRONG_PLACE, 144), "the file's own refusal of plates");
}

static void whole(void)
{
    check(dgn_views(file, len, 2, 0, fresh_numbers(), ROOM, fresh(), 1) == 0 && ARE(2) && NUMBERS_ARE(CELL, LINE), "all views");
    check(dgn_views(file, len, 2, 0, fresh_numbers(), 63, fresh(), 1) == 0 && ARE(1) && NUMBERS_ARE(CELL), "the first view");
    check(dgn_views(file, len, 2, 1, fresh_numbers(), 32, fresh(), 1) == 0 && ARE(1) && NUMBERS_ARE(LINE), "the second view");
    check(dgn_views(file, len, 2, 2, fresh_numbers(), 0, fresh(), 1) == 0 && ARE(0) && numbers_are(0, NULL), "no third view");
    check(dgn_views(file, len, 2, DGN_TOP, fresh_numbers(), 99, fresh(), 1) == 0 && ARE(0) && numbers_are(0, NULL), "none far behind");
    check(refused(dgn_views(file, len, 2, 1, fresh_numbers(), 31, fresh(), 1), DGN_ROOM, 0), "no room for a view");
    check(refused(dgn_views(file, len, 2, 0, fresh_numbers(), 64, fresh(), 0), DGN_CALL, 0), "no out");
    check(refused(dgn_views(file, len - 2, 2, 0, fresh_numbers(), 64, fresh(), 1), DGN_NO_END, 72), "the file's own refusal");

    check(dgn_points(file, len, 2, 0, fresh_numbers(), 6, fresh(), 2) == 0 && ARE(2, 6) && NUMBERS_ARE(46, 2, 1, -2, 65538, 7), "all points");
    check(dgn_points(file, len, 2, 1, fresh_numbers(), ROOM, fresh(), 2) == 0 && ARE(2, 6) && NUMBERS_ARE(46, 2, 1, -2, 65538, 7), "those from 1 on");
    check(dgn_points(file, len, 2, 2, fresh_numbers(), 0, fresh(), 2) == 0 && ARE(2, 0) && numbers_are(0, NULL), "no more points");
    check(dgn_points(file, len, 2, 9, fresh_numbers(), 0, fresh(), 2) == 0 && ARE(9, 0) && numbers_are(0, NULL), "none behind the end");
    check(refused(dgn_points(file, len, 2, 0, fresh_numbers(), 5, fresh(), 2), DGN_ROOM, 0), "no room for the points");
    check(refused(dgn_points(file, len, 2, 0, fresh_numbers(), 6, fresh(), 1), DGN_CALL, 0), "one number for two");
    check(refused(dgn_points(file, len, 4, 0, fresh_numbers(), 6, fresh(), 2), DGN_CALL, 0), "dimension 4");
}

/* whether the line's range holds its points, which are on its ends: word by word of its low and high x and y past one of them */
static void ranges(void)
{
    fresh_numbers();
    check(dgn_in_range(file, len, 2, 46, fresh(), 1) == 0 && ARE(1), "in range");
    check(refused(dgn_in_range(file, len, 2, 46, fresh(), 0), DGN_CALL, 0), "no number for the answer");
    check(refused(dgn_in_range(file, len, 2, 45, fresh(), 1), DGN_NO_SUCH, 0), "no element there");
    check(refused(dgn_in_range(file, len, 2, 0, fresh(), 1), DGN_KIND, 0), "a cell has no points");
    check(refused(dgn_in_range(file, len - 2, 2, 46, fresh(), 1), DGN_NO_END, 72), "the file's own refusal");
    check(dgn_ranges(file, len, 2, 0, fresh_numbers(), 0, fresh(), 2) == 0 && ARE(2, 0) && numbers_are(0, NULL), "each range holds its points");
    for (size_t i = 0; i < 4; i++) {
        const size_t at = 46 + 2 + 6 * (i / 2) + 2 * (i % 2) + 1;
        const unsigned word = file[2 * at] + 256u * file[2 * at + 1];
        put(at, i < 2 ? word + 1 : word - 1);
        fresh_numbers();
        check(dgn_in_range(file, len, 2, 46, fresh(), 1) == 0 && ARE(0), "one past an end");
        check(dgn_ranges(file, len, 2, 0, fresh_numbers(), 1, fresh(), 2) == 0 && ARE(2, 1) && NUMBERS_ARE(46), "its place");
        check(dgn_ranges(file, len, 2, 1, fresh_numbers(), ROOM, fresh(), 2) == 0 && ARE(2, 1) && NUMBERS_ARE(46), "from 1 on");
        check(dgn_ranges(file, len, 2, 2, fresh_numbers(), ROOM, fresh(), 2) == 0 && ARE(2, 0) && numbers_are(0, NULL), "none behind it");
        check(dgn_ranges(file, len, 2, 9, fresh_numbers(), ROOM, fresh(), 2) == 0 && ARE(9, 0) && numbers_are(0, NULL), "none behind the end");
        check(refused(dgn_ranges(file, len, 2, 0, fresh_numbers(), 0, fresh(), 2), DGN_ROOM, 0), "no room for a place");
        check(refused(dgn_ranges(file, len, 2, 0, fresh_numbers(), 1, fresh(), 1), DGN_CALL, 0), "one number for two");
        check(refused(dgn_ranges(file, len - 2, 2, 0, fresh_numbers(), 1, fresh(), 2), DGN_NO_END, 72), "the file's own refusal");
        put(at, word);
    }

    /* a 3D shape of three points, whose last one is on the high ends, with z one past it */
    static uint8_t solid[76];
    int64_t fields[DGN_WRITE_FIELDS] = {DGN_SHAPE, [DGN_WRITE_HIGH_Y] = 8, [DGN_WRITE_HIGH_Z] = 9};
    const int32_t points[9] = {0, 0, 0, 0, 4, 0, 0, 8, 9};
    memset(solid, 255, sizeof solid);
    check(dgn_write(fields, 16, points, 9, NULL, 0, 3, solid, 74, fresh(), 1) == 0 && ARE(37), "a shape in space");
    check(dgn_in_range(solid, 76, 3, 0, fresh(), 1) == 0 && ARE(1), "in its range");
    fields[DGN_WRITE_HIGH_Z] = 8;
    check(dgn_write(fields, 16, points, 9, NULL, 0, 3, solid, 74, fresh(), 1) == 0 && ARE(37), "with a lower range");
    check(dgn_in_range(solid, 76, 3, 0, fresh(), 1) == 0 && ARE(0), "z above it");
    check(dgn_ranges(solid, 76, 3, 0, fresh_numbers(), 1, fresh(), 2) == 0 && ARE(1, 1) && NUMBERS_ARE(0), "its place");
}

/* four library cells that hold nothing, named 417, 00417, 417 and A, and the end marker; their entries in file order and in that of
 * an index, which is that of the words: A is 1600, 0 */
static uint8_t parts[282];
static const uint8_t in_file[32] = {125, 217, 0, 0, 0, 0, 0, 0, 82, 192, 136, 199, 0, 0, 35, 0, 125, 217, 0, 0, 0, 0, 70, 0, 64, 6, 0, 0, 0, 0, 105, 0};
static const uint8_t in_index[32] = {64, 6, 0, 0, 0, 0, 105, 0, 82, 192, 136, 199, 0, 0, 35, 0, 125, 217, 0, 0, 0, 0, 0, 0, 125, 217, 0, 0, 0, 0, 70, 0};

static void put_parts(void)
{
    memset(parts, 0, sizeof parts);
    for (size_t i = 0; i < 4; i++) {
        uint8_t *cell = parts + 70 * i;
        cell[1] = DGN_LIBRARY_CELL;
        cell[2] = 33;
        memcpy(cell + 32, in_file + 8 * i, 4);
        cell[36] = 16;
    }
    memset(parts + 280, 255, 2);
}

/* the files of the most elements, points, texts, lines, cells and ellipses: one call reads all of them */
static void largest(void)
{
    static uint8_t large[DGN_FILE_BYTES];
    static int64_t all[DGN_FILE_ELEMENTS * DGN_VIEW_NUMBERS];
    static const int32_t points[3 * DGN_MOST_POINTS];
    const int64_t fields[DGN_WRITE_FIELDS] = {DGN_SHAPE};
    const size_t shapes = (DGN_FILE_BYTES - 2) / 1250;
    size_t at;
    for (at = 0; at + 6 <= sizeof large; at += 4)
        large[at + 1] = 5;
    large[at] = large[at + 1] = 255;
    check(dgn_views(large, sizeof large, 2, 0, all, sizeof all / sizeof *all, fresh(), 1) == 0 && ARE(DGN_FILE_ELEMENTS), "the most elements");

    check(dgn_write(fields, DGN_WRITE_FIELDS, points, 303, NULL, 0, 3, large, 1250, fresh(), 1) == 0 && ARE(625), "a shape");
    for (at = 1250; at < 1250 * shapes; at += 1250)
        memcpy(large + at, large, 1250);
    large[at] = large[at + 1] = 255;
    check(dgn_points(large, sizeof large, 3, 0, all, DGN_FILE_NUMBERS, fresh(), 2) == 0 && ARE(shapes, 305 * shapes), "the most points");

    const int64_t of[DGN_WRITE_FIELDS] = {DGN_TEXT};
    const int64_t zeros[DGN_WRITE_TEXT_NUMBERS] = {0};
    check(dgn_write_text(of, 16, zeros, 12, NULL, 0, NULL, 0, NULL, 0, 2, large, 60, fresh(), 1) == 0 && ARE(30), "the shortest text");
    for (at = 60; at < 60 * DGN_FILE_TEXTS; at += 60)
        memcpy(large + at, large, 60);
    check(at + 60 + 2 > sizeof large, "no more of them in a file");
    large[at] = large[at + 1] = 255;
    check(dgn_texts(large, sizeof large, 2, 0, all, DGN_FILE_TEXTS * DGN_TEXTS_NUMBERS, fresh(), 2) == 0 && ARE(DGN_FILE_TEXTS, DGN_FILE_TEXTS), "the most texts");

    const int64_t line[DGN_WRITE_FIELDS] = {DGN_LINE};
    const int32_t ends[4] = {0, 0, 0, 1};
    check(dgn_write(line, 16, ends, 4, NULL, 0, 2, large, 52, fresh(), 1) == 0 && ARE(26), "a line outside its range");
    for (at = 52; at < 52 * DGN_FILE_RANGES; at += 52)
        memcpy(large + at, large, 52);
    check(at + 52 + 2 > sizeof large, "no more of them in a file");
    large[at] = large[at + 1] = 255;
    check(dgn_ranges(large, sizeof large, 2, 0, all, DGN_FILE_RANGES, fresh(), 2) == 0 && ARE(DGN_FILE_RANGES, DGN_FILE_RANGES), "the most ranges");
    check(all[DGN_FILE_RANGES - 1] == 26 * (DGN_FILE_RANGES - 1), "the last of their places");

    static uint8_t index[DGN_INDEX_BYTES];
    put_parts();
    for (at = 0; at < 70 * DGN_FILE_CELLS; at += 70)
        memcpy(large + at, parts, 70);
    check(at + 70 + 2 > sizeof large, "no more cells in a file");
    large[at] = large[at + 1] = 255;
    check(dgn_index(large, sizeof large, 2, index, sizeof index, fresh(), 1) == 0 && ARE(DGN_INDEX_BYTES), "the most cells");
    check(dgn_plates(large, sizeof large, 2, 0, all, DGN_FILE_CELLS * DGN_PLATES_NUMBERS, fresh(), 2) == 0 && ARE(DGN_FILE_CELLS, DGN_FILE_CELLS), "the most plates");
    check(DGN_INDEX_ROOM(DGN_FILE_BYTES) == DGN_INDEX_BYTES && DGN_INDEX_ROOM(at + 2) == DGN_INDEX_BYTES, "room for any index");
    static double most[DGN_FILE_CURVES * DGN_CURVE_FLOATS];
    for (at = 0; at < 72 * DGN_FILE_CURVES; at += 72)
        memcpy(large + at, rings, 72);
    check(at + 72 + 2 > sizeof large, "no more ellipses in a file");
    large[at] = large[at + 1] = 255;
    check(dgn_curves(large, sizeof large, 2, 0, all, DGN_FILE_CURVES * DGN_CURVES_NUMBERS, most, DGN_FILE_CURVES * DGN_CURVE_FLOATS, fresh(), 2) == 0 && ARE(DGN_FILE_CURVES, DGN_FILE_CURVES), "the most ellipses");
}

static void names(void)
{
    uint8_t text[8] = "";
    fresh_numbers();
    check(dgn_pack(TEXT("00417"), fresh(), 2) == 0 && ARE(49234, 51080), "pack");
    check(refused(dgn_pack(TEXT("0417 "), fresh(), 2), DGN_NAME, 0), "a space at the end");
    fresh();
    text[7] = 1;
    check(dgn_unpack(49234, 51080, text, 8) == 0 && memcmp(text, "00417\0\0\1", 8) == 0, "unpack");
    check(refused(dgn_unpack(64000, 0, text, 7), DGN_NAME, 0) && memcmp(text, "00417\0", 7) == 0, "word 64000, and the text stays");
    check(refused(dgn_unpack(1, 0, text, 6), DGN_CALL, 0) && memcmp(text, "00417\0", 7) == 0, "six bytes are too few");
}

/* cells in file order and by an index, buffers of all lengths, and looks */
static void indexing(void)
{
    uint8_t room[50], nines[50];
    size_t i;
    put_parts();
    fresh_numbers();
    memset(nines, 9, sizeof nines);
#define NINES() memcpy(room, nines, sizeof room)
#define STAYS (memcmp(room, nines, sizeof room) == 0)
    NINES();
    check(dgn_cells(parts, sizeof parts, 2, room, 50, fresh(), 4) == 0 && ARE(4, 4, 0, 140), "cells");
    check(memcmp(room, in_file, 32) == 0 && memcmp(room + 32, nines, 18) == 0, "their entries, and the bytes behind them");
    NINES();
    check(dgn_cells(parts, sizeof parts, 2, room, 23, fresh(), 4) == 0 && ARE(4, 4, 0, 140), "room for two cells");
    check(memcmp(room, in_file, 16) == 0 && memcmp(room + 16, nines, 34) == 0, "two entries");
    check(dgn_cells(file, len, 2, NULL, 0, fresh(), 4) == 0 && ARE(1, 2, 1, 72), "no room for cells");
    NINES();
    check(refused(dgn_cells(parts, sizeof parts, 2, room, 50, fresh(), 3), DGN_CALL, 0) && STAYS, "three numbers for four");
    check(refused(dgn_cells(parts, 281, 2, room, 50, fresh(), 4), DGN_CALL, 0) && STAYS, "an odd length of cells");
    check(refused(dgn_cells(parts, 280, 2, room, 50, fresh(), 4), DGN_NO_END, 140) && STAYS, "the file's own refusal of cells");

    for (i = 32; i <= 50; i++) {
        NINES();
        check(dgn_index(parts, sizeof parts, 2, room, i, fresh(), 1) == 0 && ARE(32) && memcmp(room, in_index, 32) == 0, "index");
        for (size_t k = 32; k < 50; k++)
            if (room[k] != (k < i ? 0 : 9))
                check(0, "zeros to the buffer's end");
    }
    NINES();
    check(refused(dgn_index(parts, sizeof parts, 2, room, 31, fresh(), 1), DGN_ROOM, 0) && STAYS, "one byte too few");
    check(refused(dgn_index(parts, sizeof parts, 2, room, 32, fresh(), 0), DGN_CALL, 0) && STAYS, "no out for an index");
    check(refused(dgn_index(parts, sizeof parts, 4, room, 32, fresh(), 1), DGN_CALL, 0) && STAYS, "an index of dimension 4");
    check(refused(dgn_index(parts, 280, 2, room, 0, fresh(), 1), DGN_NO_END, 140) && STAYS, "the file's own refusal, before 15");
    check(dgn_index(parts + 280, 2, 2, NULL, 0, fresh(), 1) == 0 && ARE(0), "no cell");
    check(dgn_index(file, len, 2, room, DGN_INDEX_ROOM(sizeof file), fresh(), 1) == 0 && ARE(8), "one cell, and room enough");

#define LOOK_UP(used, text, out_len) dgn_look_up_with_deleted(in_index, 32, used, TEXT(text), fresh(), out_len)
    check(LOOK_UP(32, "417", 2) == 0 && ARE(0, 3), "the lowest place of two");
    check(LOOK_UP(32, "00417", 2) == 0 && ARE(35, 4), "look up");
    check(LOOK_UP(32, "A", 2) == 0 && ARE(105, 4), "the first entry");
    check(refused(LOOK_UP(32, "418", 2), DGN_NO_SUCH, 2), "not there, after two looks");
    check(refused(LOOK_UP(32, "B", 2), DGN_NO_SUCH, 4), "not there, after four");
    check(refused(LOOK_UP(0, "417", 2), DGN_NO_SUCH, 0), "no entry, no look");
    check(LOOK_UP(8, "A", 2) == 0 && ARE(105, 2) && refused(LOOK_UP(8, "B", 2), DGN_NO_SUCH, 1), "one entry");
    check(refused(LOOK_UP(32, "a", 2), DGN_NAME, 0), "no name to look up");
    check(refused(LOOK_UP(31, "417", 2), DGN_CALL, 0) && refused(LOOK_UP(40, "417", 2), DGN_CALL, 0), "no whole entries, and beyond the buffer");
    check(refused(LOOK_UP(32, "417", 1), DGN_CALL, 0), "one number for a place and looks");
    check(dgn_look_up_with_deleted(in_file, 32, 32, TEXT("417"), fresh(), 2) == 0 && ARE(70, 3), "over entries that are in no order");

    /* by the file too: 417 stands at 0 and at 70 */
#define LIVE(used, text, out_len) dgn_look_up(parts, sizeof parts, 2, in_index, 32, used, TEXT(text), fresh(), out_len)
    check(LIVE(32, "417", 2) == 0 && ARE(0, 3), "the first of two live cells");
    parts[1] ^= 128;
    check(LIVE(32, "417", 2) == 0 && ARE(70, 4), "the first is deleted, and one look more");
    check(LOOK_UP(32, "417", 2) == 0 && ARE(0, 3), "the deleted one, asked for");
    check(dgn_find(parts, sizeof parts, 2, TEXT("417"), fresh(), 2) == 0 && ARE(70, 3), "as the finder");
    parts[141] ^= 128;
    check(refused(LIVE(32, "417", 2), DGN_NO_SUCH, 4), "both are deleted");
    check(LIVE(32, "00417", 2) == 0 && ARE(35, 4), "another one is live");
    parts[1] ^= 128, parts[141] ^= 128;
    check(dgn_look_up(file, len, 2, in_index, 32, 32, TEXT("417"), fresh(), 2) == 0 && ARE(0, 3), "of another file: a live cell stands there");
    check(refused(dgn_look_up(file, len, 2, in_index, 32, 32, TEXT("00417"), fresh(), 2), DGN_NO_SUCH, 4), "none stands there");
    check(refused(LIVE(32, "418", 2), DGN_NO_SUCH, 2) && refused(LIVE(0, "417", 2), DGN_NO_SUCH, 0), "looks without the name");
    check(refused(LIVE(32, "a", 2), DGN_NAME, 0), "no name to look up in a file");
    check(refused(dgn_look_up(parts, 280, 2, in_index, 32, 31, TEXT("a"), fresh(), 2), DGN_CALL, 0), "no whole entries, before the file's own");
    check(refused(dgn_look_up(parts, 280, 2, in_index, 32, 32, TEXT("a"), fresh(), 2), DGN_NO_END, 140), "the file's own, before the text's");
    check(refused(dgn_look_up(parts, sizeof parts, 4, in_index, 32, 32, TEXT("417"), fresh(), 2), DGN_CALL, 0), "look up in dimension 4");
    check(refused(LIVE(32, "417", 1), DGN_CALL, 0), "one number for the place of a live cell and looks");
}

/* the line taken out, put back beneath the cell, the cell renamed and marked, then all undone */
static void editing(void)
{
    uint8_t original[sizeof file], journal[100];
    memcpy(original, file, sizeof file);
    fresh_numbers();
    check(dgn_remove(file, 146, 146, journal, 100, 0, 2, 46, fresh(), 2) == 0 && ARE(94, 64), "remove");
    check(memcmp(file + 36, "\33\0", 2) == 0 && memcmp(file + 92, "\377\377\0\0", 4) == 0, "total, marker, freed bytes");
    check(memcmp(journal, original + 92, 52) == 0, "the words removed");
    check(memcmp(journal + 52, "\4\0\0\0\0\0\0\0\56\0\32\0", 12) == 0, "its record");
    check(dgn_record(journal, 100, 64, fresh(), 5) == 0 && ARE(DGN_REMOVE, 0, 46, 26, 0), "the record read");
    check(dgn_insert(file, 146, 94, journal, 100, 64, 2, 0, 46, original + 92, 52, fresh(), 2) == 0 && ARE(146, 76), "insert");
    check(dgn_record(journal, 100, 76, fresh(), 5) == 0 && ARE(DGN_INSERT, 0, 46, 0, 64), "its record");
    check(memcmp(file, original, 146) == 0, "the same file");
    check(refused(dgn_insert(file, 146, 146, journal, 100, 76, 2, DGN_TOP, 72, original + 92, 52, fresh(), 2), DGN_WRONG_PLACE, 0), "C at the top");
    check(dgn_rename(file, 146, 146, journal, 100, 76, 2, 0, TEXT("417"), fresh(), 2) == 0 && ARE(146, 92), "rename");
    check(dgn_record(journal, 100, 92, fresh(), 5) == 0 && ARE(DGN_RENAME, DGN_TOP, 0, 2, 76), "its record");
    check(refused(dgn_rename(file, 146, 146, journal, 100, 76, 2, 46, TEXT("417"), fresh(), 2), DGN_NOT_A_CELL, 0), "a line has no name");
    check(refused(dgn_mark(file, 146, 146, journal, 100, 92, 2, 0, 1, fresh(), 2), DGN_JOURNAL, 0), "no room in the journal");
    check(refused(dgn_mark(file, 146, 146, journal, 100, 76, 2, 46, 1, fresh(), 2), DGN_ALREADY, 0), "deleted already");
    check(refused(dgn_mark(file, 146, 146, journal, 100, 76, 2, 0, 2, fresh(), 2), DGN_CALL, 0), "deleted by 2");
    check(refused(dgn_mark(file, 146, 146, journal, 100, 92, 2, 46, 1, fresh(), 1), DGN_CALL, 0), "an answer slice of one number");
    check(dgn_undo(file, 146, 146, journal, 100, 92, 2, fresh(), 2) == 0 && ARE(146, 76), "undo of the rename");
    check(dgn_mark(file, 146, 146, journal, 100, 76, 2, 46, 0, fresh(), 2) == 0 && ARE(146, 90), "mark");
    check(file[93] == (original[93] & 127), "live");
    check(dgn_undo(file, 146, 146, journal, 100, 90, 2, fresh(), 2) == 0 && ARE(146, 76), "undo of the mark");
    check(dgn_undo(file, 146, 146, journal, 100, 76, 2, fresh(), 2) == 0 && ARE(94, 64), "undo of the insert");
    check(dgn_undo(file, 146, 94, journal, 100, 64, 2, fresh(), 2) == 0 && ARE(146, 0), "undo of the remove");
    check(refused(dgn_undo(file, 146, 146, journal, 100, 0, 2, fresh(), 2), DGN_NOTHING, 0), "nothing to undo");
    check(refused(dgn_record(journal, 100, 0, fresh(), 5), DGN_NOTHING, 0), "no record");
    check(refused(dgn_record(journal, 100, 10, fresh(), 5), DGN_BAD_JOURNAL, 0), "five words are no record");
    check(refused(dgn_record(journal, 100, 102, fresh(), 5), DGN_CALL, 0), "a used length beyond the journal");
    check(refused(dgn_record(journal, 100, 64, fresh(), 4), DGN_CALL, 0), "four numbers for five");
    check(memcmp(file, original, 146) == 0, "the original");
}

/* the same in a struct, on a buffer that is longer than the file */
static void session(void)
{
    uint8_t bytes[300], journal[100];
    struct dgn_session s;
    memset(bytes, 5, sizeof bytes);
    memcpy(bytes, file, sizeof file);
    s.file = bytes;
    s.file_len = 299;
    s.used = s.jused = 8;
    s.journal = journal;
    s.journal_len = sizeof journal;
    s.index = NULL;
    s.dimension = 2;
    check(dgn_session_open(&s, 150) == DGN_CALL, "an odd buffer");
    s.file_len = 148;
    check(dgn_session_open(&s, 150) == DGN_CALL, "more bytes than the buffer has");
    s.file_len = sizeof bytes;
    s.journal_len = DGN_FILE_BYTES + 2;
    check(dgn_session_open(&s, 150) == DGN_CALL, "a journal that is too long");
    s.journal_len = sizeof journal;
    check(dgn_session_open(&s, 144) == DGN_NO_END + 256 * 72 && s.used == 8 && s.jused == 8, "the file's own refusal");
    check(dgn_session_open(&s, 150) == 0 && s.used == 146 && s.jused == 0, "open, with words behind the marker");
    check(dgn_session_mark(&s, 46, 1) == DGN_ALREADY && s.used == 146 && s.jused == 0, "deleted already");
    check(dgn_session_mark(&s, 46, 0) == 0 && s.used == 146 && s.jused == 14, "mark");
    check(dgn_session_rename(&s, 0, "417") == 0 && s.used == 146 && s.jused == 30, "rename");
    check(dgn_session_insert(&s, 0, 72, file + 92, 52) == 0 && s.used == 198 && s.jused == 42, "insert");
    check(dgn_session_remove(&s, 0) == DGN_JOURNAL && s.used == 198 && s.jused == 42, "no room in the journal");
    check(dgn_session_undo(&s) == 0 && dgn_session_undo(&s) == 0 && dgn_session_undo(&s) == 0, "three undos");
    check(dgn_session_undo(&s) == DGN_NOTHING && s.used == 146 && s.jused == 0, "no fourth");
    check(memcmp(bytes, file, sizeof file) == 0, "the same bytes");
    check(dgn_session_remove(&s, 46) == 0 && s.used == 94 && s.jused == 64, "remove");
}

/* each edit with an index: the cell renamed, marked, removed and put back, and each undone; what was lent as an index is not looked at */
static void editing_indexed(void)
{
    uint8_t bytes[300], journal[400], index[20], before[20];
    static const uint8_t old[] = {82, 192, 136, 199, 0, 0, 0, 0}, new[] = {125, 217, 0, 0, 0, 0, 0, 0}, zeros[20] = {0};
    memset(bytes, 0, sizeof bytes);
    memcpy(bytes, file, sizeof file);
    fresh_numbers();
#define SESSION(used, jused, index_len, iused) bytes, 300, used, journal, 400, jused, index, index_len, iused, 2
#define INDEX_IS(first) (memcmp(index, first, 8) == 0 && memcmp(index + 8, zeros, 12) == 0)
    memset(index, 9, 20);
    check(dgn_mark_indexed(SESSION(146, 0, 20, 16), 46, 0, fresh(), 3) == 0 && ARE(146, 14, 8) && INDEX_IS(old), "mark with an index");
    memset(index, 9, 20);
    check(dgn_rename_indexed(SESSION(146, 14, 20, 0), 0, TEXT("417"), fresh(), 3) == 0 && ARE(146, 30, 8) && INDEX_IS(new), "rename with an index");
    memset(index, 9, 20);
    check(dgn_remove_indexed(SESSION(146, 30, 20, 8), 0, fresh(), 3) == 0 && ARE(2, 186, 0) && memcmp(index, zeros, 20) == 0, "remove with an index");
    memset(index, 9, 20);
    check(dgn_insert_indexed(SESSION(2, 186, 20, 0), DGN_TOP, 0, file, 144, fresh(), 3) == 0 && ARE(146, 198, 8) && INDEX_IS(old), "insert with an index");
    check(dgn_undo_indexed(SESSION(146, 198, 20, 8), fresh(), 3) == 0 && ARE(2, 186, 0) && memcmp(index, zeros, 20) == 0, "undo of the insert");
    check(dgn_undo_indexed(SESSION(2, 186, 20, 0), fresh(), 3) == 0 && ARE(146, 30, 8) && INDEX_IS(new), "undo of the remove");

    memset(index, 9, 20);
    memcpy(before, index, 20);
#define LEFT (memcmp(index, before, 20) == 0)
    check(refused(dgn_mark_indexed(SESSION(146, 30, 20, 15), 46, 1, fresh(), 3), DGN_CALL, 0) && LEFT, "mark: no whole entries");
    check(refused(dgn_rename_indexed(SESSION(146, 30, 20, 24), 0, TEXT("A"), fresh(), 3), DGN_CALL, 0) && LEFT, "rename: beyond the buffer");
    check(refused(dgn_insert_indexed(SESSION(146, 30, 20, 1), DGN_TOP, 0, file, 144, fresh(), 3), DGN_CALL, 0) && LEFT, "insert: no whole entries");
    check(refused(dgn_remove_indexed(SESSION(146, 30, 20, 4), 0, fresh(), 3), DGN_CALL, 0) && LEFT, "remove: no whole entries");
    check(refused(dgn_undo_indexed(SESSION(146, 30, 20, 12), fresh(), 3), DGN_CALL, 0) && LEFT, "undo: no whole entries");
    check(refused(dgn_mark_indexed(SESSION(146, 30, 7, 0), 46, 1, fresh(), 3), DGN_ROOM, 0) && LEFT, "mark: no room");
    check(refused(dgn_rename_indexed(SESSION(146, 30, 7, 0), 0, TEXT("A"), fresh(), 3), DGN_ROOM, 0) && LEFT, "rename: no room");
    check(refused(dgn_insert_indexed(SESSION(146, 30, 15, 0), DGN_TOP, 0, file, 144, fresh(), 3), DGN_ROOM, 0) && LEFT, "insert: no room");
    check(refused(dgn_remove_indexed(SESSION(146, 30, 7, 0), 46, fresh(), 3), DGN_ROOM, 0) && LEFT, "remove: no room");
    check(refused(dgn_undo_indexed(SESSION(146, 30, 7, 0), fresh(), 3), DGN_ROOM, 0) && LEFT, "undo: no room");
    check(refused(dgn_mark_indexed(bytes, 300, 146, journal, 30, 30, index, 7, 0, 2, 46, 1, fresh(), 3), DGN_ROOM, 0) && LEFT, "15 before 16");
    check(refused(dgn_mark_indexed(bytes, 300, 146, journal, 30, 30, index, 8, 0, 2, 46, 1, fresh(), 3), DGN_JOURNAL, 0) && LEFT, "16 with an index");
    check(refused(dgn_mark_indexed(SESSION(146, 30, 7, 0), 46, 0, fresh(), 3), DGN_ALREADY, 0) && LEFT, "14 before 15");
    check(refused(dgn_rename_indexed(SESSION(146, 30, 7, 0), 46, TEXT("A"), fresh(), 3), DGN_NOT_A_CELL, 0) && LEFT, "18 before 15");
    check(refused(dgn_remove_indexed(SESSION(146, 30, 7, 0), 1, fresh(), 3), DGN_NO_SUCH, 0) && LEFT, "13 before 15");
    check(refused(dgn_undo_indexed(SESSION(146, 0, 7, 0), fresh(), 3), DGN_NOTHING, 0) && LEFT, "17 before 15");
    check(refused(dgn_mark_indexed(SESSION(146, 30, 20, 8), 46, 1, fresh(), 2), DGN_CALL, 0) && LEFT, "two numbers for three: mark");
    check(refused(dgn_rename_indexed(SESSION(146, 30, 20, 8), 0, TEXT("A"), fresh(), 2), DGN_CALL, 0) && LEFT, "rename");
    check(refused(dgn_insert_indexed(SESSION(146, 30, 20, 8), DGN_TOP, 0, file, 144, fresh(), 2), DGN_CALL, 0) && LEFT, "insert");
    check(refused(dgn_remove_indexed(SESSION(146, 30, 20, 8), 0, fresh(), 2), DGN_CALL, 0) && LEFT, "remove");
    check(refused(dgn_undo_indexed(SESSION(146, 30, 20, 8), fresh(), 2), DGN_CALL, 0) && LEFT, "undo");
    check(refused(dgn_mark_indexed(SESSION(146, 30, 20, 8), 46, 2, fresh(), 3), DGN_CALL, 0) && LEFT, "deleted by 2, with an index");
    check(dgn_undo_indexed(SESSION(146, 30, 8, 8), fresh(), 3) == 0 && ARE(146, 14, 8) && memcmp(index, old, 8) == 0, "undo in just enough room");
    check(dgn_undo_indexed(SESSION(146, 14, 20, 8), fresh(), 3) == 0 && ARE(146, 0, 8) && INDEX_IS(old), "undo of the mark");
    check(memcmp(bytes, file, sizeof file) == 0, "the original again");

    struct dgn_session s;
    s.file = bytes;
    s.file_len = sizeof bytes;
    s.journal = journal;
    s.journal_len = sizeof journal;
    s.index = index;
    s.index_len = 7;
    s.iused = 99;
    s.dimension = 2;
    check(dgn_session_open(&s, 146) == 0 && dgn_session_index(&s) == DGN_ROOM && s.iused == 99, "no room for a session's index");
    s.index_len = 16;
    check(dgn_session_index(&s) == 0 && s.iused == 8, "a session's index");
    check(dgn_session_look_up(&s, "00417", fresh(), 2) == 0 && ARE(0, 2), "look up in it");
    check(dgn_session_rename(&s, 0, "417") == 0 && s.jused == 16 && s.iused == 8 && memcmp(index, new, 8) == 0, "rename in it");
    check(refused(dgn_session_look_up(&s, "00417", fresh(), 2), DGN_NO_SUCH, 2), "no more there");
    check(dgn_session_insert(&s, DGN_TOP, 72, file, 144) == 0 && s.used == 290 && s.iused == 16, "insert in it");
    check(dgn_session_mark(&s, 72, 1) == 0 && s.iused == 16, "mark in it");
    check(dgn_session_remove(&s, 0) == 0 && s.used == 146 && s.iused == 8, "remove in it");
    check(dgn_session_remove(&s, 1) == DGN_NO_SUCH && s.used == 146 && s.iused == 8, "a refusal leaves the lengths");
    for (size_t i = 0; i < 4; i++)
        check(dgn_session_undo(&s) == 0, "undo in it");
    check(dgn_session_undo(&s) == DGN_NOTHING && s.used == 146 && s.jused == 0 && s.iused == 8 && memcmp(index, old, 8) == 0, "all undone");
}

/* a journal to blocks and back: the bytes of a block, each fault of one, short buffers, the longest journal */
static void stored(void)
{
    static uint8_t journal[DGN_FILE_BYTES], blocks[DGN_STORED_BYTES], back[DGN_FILE_BYTES];
    uint8_t short_block[DGN_BLOCK_BYTES], two[2 * DGN_BLOCK_BYTES + 2];
    const uint8_t ends[] = {2, 0, 253, 253};
    memset(blocks, 9, sizeof blocks);
    memset(two, 0, sizeof two);
    fresh_numbers();
    check(dgn_journal_to_blocks(NULL, 0, NULL, 0, fresh(), 1) == 0 && ARE(0), "an empty journal is no block");
    check(dgn_journal_from_blocks(NULL, 0, NULL, 0, fresh(), 1) == 0 && ARE(0), "and back");
    journal[0] = 1;
    journal[1] = 2;
    check(dgn_journal_to_blocks(journal, 2, blocks, 600, fresh(), 1) == 0 && ARE(512), "two bytes");
    check(blocks[0] == 1 && blocks[1] == 2 && blocks[2] == 0 && blocks[507] == 0 && memcmp(blocks + 508, ends, 4) == 0 && blocks[512] == 9, "their block");
    check(dgn_journal_from_blocks(blocks, 512, back, 3, fresh(), 1) == 0 && ARE(2) && memcmp(back, journal, 2) == 0 && back[2] == 0, "and back");
    check(refused(dgn_journal_to_blocks(journal, 3, blocks, 600, fresh(), 1), DGN_CALL, 0), "an odd journal");
    check(refused(dgn_journal_to_blocks(journal, DGN_FILE_BYTES + 2, blocks, 600, fresh(), 1), DGN_CALL, 0), "a longer one");
    check(refused(dgn_journal_to_blocks(journal, 510, blocks, 1023, fresh(), 1), DGN_ROOM, 0), "no room for blocks");
    check(refused(dgn_journal_to_blocks(journal, 2, blocks, 512, fresh(), 0), DGN_CALL, 0), "no number for one");
    check(refused(dgn_journal_from_blocks(blocks, 511, back, 2, fresh(), 1), DGN_CALL, 0), "odd blocks");
    check(refused(dgn_journal_from_blocks(blocks, DGN_STORED_BYTES + 2, back, 2, fresh(), 1), DGN_CALL, 0), "too many");
    check(refused(dgn_journal_from_blocks(blocks, 510, back, 2, fresh(), 1), DGN_BLOCK, 0), "a short end");
    check(refused(dgn_journal_from_blocks(blocks, 512, back, 1, fresh(), 1), DGN_ROOM, 0), "no room for the journal");
    check(refused(dgn_journal_from_blocks(blocks, 512, back, 2, fresh(), 0), DGN_CALL, 0), "no number for one");
    memcpy(short_block, blocks, sizeof short_block);
    int seen = 1;
    for (size_t i = 0; i < sizeof short_block; i++) {
        short_block[i] ^= 64;
        seen = seen && refused(dgn_journal_from_blocks(short_block, 512, back, 0, fresh(), 1), DGN_BLOCK, 0);
        short_block[i] ^= 64;
    }
    check(seen, "each byte changed, before 15");
    memcpy(two, blocks, 512);
    memcpy(two + 512, blocks, 512);
    check(refused(dgn_journal_from_blocks(two, 1024, back, 600, fresh(), 1), DGN_BLOCK, 0), "part full and not the last");

    for (size_t i = 0; i < sizeof journal; i++)
        journal[i] = (uint8_t)(i * i / 7 + i / 508);
    check(dgn_journal_to_blocks(journal, 1018, two, sizeof two, fresh(), 1) == DGN_ROOM, "three blocks do not fit");
    check(dgn_journal_to_blocks(journal, 1016, two, sizeof two, fresh(), 1) == 0 && ARE(1024), "two full blocks");
    check(refused(dgn_journal_from_blocks(two, 1026, back, 1016, fresh(), 1), DGN_BLOCK, 2), "two bytes behind them");
    memcpy(short_block, two, 512);
    memmove(two, two + 512, 512);
    memcpy(two + 512, short_block, 512);
    check(dgn_journal_from_blocks(two, 1024, back, 1016, fresh(), 1) == 0 && ARE(1016) && memcmp(back, journal + 508, 508) == 0, "swapped they are taken");
    check(dgn_journal_to_blocks(journal, DGN_FILE_BYTES, blocks, DGN_STORED_BYTES, fresh(), 1) == 0 && ARE(DGN_STORED_BYTES), "the longest journal");
    check(dgn_journal_from_blocks(blocks, DGN_STORED_BYTES, back, DGN_FILE_BYTES, fresh(), 1) == 0 && ARE(DGN_FILE_BYTES), "and back");
    check(memcmp(back, journal, DGN_FILE_BYTES) == 0, "the same bytes");
    /* 66 bytes used in the 2,065th, with a check that is right */
    blocks[2064 * 512 + 508] += 2;
    blocks[2064 * 512 + 510] -= 2;
    check(refused(dgn_journal_from_blocks(blocks, DGN_STORED_BYTES, back, DGN_FILE_BYTES, fresh(), 1), DGN_BLOCK, 2064), "two bytes above the limit");
}

/* a name and a sentence for each number, and one for those that are none */
static void refusals(void)
{
    static const char *const all[] = {"DONE", "CALL", "NO END", "CUT", "RESERVED", "PLACE", "KIND", "SHORT", "TOTAL", "COUNT", "DEEP", "LINKAGE", "NAME",
                                      "NO SUCH", "ALREADY", "ROOM", "JOURNAL", "NOTHING", "NOT A CELL", "BAD JOURNAL", "FIELD", "FLOAT", "BLOCK"};
    const size_t none = DGN_BLOCK + 1;
    for (size_t n = 0; n <= DGN_BLOCK; n++) {
        check(strcmp(dgn_refusal_name(n), all[n]) == 0, all[n]);
        check(strlen(dgn_refusal_text(n)) > 10 && strcmp(dgn_refusal_text(n), dgn_refusal_text(none)) != 0, all[n]);
        check(dgn_refusal_name(n + 256 * 1100) == dgn_refusal_name(n), all[n]);
    }
    check(strcmp(dgn_refusal_name(none), "UNKNOWN") == 0 && strcmp(dgn_refusal_name(DGN_TOP), "UNKNOWN") == 0, "no refusal");
    check(DGN_VERSION == 0x000400 && strcmp(DGN_VERSION_TEXT, "0.4.0") == 0, "the version");
}

int main(void)
{
    fresh_numbers();
    fresh_floats();
    writing();
    reading();
    writing_text();
    text();
    curves();
    plates();
    whole();
    ranges();
    largest();
    names();
    indexing();
    editing();
    session();
    editing_indexed();
    stored();
    refusals();
    printf("%zu passed, %zu failed\n", passed, failed);
    return failed != 0;
}
