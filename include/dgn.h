/* dgn.h: reading, writing and editing Intergraph design files and cell libraries (DGN version 7).
 *
 * What is handed in. A file is `len` bytes at `file`: even, at most DGN_FILE_BYTES. `dimension` is 2 or 3; the file
 * does not tell. Each pointer is followed by how many bytes or numbers it points to. No pointer may be null unless that
 * is 0, and what a function writes may not overlap what else it is handed; otherwise every input is allowed, and no
 * caller has to check a file first. A size_t has 64 bits.
 *
 * What comes back. Every function returns one number r: 0 where it is done, else a refusal, of which
 *   DGN_NUMBER(r)  is its number, one of enum dgn_refusal,
 *   DGN_PLACE(r)   its place: the word where the element at fault begins, of words left over after a piece the first
 *                  of them, for DGN_NO_END the end of the file, for DGN_BLOCK the number of the block, else 0,
 *   DGN_COUNT(r)   for DGN_NO_SUCH of dgn_find and dgn_find_with_deleted how many elements the file has, of dgn_look_up and
 *                  dgn_look_up_with_deleted how many looks were made, else 0.
 * A REFUSAL CHANGES NO BYTE OF ANY SLICE, `out` AMONG THEM. Where a function is done, its answer stands at the front of
 * `out`; each says how many numbers that needs, and what stands behind them stays. With fewer it returns 1.
 *
 * Words. A place is the index of a 16-bit word of the file, from 0: byte 2 * place. Words are stored low byte first.
 *   header       an element of type 1, 2, 7, 12, 14, 18 or 19: other elements, its components, follow its own words
 *                and stand beneath it; a component may be a header again
 *   depth        the number of headers above an element, 0 at the top
 *   size         an element's own words, without its components
 *   total        of a header: how many words follow its word 18, its own and those of all beneath it
 *   extent       all of an element: a header's words with all beneath it (19 + total words), any other's own words
 *   known types  those of enum dgn_type. All others are raw: of them only words 0 and 1 are judged; but 24, 27 and 87
 *                are refused with DGN_KIND
 *   file order   an element, then its components, then what follows its extent. Elements are numbered so, from 0, at
 *                all depths and deleted ones too
 *   end marker   the word 65535 where the next element at the top is due. What stands behind it is no part of the file
 *   the file's own refusals   2 to 12, 20 and 21, of the first fault in the file
 *   a piece's own refusals    3 to 12, 20 and 21, of the first fault in the piece that is to be inserted; the place
 *                             counts from the piece's start
 *
 * Cost. Each call that is handed a file judges all of it: one pass, on the machine of docs/BENCH.md below a millisecond
 * for 1 MiB. To read all elements use dgn_views, dgn_points, dgn_texts, dgn_curves, dgn_ranges and dgn_plates, which make one
 * pass for many elements; dgn_view, dgn_point, dgn_text, dgn_curve, dgn_in_range and dgn_plate make one for each. With room
 * for DGN_FILE_ELEMENTS views, DGN_FILE_NUMBERS numbers of points, DGN_FILE_TEXTS texts, DGN_FILE_CURVES ellipses and arcs,
 * DGN_FILE_RANGES places and DGN_FILE_CELLS plates one call of each reads any file. Nothing is allocated, and 256 KiB of stack
 * are enough.
 *
 * Threads. The library keeps no state: calls may be made from any threads at once, on separate buffers. A buffer that a
 * call writes to is no other thread's until it returns.
 *
 * Ranges and points. Both are signed coordinates, from -2147483648 to 2147483647: a range stores coordinate + 2147483648,
 * unsigned, and is given and taken less that. A file is not refused for its ranges; whether they hold their points dgn_in_range
 * and dgn_ranges say.
 *
 * Floats. The axes and origins of ellipses and arcs are stored as VAX D-floats. Each is given as the nearest double, ties to
 * even, never a NaN and never an infinity. Angles are longs as stored, unsigned: 360000 is a degree; bit 31 of a sweep, which
 * makers set for the other direction, is given with it.
 */
#ifndef DGN_H
#define DGN_H

#include <stddef.h>
#include <stdint.h>

#ifdef __cplusplus
extern "C" {
#endif

#define DGN_VERSION 0x000400
#define DGN_VERSION_TEXT "0.4.0"

/* A returned number taken apart. */
#define DGN_NUMBER(r) ((r) & 255)
#define DGN_PLACE(r) (DGN_NUMBER(r) == 13 ? 0 : (r) >> 8)
#define DGN_COUNT(r) (DGN_NUMBER(r) == 13 ? (r) >> 8 : 0)

/* Limits: bytes of a file, piece or buffer of a session; elements of a file, each of two words or more; numbers that
 * dgn_points writes of a file, at most one for two of its words; texts of a file, each of 30 words or more; elements of a
 * file that dgn_ranges can give, each of 26 words or more; cells of a file, each of 35 words or more; ellipses and arcs of a
 * file, each of 36 words or more; words of an extent; depth; points of an element; characters, and enter-data fields, of a
 * text. */
#define DGN_FILE_BYTES 1048576
#define DGN_FILE_ELEMENTS 262143
#define DGN_FILE_NUMBERS 262144
#define DGN_FILE_TEXTS 17476
#define DGN_FILE_RANGES 20164
#define DGN_FILE_CELLS 14979
#define DGN_FILE_CURVES 14563
#define DGN_EXTENT_WORDS 65535
#define DGN_DEEPEST 8
#define DGN_MOST_POINTS 101
#define DGN_MOST_CHARACTERS 255
#define DGN_MOST_FIELDS 255

/* The end marker. */
#define DGN_END_MARKER 65535

/* ---- refusals ---- */

/* 2 to 12, 20 and 21 are of a file or a piece, some of them of what is handed to a writer, 14 and 16 to 19 of editing, 18 of a
 * plate too, 22 of a stored journal.
 * The names of 5 and 9 are PLACE and COUNT; DGN_PLACE and DGN_COUNT take an answer apart. */
enum dgn_refusal {
    DGN_DONE = 0,
    DGN_CALL = 1,         /* dimension, a length, a field out of its range, a used file without its end, a short `out` */
    DGN_NO_END = 2,       /* no word left where the end marker or an element is due */
    DGN_CUT = 3,          /* an element or piece is cut off, or words are left over after a piece */
    DGN_RESERVED = 4,     /* bit 6 of an element's first word is set */
    DGN_WRONG_PLACE = 5,  /* the component bit is set at the top or clear beneath a header */
    DGN_KIND = 6,         /* the type may not stand there, is not read, or is none that the call is for */
    DGN_SHORT = 7,        /* an element is below its fixed part, or its number of points is not 2 to 101 */
    DGN_TOTAL = 8,        /* a total does not fit its element or what is around it, or more than 65,535 words */
    DGN_WRONG_COUNT = 9,  /* a header's count differs from its components */
    DGN_DEEP = 10,        /* nesting above depth 8 */
    DGN_LINKAGE = 11,     /* an attribute part is wrong */
    DGN_NAME = 12,        /* a stored name or a text is wrong */
    DGN_NO_SUCH = 13,     /* place, point, linkage, field or name not there */
    DGN_ALREADY = 14,     /* the deleted flag is already as wanted */
    DGN_ROOM = 15,        /* an output or file buffer is too small */
    DGN_JOURNAL = 16,     /* too few free journal words */
    DGN_NOTHING = 17,     /* the journal is empty */
    DGN_NOT_A_CELL = 18,  /* rename or plate of another type */
    DGN_BAD_JOURNAL = 19, /* the last record is ill-formed, or may not be reversed in this file */
    DGN_FIELD = 20,       /* an enter-data field of a text is wrong */
    DGN_FLOAT = 21,       /* a float of an ellipse or an arc is no number */
    DGN_BLOCK = 22        /* a block of a stored journal is wrong */
};

/* The name of a refusal, as "NO END", and a plain sentence on it. r is its number or all that a function returned; 0 is
 * "DONE", and what is none of these "UNKNOWN". The texts are constant. */
const char *dgn_refusal_name(size_t r);
const char *dgn_refusal_text(size_t r);

/* ---- files ---- */

enum dgn_type {
    DGN_LIBRARY_CELL = 1,
    DGN_CELL = 2,
    DGN_LINE = 3,
    DGN_LINE_STRING = 4,
    DGN_SHAPE = 6,
    DGN_TEXT_NODE = 7,
    DGN_CURVE = 11,
    DGN_COMPLEX_CHAIN = 12,
    DGN_COMPLEX_SHAPE = 14,
    DGN_ELLIPSE = 15,
    DGN_ARC = 16,
    DGN_TEXT = 17,
    DGN_SURFACE = 18,     /* 18 and 19 in 3D files alone */
    DGN_SOLID = 19,
    DGN_BSPLINE_POLE = 21
};

/* Judges a whole file. out needs 3: how many elements it has, the greatest depth, the end marker's place.
 * Refusals: 1 to 12, 20, 21. */
enum { DGN_JUDGE_ELEMENTS, DGN_JUDGE_DEPTH, DGN_JUDGE_MARKER };
#define DGN_JUDGE_NUMBERS 3
size_t dgn_judge(const uint8_t *file, size_t len, size_t dimension, size_t *out, size_t out_len);

/* The first live type 1 or 2 cell with the name: those whose own deleted flag is set are passed over, also beneath a live
 * header; one beneath a deleted header is live if its own flag is clear. out needs 2: its place, and how many elements were
 * looked at, those passed over among them. Refusals: 1, the file's own, 12 for the text at 0, 13 with DGN_COUNT(r), also where
 * only deleted cells have the name. */
enum { DGN_FIND_PLACE, DGN_FIND_LOOKED };
#define DGN_FIND_NUMBERS 2
size_t dgn_find(const uint8_t *file, size_t len, size_t dimension, const uint8_t *text, size_t text_len, size_t *out, size_t out_len);

/* The first type 1 or 2 cell with the name, be it live or deleted: as for a screen that restores parts. The rest as dgn_find. */
size_t dgn_find_with_deleted(const uint8_t *file, size_t len, size_t dimension, const uint8_t *text, size_t text_len, size_t *out, size_t out_len);

/* ---- all elements: those number k, k+1, .. in file order. Refusals of each: 1, the file's own, 15 ---- */

/* A view of an element is 32 numbers. Those of a part that it does not have are all 0. */
enum dgn_view_index {
    DGN_VIEW_LEVEL = 0,
    DGN_VIEW_COMPONENT = 1,       /* the component bit C */
    DGN_VIEW_TYPE = 2,
    DGN_VIEW_DELETED = 3,
    DGN_VIEW_SIZE = 4,
    DGN_VIEW_DEPTH = 5,
    DGN_VIEW_HAS_HEADER = 6,      /* 1 if it stands beneath a header */
    DGN_VIEW_HEADER = 7,          /* the direct header's place */
    DGN_VIEW_HAS_RANGE = 8,       /* 1 for 14 words or more: the next six, signed coordinates */
    DGN_VIEW_LOW_X = 9,
    DGN_VIEW_LOW_Y = 10,
    DGN_VIEW_LOW_Z = 11,
    DGN_VIEW_HIGH_X = 12,
    DGN_VIEW_HIGH_Y = 13,
    DGN_VIEW_HIGH_Z = 14,
    DGN_VIEW_HAS_DISPLAY = 15,    /* 1 for known types other than 1: the next six */
    DGN_VIEW_GROUP = 16,          /* graphic group */
    DGN_VIEW_ATTRIBUTE_INDEX = 17,
    DGN_VIEW_PROPERTIES = 18,     /* with DGN_HAS_ATTRIBUTES */
    DGN_VIEW_STYLE = 19,
    DGN_VIEW_WEIGHT = 20,
    DGN_VIEW_COLOUR = 21,
    DGN_VIEW_HAS_POINTS = 22,     /* 1 for types 4, 6, 11, 21: their number of points; type 3 has always two */
    DGN_VIEW_POINTS = 23,
    DGN_VIEW_HAS_NAME = 24,       /* 1 for types 1, 2: the two words of their name, see dgn_unpack */
    DGN_VIEW_NAME = 25,
    DGN_VIEW_NAME_2 = 26,
    DGN_VIEW_HAS_TOTAL = 27,      /* 1 for headers */
    DGN_VIEW_TOTAL = 28,
    DGN_VIEW_HAS_COUNT = 29,      /* 1 for types 7, 12, 14, 18, 19: their number of direct components */
    DGN_VIEW_COUNT = 30,
    DGN_VIEW_PLACE = 31
};
#define DGN_VIEW_NUMBERS 32

/* The bit of the properties that says that there are linkages. */
#define DGN_HAS_ATTRIBUTES 2048

/* The views of the elements number k, k+1, .., as many as `views` holds whole; what stands behind them stays. out needs
 * 1: how many views, 0 where no element is left. 15 where one is left and `views` has fewer than 32 numbers. */
size_t dgn_views(const uint8_t *file, size_t len, size_t dimension, size_t k, int64_t *views, size_t views_len, size_t *out, size_t out_len);

/* The points of the elements number k, k+1, .. that have any (types 3, 4, 6, 11 and 21). Each such element gives its
 * place, its number of points n, and n * dimension coordinates, signed, one point after another; as many elements as
 * `numbers` holds whole, and what stands behind them stays. out needs 2: the number of the element to go on with, which
 * is the first that did not fit or, where none is left, how many elements there are (k where it is larger); and how many
 * numbers were written. 15 where not even the first fits: DGN_POINTS_ROOM numbers are enough for any element. */
enum { DGN_POINTS_NEXT, DGN_POINTS_WRITTEN };
#define DGN_POINTS_NUMBERS 2
#define DGN_POINTS_ROOM 305
size_t dgn_points(const uint8_t *file, size_t len, size_t dimension, size_t k, int64_t *numbers, size_t numbers_len, size_t *out, size_t out_len);

/* The texts (type 17) among the elements number k, k+1, .. Each gives 18 numbers: these three, then the 15 of dgn_text; as
 * many texts as `numbers` holds whole, and what stands behind them stays. out needs 2: the number of the element to go on
 * with, as for dgn_points, and how many texts. 15 where one is left and `numbers` has fewer than 18. */
enum dgn_texts_index {
    DGN_TEXTS_PLACE = 0,
    DGN_TEXTS_DELETED = 1,
    DGN_TEXTS_DEPTH = 2,
    DGN_TEXTS_TEXT = 3            /* the first of the 15 */
};
enum { DGN_TEXTS_NEXT, DGN_TEXTS_COUNT };
#define DGN_TEXTS_NUMBERS 18
size_t dgn_texts(const uint8_t *file, size_t len, size_t dimension, size_t k, int64_t *numbers, size_t numbers_len, size_t *out, size_t out_len);

/* The ellipses and arcs (types 15 and 16) among the elements number k, k+1, .. Each gives 9 numbers, these two and then the
 * 7 of dgn_curve, and 5 floats, those of dgn_curve; as many as both slices hold whole, and what stands behind them stays. out
 * needs 2: the number of the element to go on with, as for dgn_points, and how many ellipses and arcs. 15 where one is left
 * and `numbers` has fewer than 9 or `floats` fewer than 5. */
enum dgn_curves_index {
    DGN_CURVES_PLACE = 0,
    DGN_CURVES_DELETED = 1,
    DGN_CURVES_CURVE = 2          /* the first of the 7 */
};
enum { DGN_CURVES_NEXT, DGN_CURVES_COUNT };
#define DGN_CURVES_NUMBERS 9
size_t dgn_curves(const uint8_t *file, size_t len, size_t dimension, size_t k, int64_t *numbers, size_t numbers_len, double *floats, size_t floats_len, size_t *out, size_t out_len);

/* The places of those of the elements number k, k+1, .. of which dgn_in_range would answer 0, as many as `places` holds; what
 * stands behind them stays. out needs 2: the number of the element to go on with, as for dgn_points, and how many places. 15
 * where one is left and `places` is empty. */
enum { DGN_RANGES_NEXT, DGN_RANGES_COUNT };
#define DGN_RANGES_NUMBERS 2
size_t dgn_ranges(const uint8_t *file, size_t len, size_t dimension, size_t k, int64_t *places, size_t places_len, size_t *out, size_t out_len);

/* The plates of the cells (types 1 and 2, deleted ones too) among the elements number k, k+1, .. Each gives 11 numbers: these two,
 * then the 9 of dgn_plate; as many plates as `numbers` holds whole, and what stands behind them stays. out needs 2: the number of
 * the element to go on with, as for dgn_points, and how many plates. 15 where one is left and `numbers` has fewer than 11. */
enum dgn_plates_index {
    DGN_PLATES_PLACE = 0,
    DGN_PLATES_DELETED = 1,       /* 1 where the cell itself is deleted */
    DGN_PLATES_PLATE = 2          /* the first of the 9 */
};
enum { DGN_PLATES_NEXT, DGN_PLATES_COUNT };
#define DGN_PLATES_NUMBERS 11
size_t dgn_plates(const uint8_t *file, size_t len, size_t dimension, size_t k, int64_t *numbers, size_t numbers_len, size_t *out, size_t out_len);

/* ---- one element: the one that starts at `place`. Refusals of each: 1, the file's own, 13 ---- */

/* Its extent. out needs 2: its first word and the word after its last. */
enum { DGN_EXTENT_FIRST, DGN_EXTENT_END };
#define DGN_EXTENT_NUMBERS 2
size_t dgn_extent(const uint8_t *file, size_t len, size_t dimension, size_t place, size_t *out, size_t out_len);

/* Its view. out needs 32. */
size_t dgn_view(const uint8_t *file, size_t len, size_t dimension, size_t place, int64_t *out, size_t out_len);

/* Point k, from 0, of types 3, 4, 6, 11 and 21. out needs 3: x, y, z; z is 0 in a 2D file. 13 where there is none. */
enum { DGN_POINT_X, DGN_POINT_Y, DGN_POINT_Z };
#define DGN_POINT_NUMBERS 3
size_t dgn_point(const uint8_t *file, size_t len, size_t dimension, size_t place, size_t k, int64_t *out, size_t out_len);

/* Whether all points of an element of type 3, 4, 6 or 11 lie in its range, both ends included: by x and y, in a 3D file by z
 * too. out needs 1: 1 or 0. Last of all 6 at its place where it is of another type. */
#define DGN_IN_RANGE_NUMBERS 1
size_t dgn_in_range(const uint8_t *file, size_t len, size_t dimension, size_t place, size_t *out, size_t out_len);

/* Linkage k, from 0. out needs 4: 1 for a user linkage, place, size in words, id. 13 where there is none. */
enum { DGN_LINKAGE_USER, DGN_LINKAGE_PLACE, DGN_LINKAGE_SIZE, DGN_LINKAGE_ID };
#define DGN_LINKAGE_NUMBERS 4
size_t dgn_linkage(const uint8_t *file, size_t len, size_t dimension, size_t place, size_t k, size_t *out, size_t out_len);

/* ---- a text: the element of type 17 that starts at `place`. Refusals of each: 1, the file's own, 13, 6 at the place of an
 * element of another type ---- */

/* The numbers of a text. Multipliers and turn are unsigned longs as stored: the height multiplier of a mirrored text is
 * above 2147483647. */
enum dgn_text_index {
    DGN_TEXT_FONT = 0,
    DGN_TEXT_JUSTIFICATION = 1,
    DGN_TEXT_LENGTH = 2,          /* length multiplier */
    DGN_TEXT_HEIGHT = 3,          /* height multiplier */
    DGN_TEXT_TURN = 4,            /* 2D: the rotation, then three zeros; 3D: the four longs of the quaternion */
    DGN_TEXT_X = 8,
    DGN_TEXT_Y = 9,
    DGN_TEXT_Z = 10,              /* 0 in a 2D file */
    DGN_TEXT_CHARACTERS = 11,     /* how many */
    DGN_TEXT_FIELDS = 12,         /* how many */
    DGN_TEXT_ODD = 13,            /* the byte behind characters and fields where they have an odd number of bytes, else -1 */
    DGN_TEXT_START = 14           /* the byte of the file where the characters begin */
};
#define DGN_TEXT_NUMBERS 15

/* All its numbers. out needs 15. */
size_t dgn_text(const uint8_t *file, size_t len, size_t dimension, size_t place, int64_t *out, size_t out_len);

/* Its characters: bytes of any value, not ended by a zero. out needs 2: the byte of the file where they begin, and how many
 * they are, 0 to 255. */
enum { DGN_CHARACTERS_START, DGN_CHARACTERS_COUNT };
#define DGN_CHARACTERS_NUMBERS 2
size_t dgn_characters(const uint8_t *file, size_t len, size_t dimension, size_t place, size_t *out, size_t out_len);

/* Enter-data field k, from 0. out needs 3: its first character, counted from 1, how many it has, its justification -1, 0 or
 * 1. Last of all 13 where there is none. */
enum { DGN_FIELD_FIRST, DGN_FIELD_COUNT, DGN_FIELD_JUSTIFICATION };
#define DGN_FIELD_NUMBERS 3
size_t dgn_field(const uint8_t *file, size_t len, size_t dimension, size_t place, size_t k, int64_t *out, size_t out_len);

/* ---- an ellipse or an arc: the element of type 15 or 16 that starts at `place`. (DGN_CURVE is another type.) ---- */

/* Its numbers: all unsigned longs as stored, but the type. */
enum dgn_curve_index {
    DGN_CURVE_TYPE = 0,           /* DGN_ELLIPSE or DGN_ARC */
    DGN_CURVE_START = 1,          /* of an arc the angle where it starts, of an ellipse 0 */
    DGN_CURVE_SWEEP = 2,          /* of an arc the angle that it sweeps, of an ellipse 0 */
    DGN_CURVE_TURN = 3            /* 2D: the rotation, then three zeros; 3D: the four longs of the quaternion */
};
#define DGN_CURVE_NUMBERS 7

/* Its floats. */
enum dgn_curve_float_index {
    DGN_CURVE_PRIMARY = 0,        /* the primary axis */
    DGN_CURVE_SECONDARY = 1,      /* the secondary axis */
    DGN_CURVE_X = 2,              /* the origin */
    DGN_CURVE_Y = 3,
    DGN_CURVE_Z = 4               /* 0 in a 2D file */
};
#define DGN_CURVE_FLOATS 5

/* numbers needs 7 and floats 5; what stands behind them stays. Refusals: 1 (also shorter slices), the file's own, 13, 6 at the
 * place of an element of another type. */
size_t dgn_curve(const uint8_t *file, size_t len, size_t dimension, size_t place, int64_t *numbers, size_t numbers_len, double *floats, size_t floats_len);

/* ---- the plate of a cell: of the element of type 1 or 2 that starts at `place`, be it live or deleted ---- */

/* Its numbers. Of the direct components the live ones are counted, each once and as one kind: a header as one, whatever stands
 * beneath it. */
enum dgn_plate_index {
    DGN_PLATE_NAME = 0,           /* the two words of its name, see dgn_unpack */
    DGN_PLATE_NAME_2 = 1,
    DGN_PLATE_LINES = 2,          /* type 3 */
    DGN_PLATE_POINTED = 3,        /* types 4, 6, 11 and 21 */
    DGN_PLATE_TEXTS = 4,          /* type 17 */
    DGN_PLATE_CURVES = 5,         /* types 15 and 16 */
    DGN_PLATE_HEADERS = 6,        /* types 1, 2, 7, 12, 14, 18 and 19 */
    DGN_PLATE_OTHERS = 7,         /* all others */
    DGN_PLATE_LEVELS = 8          /* the one bits of its mask, words 22 to 25: 0 to 64 */
};
#define DGN_PLATE_NUMBERS 9

/* out needs 9. Refusals: 1, the file's own, 13, 18 at 0 for an element of another type. */
size_t dgn_plate(const uint8_t *file, size_t len, size_t dimension, size_t place, int64_t *out, size_t out_len);

/* ---- names ---- */

/* A text of 0 to 6 letters (space, A-Z, $, ., 0-9, no trailing space) to two words. out needs 2. Refusals: 1, 12. */
#define DGN_NAME_LETTERS 6
#define DGN_NAME_NUMBERS 2
size_t dgn_pack(const uint8_t *text, size_t text_len, size_t *out, size_t out_len);

/* Two words to their text. text needs 7 bytes: the letters, then zeros, so that it ends as a string does; what stands
 * behind them stays. Refusals: 1 (also with fewer than 7), 12. */
#define DGN_TEXT_BYTES 7
size_t dgn_unpack(size_t first, size_t second, uint8_t *text, size_t text_len);

/* ---- cells, and an index of them: those of a file by their names, in a buffer beside it ----
 *
 * An entry has 8 bytes: the two words of a cell's name, then its place as a long, the high word first. Cells are the elements
 * of types 1 and 2, at all depths and deleted ones too. A buffer of entries may have any length; DGN_INDEX_ROOM(len) bytes are
 * enough for a file of `len` bytes.
 *
 * An index has an entry for each cell of a file, ordered by the first word of the name, then the second, as unsigned numbers, then
 * by place. That is not the order of the texts: letters stand before digits. Its used length is 8 bytes for each cell. */

#define DGN_ENTRY_BYTES 8
#define DGN_INDEX_BYTES (DGN_ENTRY_BYTES * DGN_FILE_CELLS)
#define DGN_INDEX_ROOM(len) ((len) / 70 * DGN_ENTRY_BYTES)

/* The cells of a file in file order: their entries at the front of `entries`, as many as it holds whole, and what stands behind
 * them stays. Judges once and goes over the sizes once: the cheapest call that gives names. out needs 4: how many cells the file
 * has, which may be more than fit, then the three numbers of dgn_judge. Refusals: 1, the file's own. */
enum { DGN_CELLS_CELLS, DGN_CELLS_ELEMENTS, DGN_CELLS_DEPTH, DGN_CELLS_MARKER };
#define DGN_CELLS_NUMBERS 4
size_t dgn_cells(const uint8_t *file, size_t len, size_t dimension, uint8_t *entries, size_t entries_len, size_t *out, size_t out_len);

/* Builds the index of a file at the front of `index`; every byte behind it becomes 0. out needs 1: its used length. Judges once,
 * goes over the sizes twice and sorts in place: n log n for n cells. Refusals: 1, the file's own, 15. */
#define DGN_INDEX_NUMBERS 1
size_t dgn_index(const uint8_t *file, size_t len, size_t dimension, uint8_t *index, size_t index_len, size_t *out, size_t out_len);

/* The first live cell with the name, by a file and the first `used` bytes of its index; for the text see dgn_pack. Over the index of
 * the file the place is that of dgn_find. Of the entries of the name, from where the search by halving ends, those are passed over
 * whose place starts a deleted cell of the file, or no cell: so an index that is not the file's leads to a live cell, or to 13. The
 * name of the cell itself is not compared. out needs 2: the place, and how many looks at entries were made: at most those of
 * dgn_look_up_with_deleted and one for each entry of the name. Judges once and goes over the sizes once; 16 KiB of stack. Refusals:
 * 1 (also a used length that is not a multiple of 8, or beyond the buffer), the file's own, 12 for the text at 0, 13 with
 * DGN_COUNT(r) the looks, or 524288 where there were more. */
enum { DGN_LOOK_UP_PLACE, DGN_LOOK_UP_LOOKS };
#define DGN_LOOK_UP_NUMBERS 2
size_t dgn_look_up(const uint8_t *file, size_t len, size_t dimension, const uint8_t *index, size_t index_len, size_t used, const uint8_t *text, size_t text_len, size_t *out, size_t out_len);

/* The lowest place of a cell with the name, be it live or deleted, by the first `used` bytes of an index. No file is read. out
 * needs 2: the place, and how many looks at entries were made, at most one more than the binary digits of the number of
 * entries. Over the index of a file the place is that of dgn_find_with_deleted. Any bytes may be handed in: the answer is then the
 * place that stands where the search by halving ends. Refusals: 1 (a used length that is not a multiple of 8, or beyond the
 * buffer), 12 for the text at 0, 13 with DGN_COUNT(r) the looks. */
size_t dgn_look_up_with_deleted(const uint8_t *index, size_t index_len, size_t used, const uint8_t *text, size_t text_len, size_t *out, size_t out_len);

/* ---- writing ---- */

/* The fields of an element to write: the range in signed coordinates, all others as stored. */
enum dgn_write_index {
    DGN_WRITE_TYPE = 0,           /* 3, 4, 6 or 11; of dgn_write_text 17 */
    DGN_WRITE_LEVEL = 1,          /* to 63 */
    DGN_WRITE_COMPONENT = 2,      /* C: 1 for one that is to stand beneath a header, else 0 */
    DGN_WRITE_DELETED = 3,        /* 0 or 1 */
    DGN_WRITE_LOW_X = 4,          /* these six from -2147483648 to 2147483647 */
    DGN_WRITE_LOW_Y = 5,
    DGN_WRITE_LOW_Z = 6,
    DGN_WRITE_HIGH_X = 7,
    DGN_WRITE_HIGH_Y = 8,
    DGN_WRITE_HIGH_Z = 9,
    DGN_WRITE_GROUP = 10,         /* these three to 65535 */
    DGN_WRITE_ATTRIBUTE_INDEX = 11, /* where linkages begin, counted from word 16 */
    DGN_WRITE_PROPERTIES = 12,    /* with DGN_HAS_ATTRIBUTES where the tail has linkages */
    DGN_WRITE_STYLE = 13,         /* to 7 */
    DGN_WRITE_WEIGHT = 14,        /* to 31 */
    DGN_WRITE_COLOUR = 15         /* to 255 */
};
#define DGN_WRITE_FIELDS 16

/* Writes an element of type 3, 4, 6 or 11 to the front of `buffer`, whose bytes behind it stay. out needs 1: how many
 * words were written. Size and number of points follow from the rest.
 *   fields  the 16 numbers above
 *   points  all coordinates, one point after another
 *   tail    all words after the fixed part, as bytes; the fixed part of a line has 26 words (3D: 30), that of the
 *           others 19 and two for each coordinate
 * Refusals, in this order, each at place 0: 1 (also fields of another number than 16 or out of their ranges, another type, not
 * two points for type 3, not a whole number of points, an odd tail), 7 (points not 2 to 101), 8 (above 65,535 words), 11, 15. */
size_t dgn_write(const int64_t *fields, size_t fields_len, const int32_t *points, size_t points_len, const uint8_t *tail, size_t tail_len, size_t dimension, uint8_t *buffer, size_t buffer_len, size_t *out, size_t out_len);

/* The numbers of a text to write. Multipliers and turn are unsigned longs, the origin signed ones. */
enum dgn_write_text_index {
    DGN_WRITE_TEXT_FONT = 0,      /* to 255 */
    DGN_WRITE_TEXT_JUSTIFICATION = 1, /* to 255 */
    DGN_WRITE_TEXT_LENGTH = 2,    /* length multiplier */
    DGN_WRITE_TEXT_HEIGHT = 3,    /* height multiplier */
    DGN_WRITE_TEXT_TURN = 4,      /* 2D: the rotation, then three zeros; 3D: the four longs of the quaternion */
    DGN_WRITE_TEXT_X = 8,
    DGN_WRITE_TEXT_Y = 9,
    DGN_WRITE_TEXT_Z = 10,        /* 0 in 2D */
    DGN_WRITE_TEXT_ODD = 11       /* the byte behind characters and fields where they have an odd number of bytes; else -1 or 0 */
};
#define DGN_WRITE_TEXT_NUMBERS 12

/* Writes a text to the front of `buffer`, whose bytes behind it stay. out needs 1: how many words were written. Size and
 * counts follow from the rest.
 *   fields      the 16 numbers of dgn_write
 *   text        the 12 numbers above
 *   characters  0 to 255 bytes of any value
 *   triples     the enter-data fields, 0 to 255, three bytes each: first character, counted from 1, how many, and the
 *               justification 0, 1, or 255 for -1
 *   tail        all words after the fixed part, as bytes; that has 30 words (3D: 38) and half the bytes of characters and
 *               triples, rounded up
 * Refusals, in this order, each at place 0: 1 (also lists of other lengths, a number out of its range, another type than 17,
 * in 2D a z or one of the last three longs of the turn other than 0, an odd byte where there is none, an odd tail), 20, 8
 * (above 65,535 words), 11, 15. */
size_t dgn_write_text(const int64_t *fields, size_t fields_len, const int64_t *text, size_t text_len, const uint8_t *characters, size_t characters_len, const uint8_t *triples, size_t triples_len, const uint8_t *tail, size_t tail_len, size_t dimension, uint8_t *buffer, size_t buffer_len, size_t *out, size_t out_len);

/* ---- editing (dgn_session.h has the same calls, with an index or without, with the buffers and used lengths in a struct) ----
 *
 * A session is two buffers, each with a used length in bytes that the caller keeps: the first `used` bytes of `file`
 * are the file through its end marker, the first `jused` bytes of `journal` the records of the edits made, none at
 * first. Buffers and used lengths are even, and a buffer has at most DGN_FILE_BYTES. out needs 2. Of a file that may be
 * longer than its end marker dgn_judge gives the marker's place, and `used` is 2 * place + 2.
 *
 * A call that is made gives the new used lengths of file and journal in bytes: hand them to the next call. An edit
 * writes its record behind the journal's used bytes. Insert and remove move the rest of the file and correct the total
 * of every header around the place and the direct header's count; bytes freed at the file's end become 0. All other
 * bytes stay. After a refusal all bytes and both used lengths are as they were.
 *
 * That every edit can be undone, byte for byte, holds for one pair of buffers and one dimension from the first call on;
 * longer buffers begin a new session. Nothing in a journal names its file: DGN_BAD_JOURNAL says that the last record is
 * ill-formed or that its reversal is not allowed in this file, and it can see no more. The journal of another file, or
 * of another state of this one, is obeyed where its last record fits by chance, and the file is then changed. The caller
 * keeps file and journal together, and saves both or none.
 *
 * A record is its payload, then six words: kind (1 mark, 2 rename, 3 insert, 4 remove), the header's place (-1 for the
 * top and for kinds 1 and 2) and the place, each two words with the high one first, and the number of payload words.
 * The payload is for a mark the deleted flags that its elements had, sixteen to a word, the first in bit 0, for a rename the
 * two old words of the name, for a remove the words removed, for an insert none.
 *
 * Refusals of each call, in this order: 1 (also a used length beyond its buffer, a used file whose last word is not
 * 65535), the file's own, 1 where the end marker stands before the last used word, then those named below. */

enum { DGN_EDIT_USED, DGN_EDIT_JOURNAL_USED };
#define DGN_EDIT_NUMBERS 2

/* The top of the file, for a header's place. */
#define DGN_TOP ((size_t)-1)

/* Marks the element at `place` with all beneath it: deleted 1 sets their deleted flags, 0 clears them, and another number is
 * 1. One undo brings back the flags that they had. Then 13, 14 where the flag of the named element is already so, 16. */
size_t dgn_mark(uint8_t *file, size_t file_len, size_t used, uint8_t *journal, size_t journal_len, size_t jused, size_t dimension, size_t place, size_t deleted, size_t *out, size_t out_len);

/* Renames the type 1 or 2 cell at `place`; for the text see dgn_pack. Then 13, 18, 12 at 0 for the text, 16. */
size_t dgn_rename(uint8_t *file, size_t file_len, size_t used, uint8_t *journal, size_t journal_len, size_t jused, size_t dimension, size_t place, const uint8_t *text, size_t text_len, size_t *out, size_t out_len);

/* Inserts a piece, one element with all beneath it, beneath the header at `header` or at DGN_TOP, at a place where a
 * direct component starts or the list ends: at the end of the header's extent, at the top before the end marker. A
 * piece of odd length or above DGN_FILE_BYTES is 1. Then 13 (also where `header` is none), the piece's own, 3 for words
 * left over at the first of them, 8 at the outermost header that would grow too large, 15, 16. */
size_t dgn_insert(uint8_t *file, size_t file_len, size_t used, uint8_t *journal, size_t journal_len, size_t jused, size_t dimension, size_t header, size_t place, const uint8_t *piece, size_t piece_len, size_t *out, size_t out_len);

/* Removes the element at `place` with all beneath it. Then 13, 16. */
size_t dgn_remove(uint8_t *file, size_t file_len, size_t used, uint8_t *journal, size_t journal_len, size_t jused, size_t dimension, size_t place, size_t *out, size_t out_len);

/* Undoes the last edit not undone: reverses the journal's last record and takes it off. The journal's bytes stay, only
 * its used length falls. Then 17, 19, 15. */
size_t dgn_undo(uint8_t *file, size_t file_len, size_t used, const uint8_t *journal, size_t journal_len, size_t jused, size_t dimension, size_t *out, size_t out_len);

/* ---- the same with an index: a third buffer, of any length, whose first `iused` bytes are the index ----
 *
 * Each does what the one above does, with the same refusals, and after a call that is made the index is that of the file now, with
 * zeros to its end, whatever bytes were lent. out needs 3: the used lengths of file, journal and index. A used length of the
 * index that is not a multiple of 8 or is beyond its buffer is 1. Where the index of the file after the call does not fit it is 15,
 * before 16 and before anything changes: DGN_INDEX_ROOM of the file's buffer is enough for any edit. A refusal changes no byte of the
 * index either. The index is built anew by each call: one more pass over the sizes for each of counting and listing, and a sort. */

enum { DGN_INDEXED_USED, DGN_INDEXED_JOURNAL_USED, DGN_INDEXED_INDEX_USED };
#define DGN_INDEXED_NUMBERS 3
size_t dgn_mark_indexed(uint8_t *file, size_t file_len, size_t used, uint8_t *journal, size_t journal_len, size_t jused, uint8_t *index, size_t index_len, size_t iused, size_t dimension, size_t place, size_t deleted, size_t *out, size_t out_len);
size_t dgn_rename_indexed(uint8_t *file, size_t file_len, size_t used, uint8_t *journal, size_t journal_len, size_t jused, uint8_t *index, size_t index_len, size_t iused, size_t dimension, size_t place, const uint8_t *text, size_t text_len, size_t *out, size_t out_len);
size_t dgn_insert_indexed(uint8_t *file, size_t file_len, size_t used, uint8_t *journal, size_t journal_len, size_t jused, uint8_t *index, size_t index_len, size_t iused, size_t dimension, size_t header, size_t place, const uint8_t *piece, size_t piece_len, size_t *out, size_t out_len);
size_t dgn_remove_indexed(uint8_t *file, size_t file_len, size_t used, uint8_t *journal, size_t journal_len, size_t jused, uint8_t *index, size_t index_len, size_t iused, size_t dimension, size_t place, size_t *out, size_t out_len);
size_t dgn_undo_indexed(uint8_t *file, size_t file_len, size_t used, const uint8_t *journal, size_t journal_len, size_t jused, uint8_t *index, size_t index_len, size_t iused, size_t dimension, size_t *out, size_t out_len);

/* ---- the records of a journal ---- */

/* The last record of a journal, without its file. out needs 5: kind, the header's place (DGN_TOP for -1), the place,
 * how many payload words, and the used length before the record, where its payload begins: with that as `jused` the next
 * call gives the record before it, so that a host can show what was done, the newest first. Refusals: 1 (journal or its
 * used length), 17, 19 where the record is ill-formed (whether it may be reversed is not asked). */
enum { DGN_RECORD_KIND, DGN_RECORD_HEADER, DGN_RECORD_PLACE, DGN_RECORD_PAYLOAD, DGN_RECORD_BEFORE };
#define DGN_RECORD_NUMBERS 5
enum dgn_record_kind { DGN_MARK = 1, DGN_RENAME = 2, DGN_INSERT = 3, DGN_REMOVE = 4 };
size_t dgn_record(const uint8_t *journal, size_t journal_len, size_t jused, size_t *out, size_t out_len);

/* ---- stored journals: a journal that is kept on a disk, in blocks that each have a check ----
 *
 * A block is 512 bytes: 508 of the journal, a word that says how many of them are used, even and not 0, and a word by which
 * the block's 256 words, added in 16 bits, give 0. Only the last block may be part full, and its other bytes are 0. An empty
 * journal is no block. Both functions write to the front of a buffer of any length, whose bytes behind that stay. out needs 1:
 * how many bytes were written. Each undoes the other on what it accepts, with room enough.
 *
 * Always seen: one changed word in a block, an end inside a block, anything behind a block that is part full, such a block moved
 * forward, a journal that becomes longer than DGN_FILE_BYTES. Not seen: full blocks that are missing, in another order, replaced
 * by other good ones, or doubled where the journal does not become too long; and blocks missing at the end, even all of them,
 * which is an empty journal. Two changed words of a block may not be seen. A length kept beside the journal shows blocks that
 * are missing or doubled, and no other damage of these. */

#define DGN_BLOCK_BYTES 512
#define DGN_BLOCK_JOURNAL 508
#define DGN_STORED_BYTES 1057280

/* A journal to blocks: `journal` is the used bytes of a session's journal, whose records are not looked at. Refusals, in this
 * order: 1 (odd, above DGN_FILE_BYTES), 15 where the buffer has fewer than 512 bytes for each 508 bytes of the journal, the last
 * ones, if fewer, counted whole. */
size_t dgn_journal_to_blocks(const uint8_t *journal, size_t journal_len, uint8_t *buffer, size_t buffer_len, size_t *out, size_t out_len);

/* Blocks to the journal. Refusals, in this order: 1 (odd, above DGN_STORED_BYTES), 22 with DGN_PLACE(r) the number of the
 * first bad block, from 0 (its check, its count, also one that makes more than DGN_FILE_BYTES of journal, its rest, or a short
 * end), 15. */
size_t dgn_journal_from_blocks(const uint8_t *stored, size_t stored_len, uint8_t *journal, size_t journal_len, size_t *out, size_t out_len);

#ifdef __cplusplus
}
#endif
#endif
