/* The plates of a catalogue: of each live cell of a file, in file order, a line with its place, how many live components stand directly
 * in it (lines; line strings, shapes, curves and poles; texts; ellipses and arcs; headers; others), how many levels it has, and its code:
 *   plates FILE [2|3]     (the dimension; 2 where none is given)
 * Of a 2D file of at most 65,536 bytes it prints what the program platelist prints; it takes all files that the library takes. A file
 * that is refused gives REFUSED, number and place, and on standard error what that means.
 * Status: 0 printed, 1 refused, 2 wrongly called, 3 the file cannot be read, 4 standard output cannot be written.
 */
#include <stdio.h>
#include <string.h>

#include "dgn.h"

static uint8_t file[DGN_FILE_BYTES + 2]; /* a longer file is then refused with 1 */
static int64_t plates[DGN_FILE_CELLS * DGN_PLATES_NUMBERS]; /* enough for any file */

/* the status of a program that has printed all, or 4 */
static int ended(int status)
{
    if (!ferror(stdout) && fflush(stdout) == 0)
        return status;
    perror("plates: standard output");
    return 4;
}

static int refused(size_t r)
{
    printf("REFUSED %zu %zu\n", DGN_NUMBER(r), DGN_PLACE(r));
    fprintf(stderr, "plates: %s: %s\n", dgn_refusal_name(r), dgn_refusal_text(r));
    return ended(1);
}

/* prints a plate; the refusal of its name, which no plate of the library gives */
static size_t print(int64_t place, const int64_t *plate)
{
    uint8_t code[DGN_TEXT_BYTES];
    size_t r = dgn_unpack((size_t)plate[DGN_PLATE_NAME], (size_t)plate[DGN_PLATE_NAME_2], code, sizeof code);
    if (r != 0)
        return r;
    printf("%d", (int)place);
    for (int k = DGN_PLATE_LINES; k <= DGN_PLATE_LEVELS; k++)
        printf(" %d", (int)plate[k]);
    if (code[0] != 0)
        printf(" %s", (const char *)code);
    putchar('\n');
    return 0;
}

int main(int argc, char **argv)
{
    if (argc < 2 || argc > 3 || (argc == 3 && strcmp(argv[2], "2") != 0 && strcmp(argv[2], "3") != 0)) {
        fprintf(stderr, "usage: plates FILE [2|3]\n");
        return 2;
    }
    const size_t dimension = argc == 3 && argv[2][0] == '3' ? 3 : 2;
    FILE *in = fopen(argv[1], "rb");
    size_t len = in == NULL ? 0 : fread(file, 1, sizeof file, in);
    if (in == NULL || ferror(in) || fclose(in) != 0) {
        perror(argv[1]);
        return 3;
    }

    size_t got[2];
    size_t r = dgn_plates(file, len, dimension, 0, plates, DGN_FILE_CELLS * DGN_PLATES_NUMBERS, got, 2);
    if (r != 0)
        return refused(r);
    const int64_t *end = plates + got[DGN_PLATES_COUNT] * DGN_PLATES_NUMBERS;
    for (const int64_t *p = plates; p < end; p += DGN_PLATES_NUMBERS) {
        if (p[DGN_PLATES_DELETED])
            continue;
        r = print(p[DGN_PLATES_PLACE], p + DGN_PLATES_PLATE);
        if (r != 0)
            return refused(r);
    }
    return ended(0);
}
