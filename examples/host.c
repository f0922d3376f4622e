/* A small host: judges a 2D file, finds a part code and prints its extent.
 *   host FILE CODE
 * Status: 0 found, 1 refused or not there, 2 wrongly called, 3 the file cannot be read or standard output not written.
 */
#include <stdio.h>
#include <string.h>

#include "dgn.h"

static uint8_t file[DGN_FILE_BYTES + 2]; /* a longer file is then refused with 1 */

/* the status of a program that has printed all, or 3 */
static int ended(int status)
{
    if (!ferror(stdout) && fflush(stdout) == 0)
        return status;
    perror("host: standard output");
    return 3;
}

/* says what was refused */
static int refused(const char *what, size_t r)
{
    printf("%s: refused %zu %s at %zu: %s\n", what, DGN_NUMBER(r), dgn_refusal_name(r), DGN_PLACE(r), dgn_refusal_text(r));
    return ended(1);
}

int main(int argc, char **argv)
{
    if (argc != 3) {
        fprintf(stderr, "usage: host FILE CODE\n");
        return 2;
    }
    FILE *in = fopen(argv[1], "rb");
    size_t len = in == NULL ? 0 : fread(file, 1, sizeof file, in);
    if (in == NULL || ferror(in) || fclose(in) != 0) {
        perror(argv[1]);
        return 3;
    }

    size_t judged[DGN_JUDGE_NUMBERS];
    size_t r = dgn_judge(file, len, 2, judged, DGN_JUDGE_NUMBERS);
    if (r != 0)
        return refused("the file", r);
    printf("accepted: %zu elements, depth %zu, end marker at %zu\n", judged[DGN_JUDGE_ELEMENTS], judged[DGN_JUDGE_DEPTH], judged[DGN_JUDGE_MARKER]);

    size_t found[DGN_FIND_NUMBERS];
    r = dgn_find(file, len, 2, (const uint8_t *)argv[2], strlen(argv[2]), found, DGN_FIND_NUMBERS);
    if (DGN_NUMBER(r) == DGN_NO_SUCH) {
        printf("%s: no live part among %zu elements\n", argv[2], DGN_COUNT(r));
        return ended(1);
    }
    if (r != 0)
        return refused(argv[2], r);
    size_t extent[DGN_EXTENT_NUMBERS];
    r = dgn_extent(file, len, 2, found[DGN_FIND_PLACE], extent, DGN_EXTENT_NUMBERS);
    if (r != 0)
        return refused("extent", r);
    printf("%s: place %zu, looked at %zu, words %zu to %zu\n", argv[2], found[DGN_FIND_PLACE], found[DGN_FIND_LOOKED], extent[DGN_EXTENT_FIRST], extent[DGN_EXTENT_END]);
    return ended(0);
}
