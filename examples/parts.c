/* Lists the elements of a 2D file, each part (a cell) with its code and what is drawn with its points; then renames a part
 * in a session and saves the file:
 *   parts FILE CODE NEW SAVED     (SAVED is another file)
 * Status: 0 done, 1 refused, 2 wrongly called, 3 a file cannot be read or written.
 */
#include <stdio.h>
#include <stdlib.h>

#include "dgn_session.h"

static uint8_t file[DGN_FILE_BYTES + 2], journal[4096]; /* a longer file is then refused with 1 */
static int64_t views[DGN_FILE_ELEMENTS * DGN_VIEW_NUMBERS], points[DGN_FILE_NUMBERS]; /* enough for any file */

static void check(size_t r, const char *what)
{
    if (r == 0) return;
    fprintf(stderr, "%s: %s at %zu: %s\n", what, dgn_refusal_name(r), DGN_PLACE(r), dgn_refusal_text(r));
    exit(1);
}

/* all views by one call and all points by one, both in file order */
static void list(size_t len)
{
    size_t n, got[DGN_POINTS_NUMBERS];
    check(dgn_views(file, len, 2, 0, views, sizeof views / sizeof *views, &n, 1), "views");
    check(dgn_points(file, len, 2, 0, points, DGN_FILE_NUMBERS, got, DGN_POINTS_NUMBERS), "points");
    const int64_t *p = points, *last = points + got[DGN_POINTS_WRITTEN];
    for (const int64_t *v = views; v < views + n * DGN_VIEW_NUMBERS; v += DGN_VIEW_NUMBERS) {
        uint8_t code[DGN_TEXT_BYTES] = "";
        if (v[DGN_VIEW_HAS_NAME]) check(dgn_unpack(v[DGN_VIEW_NAME], v[DGN_VIEW_NAME_2], code, sizeof code), "name");
        printf("%*s%d: type %d", 2 * (int)v[DGN_VIEW_DEPTH], "", (int)v[DGN_VIEW_PLACE], (int)v[DGN_VIEW_TYPE]);
        if (v[DGN_VIEW_HAS_NAME]) printf(" %s", (char *)code);
        if (p < last && p[0] == v[DGN_VIEW_PLACE]) {
            const int64_t *end = p + 2 + 2 * p[1];
            for (p += 2; p < end; p += 2) printf(" (%d, %d)", (int)p[0], (int)p[1]);
        }
        putchar('\n');
    }
}

int main(int argc, char **argv)
{
    struct dgn_session s;
    size_t found[DGN_FIND_NUMBERS];
    if (argc != 5 || strcmp(argv[1], argv[4]) == 0) return fputs("parts FILE CODE NEW SAVED\n", stderr), 2;
    FILE *in = fopen(argv[1], "rb");
    size_t len = in == NULL ? 0 : fread(file, 1, sizeof file, in);
    if (in == NULL || ferror(in) || fclose(in) != 0) return perror(argv[1]), 3;
    list(len);
    s.file = file, s.file_len = DGN_FILE_BYTES, s.journal = journal, s.journal_len = sizeof journal, s.index = NULL, s.dimension = 2;
    check(dgn_session_open(&s, len), argv[1]);
    check(dgn_find(file, s.used, 2, (const uint8_t *)argv[2], strlen(argv[2]), found, DGN_FIND_NUMBERS), argv[2]);
    check(dgn_session_rename(&s, found[DGN_FIND_PLACE], argv[3]), argv[3]);
    FILE *out = fopen(argv[4], "wb");
    if (out == NULL || fwrite(file, 1, s.used, out) != s.used || fclose(out) != 0) return perror(argv[4]), 3;
    printf("%s is now %s\n", argv[2], argv[3]);
    return ferror(stdout) || fflush(stdout) != 0 ? (perror("standard output"), 3) : 0;
}
