/* A small session in memory: a 2D cell with one line is edited, what was done is shown, the journal goes to blocks for a disk and
 * comes back, then all is undone. Then the same cell with an index, in which cells are looked up between the edits. Every answer is
 * held to the one that is due. Status: 0 all as due, 1 another answer of an edit or undo, 2 what is to be edited cannot be
 * made, 3 a record of the journal cannot be read, 4 other bytes than at the start, 5 standard output cannot be written.
 */
#include <stdio.h>
#include <stdlib.h>
#include <string.h>

#include "dgn_session.h"

static uint8_t file[500], journal[400];
static struct dgn_session s;

/* ends with a status where the answer of a call is not the one that is due */
static void hold(const char *what, size_t r, size_t due, int status)
{
    if (DGN_NUMBER(r) == due)
        return;
    fprintf(stderr, "session: %s: %zu %s at %zu: %s\n", what, DGN_NUMBER(r), dgn_refusal_name(r), DGN_PLACE(r), dgn_refusal_text(r));
    exit(status);
}

/* the answer of a call, and the session after it */
static void show(const char *what, size_t r, size_t due)
{
    hold(what, r, due, 1);
    if (r == 0)
        printf("%s: made", what);
    else
        printf("%s: refused %zu %s at %zu", what, DGN_NUMBER(r), dgn_refusal_name(r), DGN_PLACE(r));
    printf(", %zu bytes used, %zu of the journal\n", s.used, s.jused);
}

/* a 2D line of 26 words from (x, 0) to (x, 100); component is 1 for one beneath a header */
static void make_line(uint8_t *line, int32_t x, size_t component)
{
    int64_t fields[DGN_WRITE_FIELDS] = {0};
    size_t out[1];
    const int32_t points[4] = {x, 0, x, 100};
    fields[DGN_WRITE_TYPE] = DGN_LINE;
    fields[DGN_WRITE_LEVEL] = 1;
    fields[DGN_WRITE_COMPONENT] = (int64_t)component;
    fields[DGN_WRITE_LOW_X] = fields[DGN_WRITE_HIGH_X] = x;
    fields[DGN_WRITE_HIGH_Y] = 100;
    hold("write a line", dgn_write(fields, DGN_WRITE_FIELDS, points, 4, NULL, 0, 2, line, 52, out, 1), DGN_DONE, 2);
}

static void put(size_t place, size_t word)
{
    file[2 * place] = word & 255;
    file[2 * place + 1] = word >> 8 & 255;
}

/* the edits that the journal holds, the newest first */
static void history(void)
{
    static const char *const kinds[] = {"", "mark", "rename", "insert", "remove"};
    size_t r, jused = s.jused, record[DGN_RECORD_NUMBERS];
    while ((r = dgn_record(journal, sizeof journal, jused, record, DGN_RECORD_NUMBERS)) == 0) {
        printf("%s at %zu", kinds[record[DGN_RECORD_KIND]], record[DGN_RECORD_PLACE]);
        if (record[DGN_RECORD_KIND] >= DGN_INSERT && record[DGN_RECORD_HEADER] != DGN_TOP)
            printf(" beneath %zu", record[DGN_RECORD_HEADER]);
        printf(", kept words: %zu\n", record[DGN_RECORD_PAYLOAD]);
        jused = record[DGN_RECORD_BEFORE];
    }
    hold("the record before", r, DGN_NOTHING, 3);
}

/* the journal in blocks, where a changed byte is seen, and taken back from them */
static void rest(void)
{
    uint8_t blocks[DGN_BLOCK_BYTES];
    size_t out[1], r;
    hold("to blocks", dgn_journal_to_blocks(journal, s.jused, blocks, sizeof blocks, out, 1), DGN_DONE, 1);
    printf("the journal in blocks: %zu bytes\n", out[0]);
    blocks[100] ^= 4;
    r = dgn_journal_from_blocks(blocks, sizeof blocks, journal, sizeof journal, out, 1);
    hold("a damaged block", r, DGN_BLOCK, 1);
    printf("with a byte changed: refused %zu %s at %zu\n", DGN_NUMBER(r), dgn_refusal_name(r), DGN_PLACE(r));
    blocks[100] ^= 4;
    memset(journal, 0, sizeof journal);
    hold("from blocks", dgn_journal_from_blocks(blocks, sizeof blocks, journal, sizeof journal, out, 1), DGN_DONE, 1);
    s.jused = out[0];
    printf("taken back: %zu bytes\n", s.jused);
}

/* where the index has a cell of the name */
static void look_up(const char *name, size_t due)
{
    size_t found[DGN_LOOK_UP_NUMBERS], r = dgn_session_look_up(&s, name, found, DGN_LOOK_UP_NUMBERS);
    hold("look up", r, due, 1);
    if (r == 0)
        printf("%s: at %zu, looks: %zu\n", name, found[DGN_LOOK_UP_PLACE], found[DGN_LOOK_UP_LOOKS]);
    else
        printf("%s: not there, looks: %zu\n", name, DGN_COUNT(r));
}

/* a session with an index that has room for two cells; every edit and undo leaves in it the index of the file as it then is */
static void indexed(const uint8_t *cell)
{
    static uint8_t entries[2 * DGN_ENTRY_BYTES];
    s.index = entries;
    s.index_len = sizeof entries;
    show("build the index", dgn_session_index(&s), DGN_DONE);
    look_up("00417", DGN_DONE);
    show("rename the cell", dgn_session_rename(&s, 0, "417"), DGN_DONE);
    look_up("00417", DGN_NO_SUCH);
    show("insert a cell at the front", dgn_session_insert(&s, DGN_TOP, 0, cell, 144), DGN_DONE);
    look_up("00417", DGN_DONE);
    look_up("417", DGN_DONE);
    show("insert a third", dgn_session_insert(&s, DGN_TOP, 0, cell, 144), DGN_ROOM);
    show("mark the first deleted", dgn_session_mark(&s, 0, 1), DGN_DONE);
    show("remove it", dgn_session_remove(&s, 0), DGN_DONE);
    while (s.jused > 0)
        show("undo", dgn_session_undo(&s), DGN_DONE);
    look_up("00417", DGN_DONE);
    printf("the index has %zu bytes\n", s.iused);
}

/* ends where the file is not as it was */
static void hold_bytes(const uint8_t *original)
{
    if (memcmp(file, original, sizeof file) != 0) {
        fprintf(stderr, "session: the bytes are not the original's\n");
        exit(4);
    }
    printf("the bytes are the original's\n");
}

int main(void)
{
    uint8_t line[52], original[sizeof file];
    size_t name[DGN_NAME_NUMBERS];

    /* a cell of 46 words named 00417, its line, and the end marker */
    put(0, DGN_CELL << 8);
    put(1, 44);
    put(18, 53);
    hold("pack a name", dgn_pack((const uint8_t *)"00417", 5, name, DGN_NAME_NUMBERS), DGN_DONE, 2);
    put(19, name[0]);
    put(20, name[1]);
    make_line(line, 7, 1);
    memcpy(file + 2 * 46, line, sizeof line);
    put(72, DGN_END_MARKER);
    memcpy(original, file, sizeof file);

    s.file = file;
    s.file_len = sizeof file;
    s.journal = journal;
    s.journal_len = sizeof journal;
    s.index = NULL;
    s.dimension = 2;
    show("open", dgn_session_open(&s, sizeof file), DGN_DONE);
    show("mark the line deleted", dgn_session_mark(&s, 46, 1), DGN_DONE);
    show("mark it again", dgn_session_mark(&s, 46, 1), DGN_ALREADY);
    show("rename the cell", dgn_session_rename(&s, 0, "417"), DGN_DONE);
    make_line(line, 8, 1);
    show("insert a line at the cell's end", dgn_session_insert(&s, 0, 72, line, sizeof line), DGN_DONE);
    make_line(line, 9, 0);
    show("insert a line at the top", dgn_session_insert(&s, DGN_TOP, 0, line, sizeof line), DGN_DONE);
    show("remove the cell", dgn_session_remove(&s, 26), DGN_DONE);
    history();
    rest();
    while (s.jused > 0)
        show("undo", dgn_session_undo(&s), DGN_DONE);
    show("undo", dgn_session_undo(&s), DGN_NOTHING);
    hold_bytes(original);
    indexed(original);
    hold_bytes(original);
    if (ferror(stdout) || fflush(stdout) != 0) {
        perror("session: standard output");
        return 5;
    }
    return 0;
}
