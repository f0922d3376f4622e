/* dgn_session.h: the calls of dgn.h that edit, over a struct that holds the buffers and keeps the used lengths.
 *
 * Set all fields but the used lengths, each by its name, then open the session:
 *   struct dgn_session s;
 *   s.file = bytes;        s.file_len = sizeof bytes;
 *   s.journal = records;   s.journal_len = sizeof records;
 *   s.index = NULL;
 *   s.dimension = 2;
 *   r = dgn_session_open(&s, read);
 * Each function returns what that of dgn.h returns, and a refusal changes neither buffers nor struct. Of a session that
 * is saved, the file is the first s.used bytes and the journal the first s.jused: keep both together.
 *
 * With an index, which every edit and undo then keeps the one of the file:
 *   s.index = entries;     s.index_len = sizeof entries;
 *   r = dgn_session_open(&s, read);
 *   r = dgn_session_index(&s);
 */
#ifndef DGN_SESSION_H
#define DGN_SESSION_H

#include <string.h>

#include "dgn.h"

struct dgn_session {
    uint8_t *file;
    size_t file_len; /* bytes of the buffer: room for the file to grow */
    size_t used;     /* bytes of the file through its end marker */
    uint8_t *journal;
    size_t journal_len;
    size_t jused;     /* bytes of the journal's records */
    uint8_t *index;   /* NULL: the session has no index; a buffer of no bytes that is one has another pointer */
    size_t index_len; /* of any length; DGN_INDEX_ROOM(file_len) is enough */
    size_t iused;     /* bytes of the index's entries */
    size_t dimension;
};

/* Whether a buffer of so many bytes can be a session's. */
static inline int dgn_session_fits(size_t len)
{
    return len % 2 == 0 && len <= DGN_FILE_BYTES;
}

/* Judges the first `read` bytes of the file's buffer, those that were read, and opens a session on them with an empty
 * journal. Words behind the end marker are left out of the file; edits may write over them. For a session that was
 * saved set s->jused afterwards to the length of its journal. Refusals: 1 (dimension, a buffer, more bytes than the
 * buffer has), the file's own. */
static inline size_t dgn_session_open(struct dgn_session *s, size_t read)
{
    size_t out[DGN_JUDGE_NUMBERS];
    size_t r;
    if (!dgn_session_fits(s->file_len) || !dgn_session_fits(s->journal_len) || read > s->file_len)
        return DGN_CALL;
    r = dgn_judge(s->file, read, s->dimension, out, DGN_JUDGE_NUMBERS);
    if (r == 0) {
        s->used = 2 * out[DGN_JUDGE_MARKER] + 2;
        s->jused = 0;
    }
    return r;
}

/* dgn_index of the session's file, in its index's buffer, which may not be NULL. For a session that is opened, before its first edit;
 * later for one whose index was not kept. Refusals: as dgn_index. */
static inline size_t dgn_session_index(struct dgn_session *s)
{
    size_t out[DGN_INDEX_NUMBERS];
    size_t r = dgn_index(s->file, s->used, s->dimension, s->index, s->index_len, out, DGN_INDEX_NUMBERS);
    if (r == 0)
        s->iused = out[0];
    return r;
}

/* dgn_look_up in the session's index, by its file: the name is a string, and out needs 2. */
static inline size_t dgn_session_look_up(const struct dgn_session *s, const char *name, size_t *out, size_t out_len)
{
    return dgn_look_up(s->file, s->used, s->dimension, s->index, s->index_len, s->iused, (const uint8_t *)name, strlen(name), out, out_len);
}

/* dgn_look_up_with_deleted in the session's index alone. */
static inline size_t dgn_session_look_up_with_deleted(const struct dgn_session *s, const char *name, size_t *out, size_t out_len)
{
    return dgn_look_up_with_deleted(s->index, s->index_len, s->iused, (const uint8_t *)name, strlen(name), out, out_len);
}

/* Keeps the used lengths of a call that is made. */
static inline size_t dgn_session_keep(struct dgn_session *s, size_t r, const size_t *out)
{
    if (r == 0) {
        s->used = out[DGN_EDIT_USED];
        s->jused = out[DGN_EDIT_JOURNAL_USED];
        if (s->index)
            s->iused = out[DGN_INDEXED_INDEX_USED];
    }
    return r;
}

/* dgn_mark: deleted is 1 or 0. All beneath the element goes with it, and one undo brings back what was. */
static inline size_t dgn_session_mark(struct dgn_session *s, size_t place, size_t deleted)
{
    size_t out[DGN_INDEXED_NUMBERS], r;
    if (s->index)
        r = dgn_mark_indexed(s->file, s->file_len, s->used, s->journal, s->journal_len, s->jused, s->index, s->index_len, s->iused, s->dimension, place, deleted, out, DGN_INDEXED_NUMBERS);
    else
        r = dgn_mark(s->file, s->file_len, s->used, s->journal, s->journal_len, s->jused, s->dimension, place, deleted, out, DGN_EDIT_NUMBERS);
    return dgn_session_keep(s, r, out);
}

/* dgn_rename: the name is a string. */
static inline size_t dgn_session_rename(struct dgn_session *s, size_t place, const char *name)
{
    const uint8_t *text = (const uint8_t *)name;
    size_t out[DGN_INDEXED_NUMBERS], r;
    if (s->index)
        r = dgn_rename_indexed(s->file, s->file_len, s->used, s->journal, s->journal_len, s->jused, s->index, s->index_len, s->iused, s->dimension, place, text, strlen(name), out, DGN_INDEXED_NUMBERS);
    else
        r = dgn_rename(s->file, s->file_len, s->used, s->journal, s->journal_len, s->jused, s->dimension, place, text, strlen(name), out, DGN_EDIT_NUMBERS);
    return dgn_session_keep(s, r, out);
}

/* dgn_insert: beneath the header at a place, or DGN_TOP. */
static inline size_t dgn_session_insert(struct dgn_session *s, size_t header, size_t place, const uint8_t *piece, size_t piece_len)
{
    size_t out[DGN_INDEXED_NUMBERS], r;
    if (s->index)
        r = dgn_insert_indexed(s->file, s->file_len, s->used, s->journal, s->journal_len, s->jused, s->index, s->index_len, s->iused, s->dimension, header, place, piece, piece_len, out, DGN_INDEXED_NUMBERS);
    else
        r = dgn_insert(s->file, s->file_len, s->used, s->journal, s->journal_len, s->jused, s->dimension, header, place, piece, piece_len, out, DGN_EDIT_NUMBERS);
    return dgn_session_keep(s, r, out);
}

/* dgn_remove. */
static inline size_t dgn_session_remove(struct dgn_session *s, size_t place)
{
    size_t out[DGN_INDEXED_NUMBERS], r;
    if (s->index)
        r = dgn_remove_indexed(s->file, s->file_len, s->used, s->journal, s->journal_len, s->jused, s->index, s->index_len, s->iused, s->dimension, place, out, DGN_INDEXED_NUMBERS);
    else
        r = dgn_remove(s->file, s->file_len, s->used, s->journal, s->journal_len, s->jused, s->dimension, place, out, DGN_EDIT_NUMBERS);
    return dgn_session_keep(s, r, out);
}

/* dgn_undo. */
static inline size_t dgn_session_undo(struct dgn_session *s)
{
    size_t out[DGN_INDEXED_NUMBERS], r;
    if (s->index)
        r = dgn_undo_indexed(s->file, s->file_len, s->used, s->journal, s->journal_len, s->jused, s->index, s->index_len, s->iused, s->dimension, out, DGN_INDEXED_NUMBERS);
    else
        r = dgn_undo(s->file, s->file_len, s->used, s->journal, s->journal_len, s->jused, s->dimension, out, DGN_EDIT_NUMBERS);
    return dgn_session_keep(s, r, out);
}

#endif
