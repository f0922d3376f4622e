/* The names of the refusals and a plain sentence on each, for what prints them. */
#include "dgn.h"

static const char *const texts[][2] = {
    {"DONE", "Nothing was refused."},
    {"CALL", "A dimension, a length or another number is out of its range, or a used file does not end with its end marker."},
    {"NO END", "The file ends where an element or its end marker is due."},
    {"CUT", "An element is cut off, or words are left over after a piece."},
    {"RESERVED", "A bit that has to be zero is set: the file is damaged, or is no version 7 file."},
    {"PLACE", "An element says that it is a component and stands at the top, or the other way round."},
    {"KIND", "An element's type may not stand there, is not read, or is none that the call is for."},
    {"SHORT", "An element is too short for its type, or its number of points is not 2 to 101."},
    {"TOTAL", "An element's length does not fit it or what is around it, or is above 65,535 words."},
    {"COUNT", "A header counts other components than it has."},
    {"DEEP", "Headers are nested deeper than 8."},
    {"LINKAGE", "The attribute linkages of an element do not fill their part of it."},
    {"NAME", "A name is not 0 to 6 of A-Z, 0-9, $, . and space, without a space at its end."},
    {"NO SUCH", "There is no such element, point, linkage, field or name."},
    {"ALREADY", "The element is already marked so."},
    {"ROOM", "The buffer is too small for what is to be written there."},
    {"JOURNAL", "The journal has too little room for the record of this edit."},
    {"NOTHING", "No edit is left in the journal."},
    {"NOT A CELL", "Only a cell can be renamed, and only a cell has a plate."},
    {"BAD JOURNAL", "The journal's last record is damaged, or cannot be reversed in the file as it is."},
    {"FIELD", "An enter-data field of a text lies outside its characters or has an unknown justification."},
    {"FLOAT", "A float of an ellipse or an arc is no number."},
    {"BLOCK", "A block of a stored journal has a wrong check, count or rest, or is cut off."},
    {"UNKNOWN", "This number is no refusal."},
};

/* the row of a number; the last one is of those that are none */
static const char *const *row(size_t r)
{
    const size_t last = sizeof texts / sizeof texts[0] - 1;
    const size_t number = DGN_NUMBER(r);
    return texts[number < last ? number : last];
}

const char *dgn_refusal_name(size_t r)
{
    return row(r)[0];
}

const char *dgn_refusal_text(size_t r)
{
    return row(r)[1];
}
