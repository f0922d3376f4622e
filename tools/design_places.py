#!/usr/bin/env python3
"""Prints the places of a point of docs/DESIGN-PASS.md, one line a place: crate/file:line: what.

usage: tools/design_places.py POINT [--at COMMIT] [--count]

POINT is 1 to 8. Each line's `what` begins with the part of the point, as `1a`. --at reads the files of a commit, else those
of the checkout. --count prints the number of places of each part in place of the places. Where a pattern is reliable it
finds the places; elsewhere they are listed here by name, and one is printed only where what is named stands in the source
and still has the old form (a pattern in its text). One that does not is told on standard error as gone. A part with C behind it
is of functions exported to C. Point 2 goes by names alone: a group counts while two of its members stand, whatever they have become.
"""
import os
import re
import subprocess
import sys

TOP = os.path.dirname(os.path.dirname(os.path.realpath(__file__)))
COMMIT = None
OUT = []


# ---- reading

def names(pattern):
    if COMMIT:
        out = subprocess.run(["git", "-C", TOP, "ls-tree", "-r", "--name-only", COMMIT, "crates"], check=True, capture_output=True, text=True)
        all_ = out.stdout.split("\n")
    else:
        all_ = []
        for at, dirs, files in os.walk(os.path.join(TOP, "crates")):
            dirs[:] = [d for d in dirs if d not in ("out", "generated")]
            all_ += [os.path.relpath(os.path.join(at, f), TOP) for f in files]
    return sorted(p for p in all_ if re.fullmatch(pattern, p))


def text(path):
    if COMMIT:
        return subprocess.run(["git", "-C", TOP, "show", f"{COMMIT}:{path}"], check=True, capture_output=True, text=True).stdout
    with open(os.path.join(TOP, path)) as f:
        return f.read()


class Item:
    """A function, a type or a constant of src/."""

    def __init__(self, crate, path, kind, name, start, line, text, params="", contract="", body="", result="", c=False, pub=False):
        self.crate, self.path, self.kind, self.name, self.start, self.line, self.text = crate, path, kind, name, start, line, text
        self.params, self.contract, self.body, self.result, self.c, self.pub = params, contract, body, result, c, pub

    def full(self):
        return f"{self.crate}::{self.name}"


ITEM = re.compile(r'(?m)^(?P<i>[ ]*)(?P<pub>pub(?:\([a-z]+\))? )?(?P<c>extern "C" )?(?P<k>(?:const )?fn|enum|struct|const|trait) (?P<n>\w+)')


def items_of(crate, path, t):
    res = []
    for m in ITEM.finditer(t):
        kind = m["k"].split()[-1]
        if m["i"] and kind != "fn":
            continue
        line = t.count("\n", 0, m.start()) + 1
        if kind == "const":
            end = t.index(";\n", m.end()) + 2
            res.append(Item(crate, path, kind, m["n"], m.start(), line, t[m.start():end]))
            continue
        close = "\n" + m["i"] + "}\n"
        end = t.find(close, m.end())
        semi = t.find(";\n", m.end())
        end = len(t) if end < 0 else end + len(close)
        whole = t[m.start():end]
        if kind != "fn":
            res.append(Item(crate, path, kind, m["n"], m.start(), line, whole, pub=bool(m["pub"])))
            continue
        k = t.index("(", m.end()) - m.start()
        depth, j = 0, k
        while True:
            depth += {"(": 1, ")": -1}.get(whole[j], 0)
            if depth == 0:
                break
            j += 1
        rest = whole[j + 1:]
        b = re.search(r"(?m)^" + m["i"] + r"\{$|\) (?:-> [^\n{]+ )?\{$|^[^\n]* \{$", rest)
        cut = b.end() if b else len(rest)
        r = re.match(r"\s*->\s*([^\n{]+)", rest)
        res.append(Item(crate, path, "fn", m["n"], m.start(), line, whole, " ".join(whole[k + 1:j].split()), rest[:cut], rest[cut:], r[1].strip() if r else "", bool(m["c"]), bool(m["pub"])))
    return res


class Source:
    def __init__(self):
        self.files, self.items = [], []
        for p in names(r"crates/[^/]+/src/.*\.rt"):
            crate, short = p.split("/")[1], p.split("/src/")[1]
            t = text(p)
            self.files.append((crate, short, t))
            self.items += items_of(crate, short, t)
        self.fns = [i for i in self.items if i.kind == "fn"]
        self.by = {}
        for i in self.items:
            self.by.setdefault((i.crate, i.name), []).append(i)


def say(item, what):
    OUT.append((item.crate, item.path, item.line, what))


def matches(src, pattern, what, flags=0, named=lambda m: ""):
    for crate, path, t in src.files:
        for m in re.finditer(pattern, t, flags):
            OUT.append((crate, path, t.count("\n", 0, m.start()) + 1, what + named(m)))


def listed(src, part, rows):
    """Rows `crate name name ..| pattern | what`: each name that stands in the crate, with the pattern in its text."""
    for row in rows.strip().split("\n"):
        if not row.strip():
            continue
        who, pattern, what = [x.strip() for x in row.split("|")]
        crate, *ns = who.split()
        for n in ns:
            found = [i for i in src.by.get((crate, n), []) if re.search(pattern.replace("/or/", "|"), i.text)]
            for i in found:
                say(i, f"{part} {i.kind} {n}: {what}")
            if not found:
                print(f"gone: {part} {crate}::{n}: {what}", file=sys.stderr)


def variants(item):
    body = item.text[item.text.index("{") + 1:item.text.rindex("}")]
    res, depth, cur = [], 0, ""
    for ch in body:
        depth += {"{": 1, "(": 1, "}": -1, ")": -1}.get(ch, 0)
        if ch == "," and depth == 0:
            res.append(cur.strip())
            cur = ""
        else:
            cur += ch
    if cur.strip():
        res.append(cur.strip())
    return [(re.match(r"(?:#\[[^\]]*\]\s*)*(\w+)", re.sub(r"//.*", "", v).strip())[1], v) for v in res if re.sub(r"//.*", "", v).strip()]


# ---- 1: own enums of the shape of Option or Result, flags beside values, numbers for kinds or refusals

FLAGS = r"""
names Unpacked | answer: Answer | an answer and, beside it, letters that count only where it is a text
names code_of | _ => 29 | 29 for a byte that is no letter
names letter_of | _ => 0 | 0 for a code that has no letter
texts known_byte | known: bool | a flag that says whether the byte is there
range_checks known_word known_signed lies_at | known: bool | a flag that says whether the words are there
linkages linkage_words fitting_words | -> usize | 0 where the words are no linkage
elements plain_part | 65540 | a size above every size where N is wrong
files stops judge_list reach | each: bool | a flag beside a place that counts only where it is false
journals TOP | const TOP | a number for no header
edit_answers TOP | const TOP | a number for no header
dgn_record TOP | const TOP | a number for no header
journals Last | header: usize | a header's place as a number, TOP for none
walking end_in | return 0 | 0 where no end is kept
places extent_at | file\[\.\.0\] | an empty slice where refused
text_views characters_at | file\[\.\.0\] | an empty slice where refused
text_views field_justification | -1 | -1 for a byte of 255
text_fields Text | odd: usize | an odd byte that counts only behind an odd number of bytes
text_fields odd_ok | text.odd == 0 | 0 for no odd byte
dgn_text_writer odd_of | 4294967296 | a number that no writer takes, for none
write_answers natural natural_at | -> usize | a number that no writer takes, for a negative one
sorting child | return n; | n where there is no child
blocks first_bad | -> usize | n where no block is bad
faults end_of | => 0 | 0 where nothing was found
undoing place_in | => 0 | 0 of a bad record
lines name_of | 65535 | words that are no name, for none
lines text_length | => 0 | 0 where there is no text
marking rename_opened | named: bool | a flag beside two words that count only where it is true
totals moved_word move_word correct_header correct_from correct_totals | up: bool | a flag that says which way a number goes
changes correct_under | up: bool | a flag that says which way a number goes
dgn_plates put_cell | -> bool | false where there is no plate
dgn_all_views above_in | depth == 0 | depth 0 for no header
listing element_line text_line plate_line fixed_line refused_line end_line heading text_heading | -> usize | 0 where the buffer is too short
lines line | -> usize | 0 where the buffer is too short
text_lines line | -> usize | 0 where there is no line or the buffer is too short
plate_lines line | -> usize | 0 where there is no line or the buffer is too short
printing print print_full print_refused print_lines print_file | -> bool | false where a write fails, for io::Result and `?`
printing report | written: bool | false where a write failed
printing read_full | Err\(_\) => return done | a failed read told as a short one
"""

HANDED = (r"(?:\w+::)*(?:Refused|Fault|Broken|Bad)\s*\{\s*number(?::\s*\w+)?,?\s*(?:place(?::\s*\w+)?,?\s*)?\}\s*=>\s*(?:\{\s*)?(?:return\s+)?"
          r"(?:\w+::)*(?:Refused|Fault|Broken|refused)\s*[({]\s*(?:number\s*[,}]|number: \w+\s*[,}]|of_file|number, )")


def point_1(src):
    for i in src.items:
        if i.kind != "enum":
            continue
        vs = variants(i)
        bad = [n for n, v in vs if re.search(r"\bnumber:", v) or n in ("Refused", "Bad", "Fault")]
        empty = [n for n, v in vs if not re.search(r"[{(]", v)]
        if bad:
            say(i, f"1a enum {i.name}: of the shape of Result ({', '.join(n for n, _ in vs)})")
        elif len(vs) == 2 and len(empty) == 1:
            say(i, f"1a enum {i.name}: of the shape of Option ({', '.join(n for n, _ in vs)})")
        elif i.full() == "totals::Holder":
            say(i, f"1a enum {i.name}: of the shape of Option, of two kinds ({', '.join(n for n, _ in vs)})")
    listed(src, "1b", FLAGS)
    for i in src.fns:
        if i.c:
            continue
        if re.search(r"_fault$", i.name) and i.result == "usize":
            say(i, f"1c fn {i.name}: answers a refusal's number, 0 for none")
        elif re.search(r"\b(number|fault): usize", i.params) and i.full() != "opening::header_at":
            say(i, f"1c fn {i.name}: takes a refusal's number")
        elif i.result == "usize" and re.search(r"ensures.*\bReplied\b", i.contract):
            say(i, f"1c fn {i.name}: answers the number that a function for C returns")
    for i in src.fns:
        what = [w for w, p in (("type", r"\bt: (?:usize|u32)"), ("kind", r"\bkind: (?:usize|u32)"), ("type of the header above", r"\bunder: usize")) if re.search(p, i.params) and i.full() != "journals::record_at"]
        if i.name in ("type_of", "type_at", "kind_of", "slot_of") and i.result == "usize":
            what.append("answer")
        if what:
            say(i, f"1d fn {i.name}: a number for a kind ({', '.join(what)})")
    for i in src.items:
        if i.kind in ("struct", "enum") and re.search(r"\b(kind|under): usize", i.text):
            say(i, f"1d {i.kind} {i.name}: a number for a kind (field)")
    for i in src.fns:
        if re.search(r"\bdim: usize", i.params):
            say(i, f"1e{' C' if i.c else ''} fn {i.name}: a number for the dimension")
    matches(src, HANDED, "1f a refusal that is matched only to hand it on")
    listed(src, "1f", """
indexed finish | Edited::Refused | a refusal that is matched only to hand it on, its number turned: map_err
dgn_indexed put | Indexed::Refused | a refusal that is matched only to hand it on
""")
    matches(src, r"if (number|fault|wrong|flagged) != 0 \{\s*return [^;]*?\b\1\b[^;]*;", "1f a refusal's number that is tested only to hand it on")
    matches(src, r"Begun::Refused \{ answer \} => answer,", "1f C a refusal that is matched only to hand it on")
    matches(src, r"(?:\w+::)*(?:Refused|Fault)\s*\{\s*number: _,\s*place: _,?\s*\}", "1g a refusal that is matched only to drop it")
    matches(src, r"\b(?:Nothing|Short|Absent|Bad|Full(?: \{[^}]*\})?)\s*=>\s*(?:(?:\w+::)*(?:Refused|refused)\b|[1-9]\d*,)", "1i none, or a full room, that is matched only to turn it into a refusal")
    matches(src, r"\bnumber: (\d+)\b", "1h a refusal's number written out: ", named=lambda m: m[1])
    matches(src, r"\brefused\((\d+)\b", "1h a refusal's number written out: ", named=lambda m: m[1])
    for i in src.fns:
        if i.crate != "dgn_c" and (i.c or re.search(r"_fault$|^put_", i.name) and i.result == "usize" and not i.crate.startswith("listing")):
            for m in re.finditer(r"(?m)^ +return ([1-9]\d?);|=> ([1-9]\d?),$|^        +([1-9]\d?)$", i.text):
                OUT.append((i.crate, i.path, i.line + i.text.count("\n", 0, m.start()), f"1h{' C' if i.c else ''} a refusal's number written out: {m[1] or m[2] or m[3]}"))


# ---- 2: twins

TWINS = r"""
A coordinates of a 2D or 3D file, of long or of float | text_views::Origin curve_views::Origin points_linkages::Point
B read a point: x and y, in 3D z | text_views::origin_at curve_views::origin_at points_linkages::point_from
C what a search found, with a count of looks | finder::Found lookup::Found
D a refusal with a number and a place, made by hand | finder::refused lookup::refused lookup::missing opening::refused
E what a search found as numbers for C | dgn::put_found dgn_index::put_looked
F the same search, with deleted cells or without | finder::find finder::find_with_deleted
G the same look-up, with deleted cells or without | lookup::look_up lookup::look_up_with_deleted
H a linkage with the same four fields | linkages::Linkage points_linkages::Attribute
I a number that may be absent | views::Number text_views::Odd order::Taken indexing::Put places::Above totals::Room
J the two words of a name | names::Packed views::Name plates::Plate
K the lengths after an edit | edits::Edited indexed::Indexed
L one long numbered answer or a refusal: value or number and place | writer::Written blocks::Moved indexing::Built
M an extent's or a text's part of the file, and a refusal | places::Extent text_views::Characters
N elements, depth and direct of a list, carried in each variant | files::Verdict files::Progress files::Judged
O the six numbers of a range | views::Range fields::Fields
P the six numbers of words 14 to 17 | views::Display fields::Fields
Q the four longs of a turn | turns::Turn text_fields::Text
R the numbers of a text, read and to be written | text_views::Text text_fields::Text
S two numbers with names | lookup::Halved flags::Sixteen order::Part dgn_all_views::Numbered
T a number for no header, in 64 bits | edit_answers::TOP dgn_record::TOP
U a header's place by its number and back | opening::header_at edit_answers::header_given opening::header_number dgn_record::header_number
V the larger, the smaller or the difference, which std has | files::larger files::smaller text_lines::least indexed::less dgn_all_views::many cells::count_cells indexing::gather plates::plate_here dgn_index::put_looked
W copy a slice to a place of another, by element type | copies::copy_in listing::put_bytes text_numbers::put_numbers view_numbers::put_signed
X copy a slice with each element turned | writer::put_points dgn_points::put_longs
Y a fixed number of values put one after another | curve_numbers::put_seven curve_numbers::put_five dgn_record::put_five dgn_plates::put_plate dgn_names::put_letters
Z bytes moved up or down in one buffer | buffers::move_up buffers::move_down
AA the low and the high byte of words by hand | changes::name_bytes journals::trailer entries::put_entry words::put_word
AB a word of two bytes | words::word curve_views::word_in range_checks::known_word entries::pair
AC a byte or word read with a flag that says it is there | texts::known_byte range_checks::known_word
AD a signed long | words::signed_long range_checks::known_signed
AE all of several numbers below a bound, one `if` each | fields::range_ok fields::words_ok fields::symbology_ok text_fields::bytes_ok text_fields::longs_ok text_fields::flat_ok dgn_text_writer::text_given names::word_ok
AF checks of what the writer is handed | fields::arguments_ok text_fields::arguments_ok
AG the first fault of what the writer is handed | fields::write_fault text_fields::text_fault
AH put an element's words | writer::put_element text_writer::put_text
AI write or refuse | writer::write text_writer::write_text
AJ write for C | dgn_writer::dgn_write dgn_text_writer::dgn_write_text
AK turn and origin of a text, by dimension | text_writer::put_flat text_writer::put_solid
AL the types 3, 4, 6 and 11 | fields::kind_ok range_checks::is_range_checked
AM where the name of a cell stands | changes::name_place indexing::entry_at views::name_at lines::name_of finder::has_name elements::stored_name_ok plates::plate_here
AN whether the deleted flag is set | finder::is_live faults::flag_differs lines::line text_lines::line plate_lines::line views::element_at plates::slot_of dgn_texts::put_entry dgn_curves::put_curve dgn_plates::put_element
AO whether A is set | points_linkages::has_attributes elements::attributes_ok fields::tail_ok
AP the extent by a header's total | walking::extent_at headers::extent_words elements::extent_ok elements::head_at
AQ the fixed part of a type | kinds::fixed_part elements::plain_part elements::curve_part elements::header_part
AR byte of a text's characters from its place | text_views::characters_in text_views::field_in text_views::odd_at dgn_text::dgn_text dgn_texts::put_entry text_lines::line
AS guard by the element's type, then read | text_views::text_in text_views::characters_in text_views::field_in curve_views::curve_in range_checks::in_range_in plates::plate_in
AT find the place in a file, then read there | places::extent_answer places::extent_at views::view_at points_linkages::point_at points_linkages::linkage_at text_views::text_at text_views::characters_answer text_views::field_at curve_views::curve_at range_checks::in_range_at plates::plate_at dgn_plates::dgn_plate
AU how far a list was judged, read three ways | files::closed files::reach files::element files::judge_all
AV read what was found at a place | faults::is_at faults::end_of faults::stands_under faults::flags_fit
AW step from element to element by size | order::start_of flags::count flags::exchange cells::count_cells finder::look indexing::gather lookup::fill_live dgn_all_views::top_before
AX step from extent to extent | places::descend totals::find_holder plates::tally
AY go down from header to header | places::descend totals::correct_from totals::room_fault
AZ the step of the walk with depths | walking::next dgn_all_views::put_views dgn_texts::put_texts
BA the elements from number k on, up to the first that does not fit | dgn_points::put_points dgn_ranges::put_ranges dgn_curves::put_curves dgn_plates::put_plates dgn_texts::put_texts
BB one element's numbers behind those that are used | dgn_points::put_element dgn_ranges::put_element dgn_plates::put_element dgn_curves::put_curve dgn_texts::put_from
BC the call for C of a whole file | dgn_points::dgn_points dgn_ranges::dgn_ranges dgn_curves::dgn_curves dgn_plates::dgn_plates dgn_texts::dgn_texts dgn_all_views::dgn_views
BD open the session, then the step | marking::mark marking::rename moving::insert moving::remove undoing::undo_within
BE the step in an open session: its fault, the room, the change, the record | marking::mark_opened marking::rename_opened moving::insert_opened moving::remove_found
BF one reversal: whether it is allowed, then the change | undoing::undo_flag undoing::undo_renamed undoing::undo_inserted undoing::undo_removed
BG the call with an index | indexed::mark indexed::rename indexed::insert indexed::remove indexed::undo
BH the calls of a session for C | dgn_marks::dgn_mark dgn_marks::dgn_rename dgn_moves::dgn_insert dgn_moves::dgn_remove dgn_undo::dgn_undo
BI the calls with an index for C | dgn_indexed::dgn_mark_indexed dgn_indexed::dgn_rename_indexed dgn_indexed::dgn_insert_indexed dgn_indexed::dgn_remove_indexed dgn_indexed::dgn_undo_indexed
BJ whether the used lengths are right | opening::buffers_ok indexed::lent_ok
BK an answer or a refusal as numbers for C | edit_answers::put_edited edit_answers::put_indexed dgn_indexed::put write_answers::put_written dgn_blocks::put_moved
BL the same with the answer asked for in the same function | dgn::dgn_judge dgn_index::dgn_cells dgn_index::dgn_index dgn_places::dgn_extent dgn_places::dgn_point dgn_text::dgn_text dgn_text::dgn_characters dgn_text::dgn_field dgn_views::dgn_view dgn_linkages::dgn_linkage dgn_names::dgn_pack dgn_names::dgn_unpack dgn_ranges::dgn_in_range
BM an absent or present value as 0 or 1 and numbers | view_numbers::above_numbers view_numbers::number_numbers view_numbers::display_numbers view_numbers::name_numbers view_numbers::put_range
BN 2D or 3D numbers with zeros | turns::turn_numbers text_numbers::origin_numbers curve_numbers::put_longs curve_numbers::put_floats
BO a line of a program, by its place in a file | lines::line text_lines::line plate_lines::line
BP a line by its fields | listing::element_line listing::text_line listing::plate_line listing::refused_line listing::end_line
BQ a line without fields | listing::heading listing::text_heading
BR a program: the same main by a constant | celllist::main textlist::main platelist::main
BS the codes of a word, the last two by a table or not | names::letters names::letters_by
BT a division by a constant without a divide | names::first_code names::second_code thirds::third blocks::blocks_for dgn_texts::entries
BU a pass over n blocks | blocks::fill blocks::first_bad blocks::flat_size blocks::gather
BV name and place in one number | indexing::entry_at lookup::halve lookup::find lookup::has_name lookup::go_on
BW how many points from the coordinates or from the words | fields::point_count fields::points_fit
BX the place of what follows the points | writer::points_place points_linkages::before_points
BY a kind of record told by its number or by its variant | journals::record_at faults::reversible dgn_record::put_last undoing::undo_opened
CA judge enter-data fields, three bytes each | texts::each_field_ok text_fields::triples_ok
CB N is 2 to 101 | elements::plain_part fields::point_number_ok
CC a size is at most 65,535 words | elements::size_ok elements::extent_ok fields::write_fault text_fields::text_fault totals::has_room writer::header_fits
CD a file is at most 1,048,576 bytes | limits::size_ok indexing::list_cells indexing::put_index order::start_of
CE halve, then the last look | lookup::find lookup::find_live
CF as numbers and as a part of the file | places::extent_answer places::extent_at text_views::characters_answer text_views::characters_at
CG after a space, nothing where it is empty | listing::put_name listing::put_text
CH so many numbers at a place, where they fit | view_numbers::put_view text_numbers::put_text curve_numbers::put_curve
CI one of nine by depth, or 0 | walking::end_in dgn_all_views::above_in
CJ the same undo with a constant | undoing::undo undoing::undo_within
BZ a test of flags of the first word | headers::flags_ok dgn_all_views::no_component
"""


def twin_groups():
    for row in TWINS.strip().split("\n"):
        head, members = row.split(" | ")
        key, title = head.split(" ", 1)
        yield key, title, [m.split("::") for m in members.split()]


def point_2(src):
    for key, title, members in twin_groups():
        here = [(c, n) for c, n in members if (c, n) in src.by]
        for c, n in members:
            if (c, n) not in src.by:
                print(f"gone: 2 {key} {c}::{n}", file=sys.stderr)
        if len(here) > 1:
            for c, n in here:
                say(src.by[c, n][0], f"2{key} {n}: {title}")
    for i in src.fns:
        if i.crate == "dgn_c":
            say(i, f"2-c {i.name}: hands on to the function of its name, with its contract again")


# ---- 3: loops

OTHER = {
    "lookup::halve": "halves a range: partition_point",
    "sorting::sift": "goes down a heap",
    "thirds::third": "a sum of high parts until the rest is small",
}


def point_3(src):
    for i in src.fns:
        for m in re.finditer(r"(?m)^([ ]*)(while ([^\n]*) \{|loop \{)$", i.text):
            end = i.text.index("\n" + m[1] + "}", m.end())
            body = i.text[m.end():end]
            line = i.line + i.text.count("\n", 0, m.start())
            head = m[2].rstrip(" {")
            if i.full() in OTHER:
                what = f"3c {i.name}: `{head}`: {OTHER[i.full()]}"
            else:
                steps = [s for s in re.findall(r"(?m)^\s*(\w+) [+-]= (?:1|3|stride);", body) if s in head or head == "loop"]
                walk = re.search(r"size_at|extent_words|\bextent\b|= next;|= end;|fitting_words", body)
                if steps and not (walk and head == "loop"):
                    what = f"3a {i.name}: `{head}` counts {', '.join(dict.fromkeys(steps))} by hand" + (", beside a step from element to element" if walk else "")
                elif walk:
                    what = f"3b {i.name}: `{head}` steps from element to element by hand"
                else:
                    what = f"3c {i.name}: `{head}`"
            OUT.append((i.crate, i.path, line, what))
    listed(src, "3a", "totals correct_from | left - 1 | calls itself with a count that goes down")


# ---- 4: equality, order, copying, conversion, printing

BY_HAND = {
    "4a": r"""
faults same_above | Above::Top => match b | equality of two headers' places: PartialEq
faults is_at | => true | whether a place was found: is_ok
journals at_top_with | header == TOP | equality with the number for no header
""",
    "4b": r"""
lookup halve | / 4294967296 < name | the order of entries by a part of a number
lookup find has_name | / 4294967296 == name | a name out of a packed number: an Entry with Ord
lookup go_on | % 4294967296 | a place out of a packed number
indexing entry_at | 281474976710656 | name and place packed into a number, for its order
sorting child sift | entries::entry | the order of entries as numbers
files larger smaller | a <= b | max and min of Ord
text_lines least | a < b | min of Ord
""",
    "4c": r"""
copies copy_in | while k < src.len | copy_from_slice
copies clear | while k < end | fill
listing put_bytes | while k < src.len | copy_from_slice
text_numbers put_numbers | while k < numbers.len | copy_from_slice
buffers move_up move_down | s\[k | copy_within
dgn_names put_letters | text\[5\] | copy_from_slice
curve_numbers put_seven | numbers\[at \+ 6\] | an array's copy_from_slice
curve_numbers put_five | floats\[at \+ 4\] | an array's copy_from_slice
dgn_record put_five | out\[4\] | an array's copy_from_slice
dgn_plates put_plate | numbers\[from \+ 8\] | an array's copy_from_slice
points_linkages attribute_of | Linkage::At | a linkage copied field by field to one of another type
dgn_indexed put | Edited::Made | an answer copied field by field to one of another type
indexed finish | Indexed::Made | an answer copied field by field to one of another type
places extent_answer | Extent::At | what was found copied field by field to another type
""",
    "4d": r"""
words word | 256 \* | two bytes to a word: u16::from_le_bytes
words long | 65536 \* | two words to a long
words signed_long | 4294967296 | an unsigned long to a signed one: `as i32`
words put_word | / 256 % 256 | a word to bytes: to_le_bytes
words put_long | / 65536 | a long to words
words put_signed_long | 4294967296 | a signed long to an unsigned one: `as u32`
curve_views word_in | 256 \* | two bytes to a word
range_checks known_word | 256 \* | two bytes to a word
range_checks known_signed | 4294967296 | an unsigned long to a signed one
entries pair entry | -> usize | bytes to an entry
entries put_entry | 281474976710656 | an entry to bytes
changes name_bytes | / 256 % 256 | two words to bytes
journals trailer | / 256 % 256 | six words to bytes
ranges coordinate_at put_coordinate | 2147483648 | a range's long to a coordinate and back
ranges is_coordinate | 2147483648 | whether a number is a coordinate: i32::try_from
names code_of letter_of wide | -> u/or/-> usize | a letter to its code and back, a table's entry to a number
kinds type_of | % 128 | word 0 to a type: a type Kind with From
headers type_at | type_of | word 0 to a type
plates kind_of slot_of | -> usize | a type to the number of a kind
turns turn_numbers | \[i64; 4\] | a turn to numbers: From
text_numbers origin_numbers odd_number first_numbers last_numbers | i64 | parts of a text to numbers: From
view_numbers above_numbers number_numbers display_numbers name_numbers | \[usize; | parts of a view to numbers: From
view_numbers as_signed put_signed | i64 | numbers to signed ones: i64::try_from
view_numbers put_common put_range put_kind | \[i64\] | parts of a view to numbers
curve_numbers put_longs put_floats put_curve | match/or/Turn | a curve to numbers and floats
opening header_number header_at | TOP | a header's place to a number and back: From
edit_answers header_given | TOP | a number to a header's place
dgn_record header_number put_last | TOP | a record's header and kind to numbers
journals record_at | kind == 1 | a record's number to its kind: TryFrom
journals well_formed | kind == 1 | a record's number to its kind: TryFrom
writer first_word | 32768 | flags and type to word 0
write_answers natural natural_at fields_given fields_of fields_in | fields/or/natural | a slice of numbers to header fields: TryFrom
dgn_text_writer text_given odd_of text_of | i64 | a slice of numbers to a text: TryFrom
text_views field_justification | -1 | a byte to a justification
lines text_length | match answer | an answer to a length
indexed told | kinds::pick | a refusal's number to another
""",
    "4e": r"""
listing put_byte put_line_feed put_bytes put_number put_field put_state put_name hex_digit is_printed put_character put_characters put_text put_counts | . | text put into a buffer: Display and a writer
listing element_line text_line plate_line fixed_line heading text_heading refused_line end_line | -> usize | a line put into a buffer: Display of a struct
printing say print_refused | write_all/or/refused_line | text written by its parts: writeln!
""",
}


def point_4(src):
    for part, rows in BY_HAND.items():
        listed(src, part, rows)
    matches(src, r"number(?: % 256)? \+ 256 \* \(?\w+", "4d a refusal turned to one number: From")
    matches(src, r"kinds::pick\([^,()]+(?:\([^()]*\))?, 1, 0\)", "4d a truth value turned to a number: usize::from")


# ---- 5: facts in three or more contracts, parameters that travel together

TOGETHER = [
    ("p01", "a file or slice of words and a place in it", r"\b(?:s|file|used): &(?:mut )?\[u8\].*\b(?:at|place|here|i|first|start): usize", None),
    ("p02", "file and dimension", r"\bfile: &(?:mut )?\[u8\].*\bdim: usize", None),
    ("p03", "file, dimension and place", r"\bfile: &(?:mut )?\[u8\].*\bdim: usize.*\b(?:place|at): usize", None),
    ("p04", "file and used length", r"\bfile: &(?:mut )?\[u8\], used: usize", None),
    ("p05", "file, used, journal, jused, dim", r"\bfile: &(?:mut )?\[u8\], used: usize, journal: &(?:mut )?\[u8\], jused: usize, .*\bdim: usize", None),
    ("p06", "the same with place and found", r"\bfile: &(?:mut )?\[u8\], used: usize, .*\bfound: Spotted", None),
    ("p07", "file, used, journal, jused, index, iused, dim", r"\bjused: usize, index: &(?:mut )?\[u8\], iused: usize", None),
    ("p08", "file, used, dim, marker, place, found of a reversal", r"\bdim: usize, (?:marker|header): usize.*\bfound: Spotted.*\bfull: bool", None),
    ("p09", "used, marker, place and what was found there", r"\bmarker: usize.*\bfound: Spotted", None),
    ("p10", "s, at, type, size of one element", r"\bs: &\[u8\], at: usize, t: usize.*\bsize: usize|\bs: &\[u8\], at: usize, (?:fixed: usize, )?size: usize", None),
    ("p11", "s, at, bound, depth, under, dim of a list", r"\bdepth: usize, under: usize, dim: usize", None),
    ("p12", "depth and what ends or stands above", r"\bdepth: usize, (?:above|end|ends|next|below)\b|\bplace: usize, depth: usize", None),
    ("p13", "numbers and how many are used or where they go", r"\b(?:numbers|places|floats|views|out): &mut \[(?:i64|f64|usize)\], (?:used|from|at): usize|\bfloats: &mut \[f64\], used: usize", None),
    ("p14", "buf and at of a line", r"\bbuf: &mut \[u8\], at: usize", None),
    ("p15", "part and n of a listing", r"\bpart: &(?:mut )?\[u8\], n: usize", None),
    ("p16", "fields, points, tail, dim", r"\bfields: (?:fields::)?Fields, points: &\[i32\], tail: &\[u8\]", None),
    ("p17", "fields, text, characters, triples, tail", r"\bcharacters: (?:usize|&\[u8\]), triples: (?:usize|&\[u8\])", None),
    ("p18", "the two words of a name", r"\bfirst: (?:usize|u16), second: (?:usize|u16)(?!, third)", None),
    ("p19", "kind, header, place and payload or count of a record", r"\bkind: usize, header: (?:usize|Above), place: usize", None),
    ("p20", "elements and k of a call in parts", r"\belements: usize, k: usize|\bk: usize, elements: usize|\bk: usize, n: usize|\bnext: usize, elements: usize", None),
    ("p21", "up and n of totals", r"\bup: bool, n: usize", None),
    ("p22", "until and each of judging", r"\buntil: usize, each: bool|\beach: bool, until: usize", None),
    ("p23", "the six counts of a plate", r"\blines: usize, pointed: usize, texts: usize", None),
    ("p24", "the four longs of a turn", r"\bfirst: u32, second: u32, third: u32, fourth: u32", None),
    ("p25", "index and its used length", r"\bindex: &(?:mut )?\[u8\], i?used: usize", None),
    ("p26", "a place and an end", r"\b(?:at|from|place|start): usize, (?:end|to): usize", None),
    ("p27", "input, out, errors, listed, program", r"\b(?:out|errors): &impl Print", None),
    ("p28", "place and k, the number of a point, field or linkage", r"\bplace: usize, k: usize|\bat: usize, k: usize", None),
    ("c01", "a place lies in the slice", None, r"\b(?:at|place|header|i) < length (?:s|file|used)\.(?:now|old)(?: / 2)?"),
    ("c02", "t ≡ type_at, size ≡ size_at", None, r"≡ (?:type_at|size_at) \(words"),
    ("c03", "at + size < 2 ^ 64", None, r"at \+ (?:size|\d+) < 2 \^ 64"),
    ("c04", "a sum below 2 ^ 64", None, r"\b(?!at\b)\w+(?: \+ [\w* ]+)+ < 2 \^ 64"),
    ("c05", "the type is a header's, a curve's, linked", None, r"(?:is_header|is_curve|is_linked) t (?:≡|\|\|)"),
    ("c06", "Open", None, r"\{ Open dim"),
    ("c07", "OpenFile", None, r"\{ OpenFile dim"),
    ("c08", "marker ≡ last_place", None, r"marker ≡ last_place"),
    ("c09", "there is room in a buffer for N more", None, r"(?:\+ [^×]*|\d+(?: \* n)?) ≤ length (?:buf|out|numbers|floats|views|text)\.old|(?:used|n) ≤ length (?:numbers|part|places)\.(?:now|old)|from \+ n ≤ length"),
    ("c10", "no more elements than a file has", None, r"(?:elements|k|k \+ n) ≤ 1048576|at < 2 \^ 40|place < 1073741824"),
    ("c11", "a word of a name", None, r"≤ 63999"),
    ("c12", "dim_ok, dim ≤ 3", None, r"dim_ok dim ≡ true|dim ≤ 3"),
    ("c13", "what the writer is handed is right", None, r"(?:arguments_ok|point_number_ok|numbers_ok|fields_ok|write_fault|text_fault) "),
    ("c14", "where known holds, the words are there", None, r"known ≡ true →"),
    ("c15", "a bound lies in the slice", None, r"(?:bound|end) ≤ length s?(?:file|used)?\.(?:now|old) / 2|used ≤ length file"),
    ("c16", "a file is not above the limit", None, r"length file\.now < 4294967296|MayMeet|MayBuild|MayLook|MayFill|MayCount"),
    ("c17", "so many blocks, which are good", None, r"n ≡ blocks_(?:in|for)|bad_from n"),
]


def point_5(src):
    for key, title, params, clause in TOGETHER:
        here = []
        for i in src.fns:
            if params and re.search(params, i.params):
                here.append(i)
            if clause and any(re.search(clause, m) for m in re.findall(r"(?m)^\s*requires.*$", i.contract)):
                here.append(i)
        if len(here) > 2:
            for i in here:
                say(i, f"5{key}{' C' if i.c else ''} {i.name}: {title}")


# ---- 6: buffers with a length beside, parallel arrays, sorted lists, arenas

HELD = {
    "6a": r"""
names Unpacked | letters: \[u8; 6\] | six letters with a length in the answer beside them
plate_lines line_with | letters\[\.\.length\] | six letters cut by a length beside them
walking Walk | ends: \[usize; 9\] | a stack of ends with its depth beside it
walking end_in closed_to | ends: \[usize; 9\] | a stack of ends with its depth beside it
dgn_all_views put_views above_in | headers | two stacks with their depth beside them
dgn_texts put_texts | ends = | a stack of ends with its depth beside it
printing print print_full put_line put_end print_lines | \bn\b | a part of 16 KiB with how many bytes are used beside it
printing list_input read_full | done/or/\[0u8; 65536\] | a buffer with how many bytes were read beside it
plates tally | \[0; 7\] | counts by the number of a kind
journals Last | count: usize | a payload as a place and a length, for a slice
order Part | used: usize | how many numbers are used, for a slice
text_views Characters | length: usize | a part of the file as a start and a length, for a slice or a range
""",
    "6b": r"""
dgn_all_views put_views | ends\[depth\] = end | ends and headers, parallel by depth
curve_numbers put_curve | from: usize | numbers and floats, parallel
dgn_curves put_curve put_curves dgn_curves | floats | numbers and floats, parallel
dgn_curve dgn_curve | floats | numbers and floats, parallel
dgn_index dgn_cells | entries | entries beside numbers
writer put_points | \[i32\] | coordinates in one list, for points
fields point_count points_fit | dim | coordinates in one list, for points
text_fields triples_ok lists_ok words_before_tail | triples | bytes in threes in one list, for fields
listing plate_line put_counts | pointed: usize | six counts one by one, for a struct or an array
""",
    "6c": r"""
lookup halve | while low < high | a sorted list searched by hand: partition_point
sorting child sift heap_sort sort | s: &mut? ?\[u8\]/or/s: &mut \[u8\]/or/s: &\[u8\] | a heap sort by hand: sort_unstable over an array view
lookup put_live is_marked | / 32 | a table of places by hand: a set
lookup find_live | \[0u8; 16384\] | a table of places by hand: a set
names PAIRS | u16; 1600 | a table of two letters' values in one number each
names letters_by | pair / 256 | two values out of one number of a table
""",
    "6d": r"""
places Above | place: usize | a header by its place: an index into the file
linkages Linkage | place: usize | a linkage by its place and size, for a slice
""",
}


def point_6(src):
    for part, rows in HELD.items():
        listed(src, part, rows)
    for i in src.fns:
        found = [w for w, p in (("file and used", r"\bfile: &(?:mut )?\[u8\], used: usize"), ("journal and jused", r"\bjournal: &(?:mut )?\[u8\], jused: usize|\bjournal_len: usize, jused"), ("index and used", r"\bindex: &(?:mut )?\[u8\], i?used: usize|\bindex_len: usize, iused"), ("numbers and used", r"\b(?:numbers|places|floats): &mut \[(?:i64|f64)\], used: usize")) if re.search(p, i.params)]
        if found:
            say(i, f"6a{' C' if i.c else ''} fn {i.name}: a buffer with its used length beside it ({', '.join(found)})")


# ---- 7: a switch on which step to run, tables of functions

SWITCHES = {
    "7a": r"""
printing put_heading put_line put_end | match listed | which program's lines: a trait for a listing
printing Listed | Elements | which program's lines
faults reversible | kind == 1 | which reversal is tried, by a record's number
undoing undo_opened undo_inserted | match last/or/match found | which reversal is run
undoing place_in | match last | a field that each kind of record has
indexed cells_back | match undoing::record_by | which cells a reversal brings back
dgn_record put_last | match last | which numbers a kind of record has
finder is_wanted find_wanted search look is_hit | wanted: Wanted | which cells are taken: a predicate
files judge_list stops reach | each: bool | where judging stops: a predicate
totals moved_word move_word correct_header correct_from correct_totals | up: bool | whether a number is raised or lowered: a step as a parameter
changes correct_under | up: bool | whether a number is raised or lowered
texts known_byte each_field_ok | known | which way a byte is read
range_checks known_word known_signed lies_at each_lies | known | which way a word is read
flags put_flag | if deleted | a flag set or cleared
undoing undo_within undo_opened undo_flag undo_renamed undo_inserted undo_removed back_fault | full: bool | whether an index is too small, told by a flag
indexed finish told | full: bool | whether an index is too small, told by a flag
marking rename_opened | named: bool | whether there is a name, told by a flag
""",
    "7b": r"""
kinds is_header is_counted is_pointed is_curve is_linked is_unread fixed_part | match t | a property of a type by its number: a method of an enum
plates kind_of slot_of tally | slot/or/return 0/or/return 6 | a count by the number of a kind
elements simple_fault plain_fault late_fault is_late | t | which checks a type has, by tests of its number
""",
}


def point_7(src):
    for part, rows in SWITCHES.items():
        listed(src, part, rows)


# ---- 8: proofs

def entries_of(t):
    """The answers of a file: (line, name, term)."""
    for m in re.finditer(r"(?m)^(?:abbrev )?(?:pub )?(\S+) : goal\.\S+\s*$", t):
        rest = t[m.end():]
        k = re.search(r"\n[ \t]*(?:\n|\Z)|\n--", rest)
        d = (rest[:k.start()] if k else rest).strip()
        d = re.sub(r"(?m)^unfolding.*\n", "", d)
        q = re.match(re.escape(m[1]) + r"(?:\s+[^\s=]+)*\s*=\s*", d)
        term = " ".join((d[q.end():] if q else d).split())
        yield t.count("\n", 0, m.start()) + 1, m[1], term


# pages that state again, for a reader, what lies elsewhere
PAGES = ("demands", "promises", "dgn_sessions")

ALONE = r"tt|refl|omega arith|search rules|cc|grind|\(*(?:tt|refl|omega arith|search rules)(?:, \(*(?:tt|refl|omega arith|search rules)\)*)*\)*|_"


def point_8(src):
    said, laws = {}, {}
    for p in names(r"crates/[^/]+/proofs/.*\.antt"):
        crate, short = p.split("/")[1], p.split("/", 2)[2]
        if p.endswith("/Invariants.antt"):
            continue
        t = text(p)
        if p.endswith("/Answers.antt"):
            for line, name, term in entries_of(t):
                plain = term.replace("\n", " ")
                if re.fullmatch(ALONE, plain):
                    OUT.append((crate, short, line, f"8a {name}: the whole term is `{plain}`"))
                elif re.fullmatch(r"simp [^()]+(?: \(omega arith\))?|omega \(arith[^()]*\)|grind \([^()]*\)|omega \(arith, [^()]*(?:\([^()]*\))?[^()]*\)", plain):
                    OUT.append((crate, short, line, f"8b {name}: one tactic, `{plain[:70]}`"))
                else:
                    said.setdefault(plain, []).append((crate, short, line, name))
        for m in re.finditer(r"(?m)^(?:abbrev )?(?:pub )?(\S+) : ((?!goal\.).+(?:\n    .+)*)", re.sub(r"(?m)^--.*$", "", t)):
            law = " ".join(m[2].split())
            if crate in PAGES or short.endswith("/Promises.antt"):
                continue
            if len(law) > 30 and ("≡" in law or "≤" in law or "<" in law):
                laws.setdefault(law, []).append((crate, short, t.count("\n", 0, m.start()) + 1, m[1]))
    for term, places in said.items():
        if len(places) > 2:
            for crate, short, line, name in places:
                OUT.append((crate, short, line, f"8c {name}: said {len(places)} times, `{term[:70]}`"))
    for law, places in laws.items():
        if len(set((c, s) for c, s, _, _ in places)) > 1:
            for crate, short, line, name in places:
                OUT.append((crate, short, line, f"8d {name}: stated in {len(places)} places, {law[:70]}"))


POINTS = {"1": point_1, "2": point_2, "3": point_3, "4": point_4, "5": point_5, "6": point_6, "7": point_7, "8": point_8}


def main(argv):
    global COMMIT
    args = list(argv)
    if "--at" in args:
        k = args.index("--at")
        COMMIT = args[k + 1]
        del args[k:k + 2]
    count = "--count" in args
    args = [a for a in args if a != "--count"]
    if len(args) != 1 or args[0] not in POINTS:
        print(__doc__.strip(), file=sys.stderr)
        return 2
    POINTS[args[0]](None if args[0] == "8" else Source())
    rows = sorted(set(OUT), key=lambda r: (r[3].split()[0] if args[0] != "2" else "", r))
    if count:
        parts = {}
        for r in rows:
            words = r[3].split()
            part = words[0] + (" C" if words[1] == "C" else "")
            parts[part] = parts.get(part, 0) + 1
        for k, v in sorted(parts.items()):
            print(k, v)
        print("all", len(rows))
        return 0
    for crate, path, line, what in rows:
        print(f"{crate}/{path}:{line}: {what}")
    return 0


if __name__ == "__main__":
    sys.exit(main(sys.argv[1:]))
