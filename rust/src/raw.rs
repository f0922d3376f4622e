//! The functions of include/dgn.h with just their arguments, each slice a pointer and a length there, and just the number
//! that they return: 0 where it is done, else the refusal's number + 256 × its detail ([`Refusal::of`] takes it apart).
//! Any slices and numbers may be handed over.
//!
//! [`Refusal::of`]: crate::Refusal::of
#![allow(clippy::too_many_arguments)]

/// The top of the file, for a header's place.
pub const TOP: usize = usize::MAX;

/// The numbers of a view.
pub const VIEW_NUMBERS: usize = 32;

/// The numbers of a text.
pub const TEXT_NUMBERS: usize = 15;

/// The numbers of a text among those of a file.
pub const TEXTS_NUMBERS: usize = 18;

/// The numbers of an ellipse or an arc.
pub const CURVE_NUMBERS: usize = 7;

/// The floats of an ellipse or an arc.
pub const CURVE_FLOATS: usize = 5;

/// The numbers of an ellipse or an arc among those of a file.
pub const CURVES_NUMBERS: usize = 9;

/// The numbers of a plate.
pub const PLATE_NUMBERS: usize = 9;

/// The numbers of a plate among those of a file.
pub const PLATES_NUMBERS: usize = 11;

/// The fields that [`write()`] and [`write_text()`] take.
pub const WRITE_FIELDS: usize = 16;

/// The numbers of a text that [`write_text()`] takes.
pub const WRITE_TEXT_NUMBERS: usize = 12;

/// Makes each `pub fn NAME(ARGUMENTS) = C_NAME;` a function that declares the C one and calls it: a slice becomes a
/// pointer and a length, a number stays. In brackets, as far as they are made: the arguments in C's declaration, and what
/// is handed to it.
macro_rules! functions {
    () => {};
    ($(#[$doc:meta])* pub fn $name:ident($($arguments:tt)*) = $c:ident; $($rest:tt)*) => {
        $(#[$doc])*
        pub fn $name($($arguments)*) -> usize {
            functions!(@call $c [] [] $($arguments)*,)
        }
        functions!($($rest)*);
    };
    (@call $c:ident [$($declared:tt)*] [$($handed:tt)*] $slice:ident: &[$of:ty], $($rest:tt)*) => {
        functions!(@call $c [$($declared)* _: *const $of, _: usize,] [$($handed)* $slice.as_ptr(), $slice.len(),] $($rest)*)
    };
    (@call $c:ident [$($declared:tt)*] [$($handed:tt)*] $slice:ident: &mut [$of:ty], $($rest:tt)*) => {
        functions!(@call $c [$($declared)* _: *mut $of, _: usize,] [$($handed)* $slice.as_mut_ptr(), $slice.len(),] $($rest)*)
    };
    (@call $c:ident [$($declared:tt)*] [$($handed:tt)*] $number:ident: usize, $($rest:tt)*) => {
        functions!(@call $c [$($declared)* _: usize,] [$($handed)* $number,] $($rest)*)
    };
    (@call $c:ident [$($declared:tt)*] [$($handed:tt)*]) => {{
        extern "C" {
            fn $c($($declared)*) -> usize;
        }
        // any slices and numbers are allowed, and the borrows keep what is written from overlapping
        unsafe { $c($($handed)*) }
    }};
}

functions! {
    /// out: elements, greatest depth, marker's place.
    pub fn judge(file: &[u8], dim: usize, out: &mut [usize]) = dgn_judge;

    /// out: the place, how many elements were looked at.
    pub fn find(file: &[u8], dim: usize, text: &[u8], out: &mut [usize]) = dgn_find;

    /// out: the same.
    pub fn find_with_deleted(file: &[u8], dim: usize, text: &[u8], out: &mut [usize]) = dgn_find_with_deleted;

    /// out: the first word, the word after the last.
    pub fn extent(file: &[u8], dim: usize, place: usize, out: &mut [usize]) = dgn_extent;

    /// out: the 32 numbers of a view.
    pub fn view(file: &[u8], dim: usize, place: usize, out: &mut [i64]) = dgn_view;

    /// out: x, y, z.
    pub fn point(file: &[u8], dim: usize, place: usize, k: usize, out: &mut [i64]) = dgn_point;

    /// out: 1 where all points lie in the range, else 0.
    pub fn in_range(file: &[u8], dim: usize, place: usize, out: &mut [usize]) = dgn_in_range;

    /// out: 1 for a user linkage, place, size, id.
    pub fn linkage(file: &[u8], dim: usize, place: usize, k: usize, out: &mut [usize]) = dgn_linkage;

    /// out: the 15 numbers of a text.
    pub fn text(file: &[u8], dim: usize, place: usize, out: &mut [i64]) = dgn_text;

    /// out: the byte where the characters begin, how many.
    pub fn characters(file: &[u8], dim: usize, place: usize, out: &mut [usize]) = dgn_characters;

    /// out: first character, how many, justification.
    pub fn field(file: &[u8], dim: usize, place: usize, k: usize, out: &mut [i64]) = dgn_field;

    /// numbers and floats: the 7 and the 5 of an ellipse or an arc.
    pub fn curve(file: &[u8], dim: usize, place: usize, numbers: &mut [i64], floats: &mut [f64]) = dgn_curve;

    /// out: the 9 numbers of a plate.
    pub fn plate(file: &[u8], dim: usize, place: usize, out: &mut [i64]) = dgn_plate;

    /// out: how many views were put into `views`, 32 numbers each.
    pub fn views(file: &[u8], dim: usize, k: usize, views: &mut [i64], out: &mut [usize]) = dgn_views;

    /// out: the next element number, how many numbers were put into `numbers`.
    pub fn points(file: &[u8], dim: usize, k: usize, numbers: &mut [i64], out: &mut [usize]) = dgn_points;

    /// out: the next element number, how many texts were put into `numbers`, 18 numbers each.
    pub fn texts(file: &[u8], dim: usize, k: usize, numbers: &mut [i64], out: &mut [usize]) = dgn_texts;

    /// out: the next element number, how many ellipses and arcs were put into `numbers` and `floats`, 9 and 5 each.
    pub fn curves(
        file: &[u8], dim: usize, k: usize, numbers: &mut [i64], floats: &mut [f64], out: &mut [usize]
    ) = dgn_curves;

    /// out: the next element number, how many places were put into `places`.
    pub fn ranges(file: &[u8], dim: usize, k: usize, places: &mut [i64], out: &mut [usize]) = dgn_ranges;

    /// out: the next element number, how many plates were put into `numbers`, 11 numbers each.
    pub fn plates(file: &[u8], dim: usize, k: usize, numbers: &mut [i64], out: &mut [usize]) = dgn_plates;

    /// out: two words.
    pub fn pack(text: &[u8], out: &mut [usize]) = dgn_pack;

    /// text: seven bytes, the letters and zeros behind them.
    pub fn unpack(first: usize, second: usize, text: &mut [u8]) = dgn_unpack;

    /// out: how many cells, elements, greatest depth, marker's place.
    pub fn cells(file: &[u8], dim: usize, entries: &mut [u8], out: &mut [usize]) = dgn_cells;

    /// out: the used length of the index at the front of `index`.
    pub fn index(file: &[u8], dim: usize, index: &mut [u8], out: &mut [usize]) = dgn_index;

    /// out: the place, how many looks.
    pub fn look_up(
        file: &[u8], dim: usize,
        index: &[u8], used: usize,
        text: &[u8], out: &mut [usize]
    ) = dgn_look_up;

    /// out: the same.
    pub fn look_up_with_deleted(index: &[u8], used: usize, text: &[u8], out: &mut [usize]) = dgn_look_up_with_deleted;

    /// out: the words written to the front of `buffer`.
    pub fn write(
        fields: &[i64], points: &[i32], tail: &[u8],
        dim: usize, buffer: &mut [u8], out: &mut [usize]
    ) = dgn_write;

    /// out: the words written to the front of `buffer`.
    pub fn write_text(
        fields: &[i64], text: &[i64], characters: &[u8], triples: &[u8], tail: &[u8],
        dim: usize, buffer: &mut [u8], out: &mut [usize]
    ) = dgn_write_text;

    /// out: the used lengths of file and journal.
    pub fn mark(
        file: &mut [u8], used: usize, journal: &mut [u8], jused: usize, dim: usize,
        place: usize, deleted: usize, out: &mut [usize]
    ) = dgn_mark;

    /// out: the used lengths of file and journal. `text` is the new name.
    pub fn rename(
        file: &mut [u8], used: usize, journal: &mut [u8], jused: usize, dim: usize,
        place: usize, text: &[u8], out: &mut [usize]
    ) = dgn_rename;

    /// out: the used lengths of file and journal. `header` is a place or [`TOP`].
    pub fn insert(
        file: &mut [u8], used: usize, journal: &mut [u8], jused: usize, dim: usize,
        header: usize, place: usize, piece: &[u8], out: &mut [usize]
    ) = dgn_insert;

    /// out: the used lengths of file and journal.
    pub fn remove(
        file: &mut [u8], used: usize, journal: &mut [u8], jused: usize, dim: usize,
        place: usize, out: &mut [usize]
    ) = dgn_remove;

    /// out: the used lengths of file and journal.
    pub fn undo(file: &mut [u8], used: usize, journal: &[u8], jused: usize, dim: usize, out: &mut [usize]) = dgn_undo;

    /// out: the used lengths of file, journal and index.
    pub fn mark_indexed(
        file: &mut [u8], used: usize, journal: &mut [u8], jused: usize, index: &mut [u8], iused: usize, dim: usize,
        place: usize, deleted: usize, out: &mut [usize]
    ) = dgn_mark_indexed;

    /// out: the used lengths of file, journal and index. `text` is the new name.
    pub fn rename_indexed(
        file: &mut [u8], used: usize, journal: &mut [u8], jused: usize, index: &mut [u8], iused: usize, dim: usize,
        place: usize, text: &[u8], out: &mut [usize]
    ) = dgn_rename_indexed;

    /// out: the used lengths of file, journal and index. `header` is a place or [`TOP`].
    pub fn insert_indexed(
        file: &mut [u8], used: usize, journal: &mut [u8], jused: usize, index: &mut [u8], iused: usize, dim: usize,
        header: usize, place: usize, piece: &[u8], out: &mut [usize]
    ) = dgn_insert_indexed;

    /// out: the used lengths of file, journal and index.
    pub fn remove_indexed(
        file: &mut [u8], used: usize, journal: &mut [u8], jused: usize, index: &mut [u8], iused: usize, dim: usize,
        place: usize, out: &mut [usize]
    ) = dgn_remove_indexed;

    /// out: the used lengths of file, journal and index.
    pub fn undo_indexed(
        file: &mut [u8], used: usize, journal: &[u8], jused: usize, index: &mut [u8], iused: usize, dim: usize,
        out: &mut [usize]
    ) = dgn_undo_indexed;

    /// out: kind, header's place or [`TOP`], place, payload words, the used length before the record.
    pub fn record(journal: &[u8], jused: usize, out: &mut [usize]) = dgn_record;

    /// out: the bytes written to the front of `buffer`.
    pub fn journal_to_blocks(journal: &[u8], buffer: &mut [u8], out: &mut [usize]) = dgn_journal_to_blocks;

    /// out: the bytes written to the front of `journal`.
    pub fn journal_from_blocks(stored: &[u8], journal: &mut [u8], out: &mut [usize]) = dgn_journal_from_blocks;
}
