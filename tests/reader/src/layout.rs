//! What the types are: fixed parts, headers, names, and what may stand where.

/// The longest file, and the longest session buffer, in bytes.
pub const LIMIT: u64 = 1_048_576;

/// The word that ends a file.
pub const MARKER: u64 = 65_535;

/// The longest element and the longest extent, in words.
pub const LARGEST: u64 = 65_535;

/// The deepest depth allowed.
pub const DEEPEST: u64 = 8;

/// The offset of the total in a header, and of the count after it.
pub const TOTAL_WORD: u64 = 18;
pub const COUNT_WORD: u64 = 19;

/// A dimension that the caller may name.
pub fn good_dimension(dim: u64) -> bool {
    dim == 2 || dim == 3
}

/// Types with a total.
pub fn is_header(kind: u64) -> bool {
    matches!(kind, 1 | 2 | 7 | 12 | 14 | 18 | 19)
}

/// Headers that count their direct components.
pub fn has_count(kind: u64) -> bool {
    matches!(kind, 7 | 12 | 14 | 18 | 19)
}

/// Types with N points behind word 18.
pub fn has_points_counted(kind: u64) -> bool {
    matches!(kind, 4 | 6 | 11 | 21)
}

/// Types with a fixed part.
pub fn is_known(kind: u64) -> bool {
    is_header(kind) || has_points_counted(kind) || matches!(kind, 3 | 15 | 16 | 17)
}

/// Known types other than 1 have words 14 to 17, and may have linkages.
pub fn has_display(kind: u64) -> bool {
    is_known(kind) && kind != 1
}

/// The offset of the first name word in a cell.
pub fn name_word(kind: u64) -> Option<u64> {
    match kind {
        1 => Some(16),
        2 => Some(19),
        _ => None,
    }
}

/// The offset of the first point.
pub fn point_word(kind: u64) -> Option<u64> {
    match kind {
        3 => Some(18),
        4 | 6 | 11 | 21 => Some(19),
        _ => None,
    }
}

/// The offset of the two counts of a text: characters in the low byte, fields
/// in the high one. The characters follow, then the fields, three bytes each.
pub fn counts_word(dim: u64) -> u64 {
    if dim == 3 {
        37
    } else {
        29
    }
}

/// The counts in such a word: characters and fields.
pub fn counts(word: u64) -> (u64, u64) {
    (word & 255, word >> 8 & 255)
}

/// The offset of the word that sizes the fixed part, in types that have one:
/// N, or the counts of a text.
pub fn sizing_word(kind: u64, dim: u64) -> Option<u64> {
    match kind {
        4 | 6 | 11 | 21 => Some(18),
        17 => Some(counts_word(dim)),
        _ => None,
    }
}

/// The words of the fixed part; 2 for a raw type. `n` is the word that sizes
/// it.
pub fn fixed_part(kind: u64, dim: u64, n: u64) -> u64 {
    let solid = dim == 3;
    match kind {
        1 => 35,
        2 => {
            if solid {
                62
            } else {
                46
            }
        }
        3 => {
            if solid {
                30
            } else {
                26
            }
        }
        4 | 6 | 11 | 21 => 19 + n * if solid { 6 } else { 4 },
        7 => {
            if solid {
                43
            } else {
                35
            }
        }
        12 | 14 => 20,
        15 => {
            if solid {
                46
            } else {
                36
            }
        }
        16 => {
            if solid {
                50
            } else {
                40
            }
        }
        17 => {
            // The bytes of characters and fields, rounded up once.
            let (characters, fields) = counts(n);
            counts_word(dim) + 1 + (characters + 3 * fields).div_ceil(2)
        }
        18 | 19 => 21,
        _ => 2,
    }
}

/// N is from 2 to 101.
pub fn good_n(n: u64) -> bool {
    (2..=101).contains(&n)
}

/// Whether a type is read at all, and may stand directly under a header of
/// type `above`, or at the top.
pub fn may_stand(kind: u64, dim: u64, above: Option<u64>) -> bool {
    if matches!(kind, 24 | 27 | 87) {
        return false;
    }
    if matches!(kind, 18 | 19) && dim == 2 {
        return false;
    }
    match above {
        None => true,
        Some(7) => kind == 17,
        Some(12 | 14 | 18 | 19) => !is_header(kind),
        Some(_) => kind != 1,
    }
}
