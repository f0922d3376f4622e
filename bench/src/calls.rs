//! What is measured: the proved library by its bindings and the C code, with the second reader's types.

use dgn::raw;
use reader::{Call, FindRefusal, Found, Index, Judged, Refusal, State};

extern "C" {
    fn plain_judge(file: *const u8, len: usize, dim: usize, out: *mut usize) -> usize;
    fn plain_views(
        file: *const u8,
        len: usize,
        dim: usize,
        k: usize,
        views: *mut i64,
        room: usize,
        out: *mut usize,
    ) -> usize;
    fn plain_points(
        file: *const u8,
        len: usize,
        dim: usize,
        k: usize,
        numbers: *mut i64,
        room: usize,
        out: *mut usize,
    ) -> usize;
    fn plain_texts(
        file: *const u8,
        len: usize,
        dim: usize,
        k: usize,
        numbers: *mut i64,
        room: usize,
        out: *mut usize,
    ) -> usize;
    fn plain_curves(
        file: *const u8,
        len: usize,
        dim: usize,
        k: usize,
        numbers: *mut i64,
        room: usize,
        floats: *mut f64,
        floats_room: usize,
        out: *mut usize,
    ) -> usize;
    fn plain_ranges(
        file: *const u8,
        len: usize,
        dim: usize,
        k: usize,
        places: *mut i64,
        room: usize,
        out: *mut usize,
    ) -> usize;
    fn plain_plates(
        file: *const u8,
        len: usize,
        dim: usize,
        k: usize,
        numbers: *mut i64,
        room: usize,
        out: *mut usize,
    ) -> usize;
    fn hop_sizes(file: *const u8) -> usize;
    fn hop_totals(file: *const u8) -> usize;
    fn hop_extent(file: *const u8, at: usize, end: usize) -> usize;
    fn move_bytes(file: *mut u8, from: usize, to: usize, n: usize);
    fn gdal_found() -> i32;
    fn gdal_texts(file: *mut u8, len: usize) -> usize;
}

/// An answer, or the refusal that the returned number says.
fn answer<T>(returned: usize, answer: T) -> Result<T, Refusal> {
    match returned {
        0 => Ok(answer),
        _ => Err(Refusal { number: (returned % 256) as u32, place: (returned / 256) as u64 }),
    }
}

fn judged(out: [usize; 3]) -> Judged {
    Judged { elements: out[0] as u64, deepest: out[1] as u64, marker: out[2] as u64 }
}

pub fn judge(file: &[u8], dim: u64) -> Result<Judged, Refusal> {
    let mut out = [0; 3];
    let returned = raw::judge(file, dim as usize, &mut out);
    answer(returned, judged(out))
}

pub fn judge_in_c(file: &[u8], dim: u64) -> Result<Judged, Refusal> {
    let mut out = [0; 3];
    match unsafe { plain_judge(file.as_ptr(), file.len(), dim as usize, out.as_mut_ptr()) } {
        0 => Ok(judged(out)),
        number => Err(Refusal { number: number as u32, place: out[0] as u64 }),
    }
}

pub fn find(file: &[u8], dim: u64, text: &[u8]) -> Result<Found, FindRefusal> {
    let mut out = [0; 2];
    match dgn::Refusal::of_find(raw::find(file, dim as usize, text, &mut out)) {
        None => Ok(Found { place: out[0] as u64, looked: out[1] as u64 }),
        Some(r) => Err(FindRefusal { number: r.number as u32, place: r.place as u64, count: r.count as u64 }),
    }
}

pub fn extent(file: &[u8], dim: u64, place: u64) -> Result<(u64, u64), Refusal> {
    let mut out = [0; 2];
    let returned = raw::extent(file, dim as usize, place as usize, &mut out);
    answer(returned, (out[0] as u64, out[1] as u64))
}

/// A view of the element at a place: here only whether there is one. Its fields are compared by tests/compare.
pub fn view(file: &[u8], dim: u64, place: u64) -> Result<(), Refusal> {
    let mut out = [0; 32];
    answer(raw::view(file, dim as usize, place as usize, &mut out), ())
}

/// The slices that a call puts numbers, and floats where it has any, into.
#[derive(Clone)]
pub struct Slices {
    pub numbers: Vec<i64>,
    pub floats: Vec<f64>,
}

impl Slices {
    /// Slices of so many numbers and floats.
    pub fn new([numbers, floats]: [usize; 2]) -> Slices {
        Slices { numbers: vec![7; numbers], floats: vec![7.0; floats] }
    }

    /// The same numbers and, bit by bit, the same floats.
    pub fn same(&self, other: &Slices) -> bool {
        let bits = |slices: &Slices| slices.floats.iter().map(|float| float.to_bits()).collect::<Vec<_>>();
        self.numbers == other.numbers && bits(self) == bits(other)
    }
}

/// The next element number, and how many numbers and floats from element number k on are put into the slices; or the number of a
/// refusal.
pub type Put = Result<(usize, [usize; 2]), u32>;

fn put(returned: usize, next: usize, written: [usize; 2]) -> Put {
    answer(returned, (next, written)).map_err(|r| r.number)
}

pub fn views(file: &[u8], dim: u64, k: usize, slices: &mut Slices) -> Put {
    let mut out = [0];
    let returned = raw::views(file, dim as usize, k, &mut slices.numbers, &mut out);
    put(returned, k + out[0], [raw::VIEW_NUMBERS * out[0], 0])
}

pub fn views_in_c(file: &[u8], dim: u64, k: usize, slices: &mut Slices) -> Put {
    let mut out = [0];
    let (v, room, o) = (slices.numbers.as_mut_ptr(), slices.numbers.len(), out.as_mut_ptr());
    let returned = unsafe { plain_views(file.as_ptr(), file.len(), dim as usize, k, v, room, o) };
    put(returned, k + out[0], [raw::VIEW_NUMBERS * out[0], 0])
}

pub fn points(file: &[u8], dim: u64, k: usize, slices: &mut Slices) -> Put {
    let mut out = [0; 2];
    let returned = raw::points(file, dim as usize, k, &mut slices.numbers, &mut out);
    put(returned, out[0], [out[1], 0])
}

pub fn points_in_c(file: &[u8], dim: u64, k: usize, slices: &mut Slices) -> Put {
    let mut out = [0; 2];
    let (n, room, o) = (slices.numbers.as_mut_ptr(), slices.numbers.len(), out.as_mut_ptr());
    let returned = unsafe { plain_points(file.as_ptr(), file.len(), dim as usize, k, n, room, o) };
    put(returned, out[0], [out[1], 0])
}

pub fn texts(file: &[u8], dim: u64, k: usize, slices: &mut Slices) -> Put {
    let mut out = [0; 2];
    let returned = raw::texts(file, dim as usize, k, &mut slices.numbers, &mut out);
    put(returned, out[0], [raw::TEXTS_NUMBERS * out[1], 0])
}

pub fn texts_in_c(file: &[u8], dim: u64, k: usize, slices: &mut Slices) -> Put {
    let mut out = [0; 2];
    let (n, room, o) = (slices.numbers.as_mut_ptr(), slices.numbers.len(), out.as_mut_ptr());
    let returned = unsafe { plain_texts(file.as_ptr(), file.len(), dim as usize, k, n, room, o) };
    put(returned, out[0], [raw::TEXTS_NUMBERS * out[1], 0])
}

pub fn curves(file: &[u8], dim: u64, k: usize, slices: &mut Slices) -> Put {
    let mut out = [0; 2];
    let returned = raw::curves(file, dim as usize, k, &mut slices.numbers, &mut slices.floats, &mut out);
    put(returned, out[0], [raw::CURVES_NUMBERS * out[1], raw::CURVE_FLOATS * out[1]])
}

pub fn curves_in_c(file: &[u8], dim: u64, k: usize, slices: &mut Slices) -> Put {
    let mut out = [0; 2];
    let Slices { numbers, floats } = slices;
    let returned = unsafe {
        plain_curves(
            file.as_ptr(),
            file.len(),
            dim as usize,
            k,
            numbers.as_mut_ptr(),
            numbers.len(),
            floats.as_mut_ptr(),
            floats.len(),
            out.as_mut_ptr(),
        )
    };
    put(returned, out[0], [raw::CURVES_NUMBERS * out[1], raw::CURVE_FLOATS * out[1]])
}

/// The places of elements whose points do not all lie in their range.
pub fn ranges(file: &[u8], dim: u64, k: usize, slices: &mut Slices) -> Put {
    let mut out = [0; 2];
    let returned = raw::ranges(file, dim as usize, k, &mut slices.numbers, &mut out);
    put(returned, out[0], [out[1], 0])
}

pub fn ranges_in_c(file: &[u8], dim: u64, k: usize, slices: &mut Slices) -> Put {
    let mut out = [0; 2];
    let (p, room, o) = (slices.numbers.as_mut_ptr(), slices.numbers.len(), out.as_mut_ptr());
    let returned = unsafe { plain_ranges(file.as_ptr(), file.len(), dim as usize, k, p, room, o) };
    put(returned, out[0], [out[1], 0])
}

pub fn plates(file: &[u8], dim: u64, k: usize, slices: &mut Slices) -> Put {
    let mut out = [0; 2];
    let returned = raw::plates(file, dim as usize, k, &mut slices.numbers, &mut out);
    put(returned, out[0], [raw::PLATES_NUMBERS * out[1], 0])
}

pub fn plates_in_c(file: &[u8], dim: u64, k: usize, slices: &mut Slices) -> Put {
    let mut out = [0; 2];
    let (n, room, o) = (slices.numbers.as_mut_ptr(), slices.numbers.len(), out.as_mut_ptr());
    let returned = unsafe { plain_plates(file.as_ptr(), file.len(), dim as usize, k, n, room, o) };
    put(returned, out[0], [raw::PLATES_NUMBERS * out[1], 0])
}

/// The elements at all depths and at the top of an accepted file.
pub fn by_sizes(file: &[u8]) -> u64 {
    unsafe { hop_sizes(file.as_ptr()) as u64 }
}

pub fn by_totals(file: &[u8]) -> u64 {
    unsafe { hop_totals(file.as_ptr()) as u64 }
}

/// The elements of an accepted file from a place up to the end of an extent.
pub fn in_extent(file: &[u8], at: usize, end: usize) -> usize {
    assert!(2 * end <= file.len());
    unsafe { hop_extent(file.as_ptr(), at, end) }
}

/// Whether GDAL's shared library is installed; only then its reader may be called.
pub fn has_gdal() -> bool {
    unsafe { gdal_found() != 0 }
}

/// The number of texts that GDAL's reader finds.
pub fn texts_by_gdal(file: &mut [u8]) -> usize {
    unsafe { gdal_texts(file.as_mut_ptr(), file.len()) }
}

/// One call of a session, which takes over the new used lengths.
pub fn edit(s: &mut State, call: &Call) -> Result<(), Refusal> {
    let (used, jused, dim) = (s.used as usize, s.jused as usize, s.dim as usize);
    let (file, journal) = (&mut s.file[..], &mut s.journal[..]);
    let mut out = [0; 2];
    let returned = match call {
        Call::Mark { place, deleted } => {
            raw::mark(file, used, journal, jused, dim, *place as usize, usize::from(*deleted), &mut out)
        }
        Call::Insert { header, place, piece } => {
            let header = header.map_or(raw::TOP, |h| h as usize);
            raw::insert(file, used, journal, jused, dim, header, *place as usize, piece, &mut out)
        }
        Call::Remove { place } => raw::remove(file, used, journal, jused, dim, *place as usize, &mut out),
        Call::Undo => raw::undo(file, used, journal, jused, dim, &mut out),
        Call::Rename { place, text } => raw::rename(file, used, journal, jused, dim, *place as usize, text, &mut out),
    };
    answer(returned, ())?;
    [s.used, s.jused] = out.map(|length| length as u64);
    Ok(())
}

/// The same with an index.
pub fn edit_indexed(s: &mut State, index: &mut Index, call: &Call) -> Result<(), Refusal> {
    let (used, jused, iused, dim) = (s.used as usize, s.jused as usize, index.used as usize, s.dim as usize);
    let (f, j, i) = (&mut s.file[..], &mut s.journal[..], &mut index.buffer[..]);
    let mut out = [0; 3];
    let returned = match call {
        Call::Mark { place, deleted } => {
            raw::mark_indexed(f, used, j, jused, i, iused, dim, *place as usize, usize::from(*deleted), &mut out)
        }
        Call::Insert { header, place, piece } => {
            let header = header.map_or(raw::TOP, |h| h as usize);
            raw::insert_indexed(f, used, j, jused, i, iused, dim, header, *place as usize, piece, &mut out)
        }
        Call::Remove { place } => raw::remove_indexed(f, used, j, jused, i, iused, dim, *place as usize, &mut out),
        Call::Undo => raw::undo_indexed(f, used, j, jused, i, iused, dim, &mut out),
        Call::Rename { place, text } => {
            raw::rename_indexed(f, used, j, jused, i, iused, dim, *place as usize, text, &mut out)
        }
    };
    answer(returned, ())?;
    [s.used, s.jused, index.used] = out.map(|length| length as u64);
    Ok(())
}

/// Moves bytes within a file.
pub fn move_within(file: &mut [u8], from: usize, to: usize, n: usize) {
    assert!(from.max(to) + n <= file.len());
    unsafe { move_bytes(file.as_mut_ptr(), from, to, n) }
}
