//! The proved library by its bindings' functions on slices, in the second reader's types. Everything that is lent lies
//! between two pages that may not be touched. What is lent to be read must stay, and a refusal changes no byte of
//! anything lent; an answer slice is filled with a mark, so that a number that is not written, or written where none is
//! due, is seen.

use crate::guard::{Guard, Side};
use dgn::raw;
use reader::generate::moves::Way;
use reader::{Call, Field, FindRefusal, Found, Index, Judged, Linkage, LinkageKind, Refusal, State};
use std::cell::Cell;
use std::hint::black_box;
use std::slice::{from_raw_parts, from_raw_parts_mut};

/// The top, as a header's place: `DGN_TOP` of include/dgn.h.
pub const TOP: u64 = raw::TOP as u64;

/// The longest file that is handed over, one word above the limit.
pub const LONGEST: usize = 1_048_578;

/// The longest stored journal, or buffer for one, that is handed over.
pub const LONGEST_STORED: usize = 1_060_864;

/// The longest list of coordinates that is handed over.
pub const MOST_COORDINATES: usize = 70_000;

/// The longest slice for views or points: all views of the most elements.
pub const MOST_NUMBERS: usize = 32 * 262_144;

/// The most places that dgn_ranges gives of a file.
pub const MOST_RANGES: usize = 20_164;

/// The longest slice for floats: those of the most ellipses, and some more.
pub const MOST_FLOATS: usize = 5 * 15_000;

/// A guard for each argument of a call.
struct Lending {
    file: Guard,
    text: Guard,
    fields: Guard,
    points: Guard,
    text_numbers: Guard,
    triples: Guard,
    tail: Guard,
    buffer: Guard,
    journal: Guard,
    index: Guard,
    moved_from: Guard,
    moved_to: Guard,
    numbers: Guard,
    floats: Guard,
    out: Guard,
    side: Cell<Side>,
    read_only: Cell<bool>,
    spare: Cell<usize>,
}

thread_local! {
    static LENDING: Lending = Lending {
        file: Guard::new(LONGEST),
        text: Guard::new(LONGEST),
        fields: Guard::new(4096),
        points: Guard::new(4 * MOST_COORDINATES),
        text_numbers: Guard::new(4096),
        triples: Guard::new(LONGEST),
        tail: Guard::new(LONGEST),
        buffer: Guard::new(LONGEST),
        journal: Guard::new(LONGEST),
        index: Guard::new(LONGEST),
        moved_from: Guard::new(LONGEST_STORED),
        moved_to: Guard::new(LONGEST_STORED),
        numbers: Guard::new(8 * MOST_NUMBERS),
        floats: Guard::new(8 * MOST_FLOATS),
        out: Guard::new(4096),
        side: const { Cell::new(Side::Behind) },
        read_only: const { Cell::new(false) },
        spare: const { Cell::new(0) },
    };
}

/// From now on everything lent lies next to this page; with `read_only` what is to be read cannot be written at all.
pub fn lend_at(side: Side, read_only: bool) {
    LENDING.with(|l| {
        l.side.set(side);
        l.read_only.set(read_only);
    });
}

/// Lends values to be read.
fn lent<T: Copy + PartialEq, R>(l: &Lending, guard: &Guard, values: &[T], call: impl FnOnce(&[T]) -> R) -> R {
    let at = guard.lend(values, l.side.get());
    if l.read_only.get() {
        guard.read_only();
    }
    let answer = call(unsafe { from_raw_parts(at, values.len()) });
    if l.read_only.get() {
        guard.writable();
    }
    // by its address again, whatever is taken for granted of a slice that is shared
    assert!(unsafe { from_raw_parts(black_box(at), values.len()) } == values, "what is lent to be read stays");
    answer
}

/// Lends a copy of values to be written, which is copied back. A refusal leaves them.
fn lent_to_write<T: Copy + PartialEq, R>(
    l: &Lending,
    guard: &Guard,
    values: &mut [T],
    call: impl FnOnce(&mut [T]) -> Result<R, Refused>,
) -> Result<R, Refused> {
    let at = guard.lend(values, l.side.get());
    let answer = call(unsafe { from_raw_parts_mut(at, values.len()) });
    let after = unsafe { from_raw_parts(black_box(at), values.len()) };
    match answer {
        Ok(_) => values.copy_from_slice(after),
        Err(_) => assert!(after == values, "a refusal changes no byte"),
    }
    answer
}

/// A number that the library does not write by itself.
pub trait Mark: Copy + PartialEq + std::fmt::Debug {
    const MARK: Self;
}

impl Mark for usize {
    const MARK: usize = 0xa5a5_a5a5_a5a5;
}

impl Mark for i64 {
    const MARK: i64 = -0x5a5a_5a5a_5a5a;
}

/// The bits of a float that the library does not write by itself: not a number, and of those not the one that a machine makes.
const FLOAT_MARK: u64 = 0xfff4_5a5a_5a5a_5a5a;

/// Lends a slice of floats by their bits, so that a float that is not a number is held to its bits too.
fn floats_lent<R>(
    l: &Lending,
    bits: &mut [u64],
    call: impl FnOnce(&mut [f64]) -> Result<R, Refused>,
) -> Result<R, Refused> {
    lent_to_write(l, &l.floats, bits, |b| call(unsafe { from_raw_parts_mut(b.as_mut_ptr().cast(), b.len()) }))
}

impl Mark for u8 {
    const MARK: u8 = 0xa5;
}

/// A refusal's number and its detail.
#[derive(Clone, Copy, PartialEq, Debug)]
struct Refused {
    number: u32,
    detail: u64,
}

impl From<Refused> for Refusal {
    fn from(r: Refused) -> Refusal {
        Refusal { number: r.number, place: r.detail }
    }
}

/// What a function returned.
fn returned(r: usize) -> Result<(), Refused> {
    if r == 0 {
        return Ok(());
    }
    let (number, detail) = (r % 256, r / 256);
    assert!((1..=22).contains(&number), "{r} is no refusal");
    Err(Refused { number: number as u32, detail: detail as u64 })
}

/// Lends an answer slice of N numbers, and in turn none, one and two behind them that must stay. A refusal leaves all.
fn answer<T: Mark, const N: usize>(l: &Lending, call: impl FnOnce(&mut [T]) -> usize) -> Result<[T; N], Refused> {
    let spare = l.spare.replace((l.spare.get() + 1) % 3);
    let marks = [T::MARK; 40];
    let at = l.out.lend(&marks[..N + spare], l.side.get());
    let number = call(unsafe { from_raw_parts_mut(at, N + spare) });
    let out = unsafe { from_raw_parts(black_box(at), N + spare) };
    if let Err(refused) = returned(number) {
        assert!(out == &marks[..N + spare], "a refusal writes nowhere: {refused:?}, {out:?}");
        return Err(refused);
    }
    assert!(out[N..] == marks[..spare], "what stands behind an answer stays: {out:?}");
    Ok(out[..N].try_into().expect("N numbers"))
}

/// An answer slice that is too short: 1, and nothing is written.
fn short<T: Mark, const M: usize>(l: &Lending, call: impl FnOnce(&mut [T]) -> usize) -> Result<(), Refused> {
    let at = l.out.lend(&[T::MARK; M], l.side.get());
    let number = call(unsafe { from_raw_parts_mut(at, M) });
    assert_eq!(number, 1, "{M} numbers are too few");
    assert_eq!(unsafe { from_raw_parts(black_box(at), M) }, [T::MARK; M]);
    returned(number)
}

/// The same for slices of numbers and of floats of which one is too short.
fn short_both(l: &Lending, rooms: (usize, usize), call: impl FnOnce(&mut [i64], &mut [f64]) -> usize) -> Result<(), Refused> {
    let (mut numbers, mut floats) = (vec![i64::MARK; rooms.0], vec![FLOAT_MARK; rooms.1]);
    lent_to_write(l, &l.numbers, &mut numbers, |n| {
        floats_lent(l, &mut floats, |g| {
            let number = call(n, g);
            assert_eq!(number, 1, "{rooms:?} are too few");
            returned(number)
        })
    })
}

/// A call on a file alone, with an answer of N numbers.
fn of_file<T: Mark, const N: usize>(file: &[u8], call: impl FnOnce(&[u8], &mut [T]) -> usize) -> Result<[T; N], Refused> {
    LENDING.with(|l| lent(l, &l.file, file, |f| answer(l, |o| call(f, o))))
}

pub fn judge(file: &[u8], dim: u64) -> Result<Judged, Refusal> {
    let o = of_file::<_, 3>(file, |f, o| raw::judge(f, dim as usize, o))?;
    Ok(Judged { elements: o[0] as u64, deepest: o[1] as u64, marker: o[2] as u64 })
}

/// A place and a count; the detail of 13 is a count too.
fn found(given: Result<[usize; 2], Refused>) -> Result<Found, FindRefusal> {
    match given {
        Ok(o) => Ok(Found { place: o[0] as u64, looked: o[1] as u64 }),
        Err(Refused { number: 13, detail }) => Err(FindRefusal { number: 13, place: 0, count: detail }),
        Err(Refused { number, detail }) => Err(FindRefusal { number, place: detail, count: 0 }),
    }
}

pub fn find(file: &[u8], dim: u64, text: &[u8]) -> Result<Found, FindRefusal> {
    found(LENDING.with(|l| lent(l, &l.text, text, |t| of_file(file, |f, o| raw::find(f, dim as usize, t, o)))))
}

pub fn find_with_deleted(file: &[u8], dim: u64, text: &[u8]) -> Result<Found, FindRefusal> {
    found(LENDING.with(|l| lent(l, &l.text, text, |t| of_file(file, |f, o| raw::find_with_deleted(f, dim as usize, t, o)))))
}

/// Looks a name up in an index alone, deleted cells too.
pub fn look_up_with_deleted(index: &[u8], used: u64, text: &[u8]) -> Result<Found, FindRefusal> {
    found(LENDING.with(|l| {
        lent(l, &l.text, text, |t| {
            lent(l, &l.index, index, |i| answer(l, |o| raw::look_up_with_deleted(i, used as usize, t, o)))
        })
    }))
}

/// Looks a name up in an index with its file, live cells alone.
pub fn look_up(file: &[u8], dim: u64, index: &[u8], used: u64, text: &[u8]) -> Result<Found, FindRefusal> {
    found(LENDING.with(|l| {
        lent(l, &l.text, text, |t| {
            lent(l, &l.index, index, |i| of_file(file, |f, o| raw::look_up(f, dim as usize, i, used as usize, t, o)))
        })
    }))
}

/// Builds the index of a file in a copy of the buffer, which is copied back: its used length.
pub fn build(file: &[u8], dim: u64, index: &mut [u8]) -> Result<u64, Refusal> {
    let out: [usize; 1] = LENDING.with(|l| {
        lent_to_write(l, &l.index, index, |i| of_file(file, |f, o| raw::index(f, dim as usize, i, o)))
    })?;
    Ok(out[0] as u64)
}

/// Puts the cells of a file into a copy of the buffer, which is copied back: how many there are, and what judging gives.
pub fn cells(file: &[u8], dim: u64, entries: &mut [u8]) -> Result<(u64, Judged), Refusal> {
    let out: [usize; 4] = LENDING.with(|l| {
        lent_to_write(l, &l.index, entries, |e| of_file(file, |f, o| raw::cells(f, dim as usize, e, o)))
    })?;
    let [count, elements, deepest, marker] = out.map(|number| number as u64);
    Ok((count, Judged { elements, deepest, marker }))
}

pub fn extent(file: &[u8], dim: u64, place: u64) -> Result<(u64, u64), Refusal> {
    let o = of_file::<_, 2>(file, |f, o| raw::extent(f, dim as usize, place as usize, o))?;
    Ok((o[0] as u64, o[1] as u64))
}

/// The 32 numbers of a view.
pub fn view(file: &[u8], dim: u64, place: u64) -> Result<[i64; 32], Refusal> {
    Ok(of_file(file, |f, o| raw::view(f, dim as usize, place as usize, o))?)
}

/// The 15 numbers of a text.
pub fn text(file: &[u8], dim: u64, place: u64) -> Result<[i64; 15], Refusal> {
    Ok(of_file(file, |f, o| raw::text(f, dim as usize, place as usize, o))?)
}

/// Where a text's characters begin, in bytes of the file, and how many they are.
pub fn characters(file: &[u8], dim: u64, place: u64) -> Result<(u64, u64), Refusal> {
    let o = of_file::<_, 2>(file, |f, o| raw::characters(f, dim as usize, place as usize, o))?;
    Ok((o[0] as u64, o[1] as u64))
}

pub fn field(file: &[u8], dim: u64, place: u64, k: u64) -> Result<Field, Refusal> {
    let o = of_file::<_, 3>(file, |f, o| raw::field(f, dim as usize, place as usize, k as usize, o))?;
    Ok(Field { first: o[0] as u64, length: o[1] as u64, justification: o[2] })
}

/// The three numbers of a point.
pub fn point(file: &[u8], dim: u64, place: u64, k: u64) -> Result<[i64; 3], Refusal> {
    Ok(of_file(file, |f, o| raw::point(f, dim as usize, place as usize, k as usize, o))?)
}

pub fn in_range(file: &[u8], dim: u64, place: u64) -> Result<bool, Refusal> {
    let [held]: [usize; 1] = of_file(file, |f, o| raw::in_range(f, dim as usize, place as usize, o))?;
    assert!(held <= 1);
    Ok(held == 1)
}

pub fn linkage(file: &[u8], dim: u64, place: u64, k: u64) -> Result<Linkage, Refusal> {
    let o = of_file::<_, 4>(file, |f, o| raw::linkage(f, dim as usize, place as usize, k as usize, o))?;
    assert!(o[0] <= 1, "1 for a user linkage, else 0");
    let kind = if o[0] == 1 { LinkageKind::User } else { LinkageKind::Other };
    Ok(Linkage { kind, place: o[1] as u64, size: o[2] as u64, id: u16::try_from(o[3]).unwrap() })
}

/// Lends a slice of so many marked numbers. Gives the answer and the numbers; those behind the `written` ones must stay.
fn filled<const N: usize>(
    room: usize,
    written: impl Fn(&[usize; N]) -> usize,
    call: impl FnOnce(&Lending, &mut [i64]) -> Result<[usize; N], Refused>,
) -> Result<([usize; N], Vec<i64>), Refusal> {
    let mut numbers = vec![i64::MARK; room];
    let out = LENDING.with(|l| lent_to_write(l, &l.numbers, &mut numbers, |n| call(l, n)))?;
    let behind = numbers.split_off(written(&out));
    assert!(behind.iter().all(|&number| number == i64::MARK), "what stands behind the numbers stays");
    Ok((out, numbers))
}

/// The numbers of the views from element number k on, in a slice of so many numbers.
pub fn views(file: &[u8], dim: u64, k: u64, room: usize) -> Result<Vec<i64>, Refusal> {
    let (_, numbers) = filled::<1>(
        room,
        |out| 32 * out[0],
        |l, n| lent(l, &l.file, file, |f| answer(l, |o| raw::views(f, dim as usize, k as usize, n, o))),
    )?;
    Ok(numbers)
}

/// The next element number, and the numbers of the points from element number k on, in a slice of so many numbers.
pub fn points(file: &[u8], dim: u64, k: u64, room: usize) -> Result<(u64, Vec<i64>), Refusal> {
    let (out, numbers) = filled::<2>(
        room,
        |out| out[1],
        |l, n| lent(l, &l.file, file, |f| answer(l, |o| raw::points(f, dim as usize, k as usize, n, o))),
    )?;
    Ok((out[0] as u64, numbers))
}

/// The next element number, and the numbers of the texts from element number k on, in a slice of so many numbers.
pub fn texts(file: &[u8], dim: u64, k: u64, room: usize) -> Result<(u64, Vec<i64>), Refusal> {
    let (out, numbers) = filled::<2>(
        room,
        |out| 18 * out[1],
        |l, n| lent(l, &l.file, file, |f| answer(l, |o| raw::texts(f, dim as usize, k as usize, n, o))),
    )?;
    Ok((out[0] as u64, numbers))
}

/// The next element number, and the places of elements outside their ranges from element number k on, in a slice of so many.
pub fn ranges(file: &[u8], dim: u64, k: u64, room: usize) -> Result<(u64, Vec<i64>), Refusal> {
    let (out, places) = filled::<2>(
        room,
        |out| out[1],
        |l, n| lent(l, &l.file, file, |f| answer(l, |o| raw::ranges(f, dim as usize, k as usize, n, o))),
    )?;
    Ok((out[0] as u64, places))
}

/// The 9 numbers of a plate.
pub fn plate(file: &[u8], dim: u64, place: u64) -> Result<[i64; 9], Refusal> {
    Ok(of_file(file, |f, o| raw::plate(f, dim as usize, place as usize, o))?)
}

/// The next element number, and the 11 numbers of each plate from element number k on, in a slice of so many.
pub fn plates(file: &[u8], dim: u64, k: u64, room: usize) -> Result<(u64, Vec<i64>), Refusal> {
    let (out, numbers) = filled::<2>(
        room,
        |out| 11 * out[1],
        |l, n| lent(l, &l.file, file, |f| answer(l, |o| raw::plates(f, dim as usize, k as usize, n, o))),
    )?;
    Ok((out[0] as u64, numbers))
}

/// Lends slices of so many marked numbers and floats. Gives the answer, the numbers and the bits of the floats; those behind the
/// `written` ones must stay.
fn filled_both<A>(
    rooms: (usize, usize),
    written: impl Fn(&A) -> (usize, usize),
    call: impl FnOnce(&Lending, &mut [i64], &mut [f64]) -> Result<A, Refused>,
) -> Result<(A, Vec<i64>, Vec<u64>), Refusal> {
    let (mut numbers, mut floats) = (vec![i64::MARK; rooms.0], vec![FLOAT_MARK; rooms.1]);
    let out = LENDING.with(|l| {
        lent_to_write(l, &l.numbers, &mut numbers, |n| floats_lent(l, &mut floats, |g| call(l, n, g)))
    })?;
    let (numbers_written, floats_written) = written(&out);
    let behind = numbers.split_off(numbers_written);
    assert!(behind.iter().all(|&number| number == i64::MARK), "what stands behind the numbers stays");
    let behind = floats.split_off(floats_written);
    assert!(behind.iter().all(|&float| float == FLOAT_MARK), "what stands behind the floats stays");
    Ok((out, numbers, floats))
}

/// The 7 numbers and the bits of the 5 floats of an ellipse or an arc.
pub fn curve(file: &[u8], dim: u64, place: u64) -> Result<([i64; 7], [u64; 5]), Refusal> {
    let spare = LENDING.with(|l| l.spare.replace((l.spare.get() + 1) % 3));
    let (_, numbers, floats) = filled_both(
        (7 + spare, 5 + spare),
        |_| (7, 5),
        |l, n, g| lent(l, &l.file, file, |f| returned(raw::curve(f, dim as usize, place as usize, n, g))),
    )?;
    Ok((numbers.try_into().expect("7 numbers"), floats.try_into().expect("5 floats")))
}

/// The next element number, and the numbers and the bits of the floats of the ellipses and arcs from element number k on, in slices of
/// so many numbers and floats.
pub fn curves(file: &[u8], dim: u64, k: u64, rooms: (usize, usize)) -> Result<(u64, Vec<i64>, Vec<u64>), Refusal> {
    let (out, numbers, floats) = filled_both::<[usize; 2]>(
        rooms,
        |out| (9 * out[1], 5 * out[1]),
        |l, n, g| lent(l, &l.file, file, |f| answer(l, |o| raw::curves(f, dim as usize, k as usize, n, g, o))),
    )?;
    Ok((out[0] as u64, numbers, floats))
}

/// Kind, header's place, place, payload words, and the used length before the record.
pub fn record(journal: &[u8], jused: u64) -> Result<[u64; 5], Refusal> {
    let out: [usize; 5] =
        LENDING.with(|l| lent(l, &l.journal, journal, |j| answer(l, |o| raw::record(j, jused as usize, o))))?;
    Ok(out.map(|number| number as u64))
}

/// Moves a journal to blocks, or back, into a copy of the buffer, which is copied back: the bytes written.
pub fn moved(way: Way, input: &[u8], buffer: &mut [u8]) -> Result<u64, Refusal> {
    let call = by(way);
    let out: [usize; 1] = LENDING.with(|l| {
        lent_to_write(l, &l.moved_to, buffer, |b| lent(l, &l.moved_from, input, |i| answer(l, |o| call(i, b, o))))
    })?;
    Ok(out[0] as u64)
}

/// The function of a way.
fn by(way: Way) -> fn(&[u8], &mut [u8], &mut [usize]) -> usize {
    match way {
        Way::ToBlocks => raw::journal_to_blocks,
        Way::FromBlocks => raw::journal_from_blocks,
    }
}

pub fn pack(text: &[u8]) -> Result<(u16, u16), Refusal> {
    let o: [usize; 2] = LENDING.with(|l| lent(l, &l.text, text, |t| answer(l, |o| raw::pack(t, o))))?;
    Ok((u16::try_from(o[0]).unwrap(), u16::try_from(o[1]).unwrap()))
}

/// The seven bytes of a text.
pub fn unpack(first: u64, second: u64) -> Result<[u8; 7], Refusal> {
    Ok(LENDING.with(|l| answer(l, |t| raw::unpack(first as usize, second as usize, t)))?)
}

/// Writes into a copy of the buffer, which is copied back.
pub fn write(fields: &[i64], points: &[i32], tail: &[u8], dim: u64, buffer: &mut [u8]) -> Result<u64, Refusal> {
    let out: [usize; 1] = LENDING.with(|l| {
        lent_to_write(l, &l.buffer, buffer, |b| {
            lent(l, &l.fields, fields, |f| {
                lent(l, &l.points, points, |p| {
                    lent(l, &l.tail, tail, |t| answer(l, |o| raw::write(f, p, t, dim as usize, b, o)))
                })
            })
        })
    })?;
    Ok(out[0] as u64)
}

/// What is handed to the writer of a text.
pub struct TextCall<'a> {
    /// The 16 fields of the header.
    pub fields: &'a [i64],
    /// The 12 numbers of the text.
    pub numbers: &'a [i64],
    pub characters: &'a [u8],
    /// Three bytes for each enter-data field.
    pub triples: &'a [u8],
    pub tail: &'a [u8],
    pub dim: u64,
}

impl TextCall<'_> {
    /// Lends all of it and the buffer. `ask` lends the answer slice.
    fn lend<R>(
        &self,
        l: &Lending,
        buffer: &mut [u8],
        ask: impl FnOnce(&Lending, &mut dyn FnMut(&mut [usize]) -> usize) -> Result<R, Refused>,
    ) -> Result<R, Refused> {
        let dim = self.dim as usize;
        lent_to_write(l, &l.buffer, buffer, |b| {
            lent(l, &l.fields, self.fields, |f| {
                lent(l, &l.text_numbers, self.numbers, |n| {
                    lent(l, &l.text, self.characters, |c| {
                        lent(l, &l.triples, self.triples, |x| {
                            lent(l, &l.tail, self.tail, |t| {
                                ask(l, &mut |o| raw::write_text(f, n, c, x, t, dim, b, o))
                            })
                        })
                    })
                })
            })
        })
    }

    /// Writes into a copy of the buffer, which is copied back.
    pub fn write(&self, buffer: &mut [u8]) -> Result<u64, Refusal> {
        let out: [usize; 1] = LENDING.with(|l| self.lend(l, buffer, |l, ask| answer(l, ask)))?;
        Ok(out[0] as u64)
    }
}

/// The buffers of a session as they are lent, and its numbers; an index too, where there is one.
struct Lent<'a> {
    file: &'a mut [u8],
    used: usize,
    journal: &'a mut [u8],
    jused: usize,
    index: Option<(&'a mut [u8], usize)>,
    dim: usize,
}

/// What lends an answer slice to a call.
type Asked<'a> = &'a mut dyn FnMut(&mut [usize]) -> usize;

/// Lends the buffers of a session as copies, which are copied back.
fn in_session<R>(
    l: &Lending,
    state: &mut State,
    index: Option<&mut Index>,
    call: impl FnOnce(Lent) -> Result<R, Refused>,
) -> Result<R, Refused> {
    let (used, jused, dim) = (state.used as usize, state.jused as usize, state.dim as usize);
    let State { file, journal, .. } = state;
    lent_to_write(l, &l.buffer, file, |file| {
        lent_to_write(l, &l.journal, journal, |journal| match index {
            None => call(Lent { file, used, journal, jused, index: None, dim }),
            Some(Index { buffer, used: iused }) => lent_to_write(l, &l.index, buffer, |index| {
                call(Lent { file, used, journal, jused, index: Some((index, *iused as usize)), dim })
            }),
        })
    })
}

/// One call of a session. `ask` lends the answer slice. An undo may not write the journal.
fn edited<R>(
    l: &Lending,
    state: &mut State,
    index: Option<&mut Index>,
    call: &Call,
    ask: impl FnOnce(&Lending, Asked) -> Result<R, Refused>,
) -> Result<R, Refused> {
    match call {
        Call::Mark { place, deleted } => marked(l, state, index, *place, usize::from(*deleted), ask),
        Call::Rename { place, text } => lent(l, &l.text, text, |t| {
            let p = *place as usize;
            in_session(l, state, index, |mut s| {
                ask(l, &mut |o| match &mut s.index {
                    None => raw::rename(s.file, s.used, s.journal, s.jused, s.dim, p, t, o),
                    Some((i, n)) => raw::rename_indexed(s.file, s.used, s.journal, s.jused, i, *n, s.dim, p, t, o),
                })
            })
        }),
        Call::Insert { header, place, piece } => lent(l, &l.tail, piece, |x| {
            let (h, p) = (header.unwrap_or(TOP) as usize, *place as usize);
            in_session(l, state, index, |mut s| {
                ask(l, &mut |o| match &mut s.index {
                    None => raw::insert(s.file, s.used, s.journal, s.jused, s.dim, h, p, x, o),
                    Some((i, n)) => raw::insert_indexed(s.file, s.used, s.journal, s.jused, i, *n, s.dim, h, p, x, o),
                })
            })
        }),
        Call::Remove { place } => in_session(l, state, index, |mut s| {
            let p = *place as usize;
            ask(l, &mut |o| match &mut s.index {
                None => raw::remove(s.file, s.used, s.journal, s.jused, s.dim, p, o),
                Some((i, n)) => raw::remove_indexed(s.file, s.used, s.journal, s.jused, i, *n, s.dim, p, o),
            })
        }),
        Call::Undo => in_session(l, state, index, |mut s| {
            l.journal.read_only();
            let given = ask(l, &mut |o| match &mut s.index {
                None => raw::undo(s.file, s.used, s.journal, s.jused, s.dim, o),
                Some((i, n)) => raw::undo_indexed(s.file, s.used, s.journal, s.jused, i, *n, s.dim, o),
            });
            l.journal.writable();
            given
        }),
    }
}

/// A mark by a number, which should be 0 or 1.
fn marked<R>(
    l: &Lending,
    state: &mut State,
    index: Option<&mut Index>,
    place: u64,
    deleted: usize,
    ask: impl FnOnce(&Lending, Asked) -> Result<R, Refused>,
) -> Result<R, Refused> {
    let p = place as usize;
    in_session(l, state, index, |mut s| {
        ask(l, &mut |o| match &mut s.index {
            None => raw::mark(s.file, s.used, s.journal, s.jused, s.dim, p, deleted, o),
            Some((i, n)) => raw::mark_indexed(s.file, s.used, s.journal, s.jused, i, *n, s.dim, p, deleted, o),
        })
    })
}

/// One call of a session, which takes over the new used lengths, that of its index too where it has one.
pub fn call(state: &mut State, index: Option<&mut Index>, call: &Call) -> Result<(), Refusal> {
    LENDING.with(|l| match index {
        None => {
            let out: [usize; 2] = edited(l, state, None, call, |l, ask| answer(l, ask))?;
            [state.used, state.jused] = out.map(|length| length as u64);
            Ok(())
        }
        Some(index) => {
            let out: [usize; 3] = edited(l, state, Some(index), call, |l, ask| answer(l, ask))?;
            [state.used, state.jused, index.used] = out.map(|length| length as u64);
            Ok(())
        }
    })
}

/// The same with answer slices that are too short: 1, and nothing is written.
pub fn short_call(state: &mut State, index: &mut Index, call: &Call) {
    LENDING.with(|l| {
        assert!(edited(l, state, None, call, |l, ask| short::<_, 1>(l, ask)).is_err());
        assert!(edited(l, state, None, call, |l, ask| short::<_, 0>(l, ask)).is_err());
        assert!(edited(l, state, Some(index), call, |l, ask| short::<_, 2>(l, ask)).is_err());
        assert!(edited(l, state, Some(index), call, |l, ask| short::<_, 0>(l, ask)).is_err());
    });
}

/// A mark by a number that is neither 0 nor 1, without an index and with one.
pub fn mark_by(state: &mut State, index: &mut Index, place: u64, deleted: usize) -> [Result<(), Refusal>; 2] {
    LENDING.with(|l| {
        let plain = marked(l, state, None, place, deleted, |l, ask| answer::<_, 2>(l, ask).map(|_| ()));
        let with = marked(l, state, Some(index), place, deleted, |l, ask| answer::<_, 3>(l, ask).map(|_| ()));
        [plain, with].map(|given| given.map_err(Refusal::from))
    })
}

/// Every other call with an answer slice of M numbers, one too few or none: 1, and nothing is written.
pub fn short_answers(file: &[u8]) {
    // a call that would be made, but for its answer: a 2D line without a tail
    let fields = [3i64, 0, 0, 0, 0, 0, 0, 0, 0, 0, 0, 0, 0, 0, 0, 0];
    // and a 2D text without characters
    let mut of_a_text = fields;
    of_a_text[0] = 17;
    let text = TextCall { fields: &of_a_text, numbers: &[0; 12], characters: &[], triples: &[], tail: &[], dim: 2 };
    assert_eq!(text.write(&mut [7; 60]), Ok(30));
    LENDING.with(|l| {
        lent(l, &l.file, file, |f| {
            let refused = [
                short::<_, 2>(l, |o| raw::judge(f, 2, o)),
                short::<_, 0>(l, |o| raw::judge(f, 2, o)),
                short::<_, 1>(l, |o| raw::find(f, 2, &[], o)),
                short::<_, 0>(l, |o| raw::find(f, 2, &[], o)),
                short::<_, 1>(l, |o| raw::extent(f, 2, 0, o)),
                short::<_, 0>(l, |o| raw::extent(f, 2, 0, o)),
                short::<_, 31>(l, |o| raw::view(f, 2, 0, o)),
                short::<_, 0>(l, |o| raw::view(f, 2, 0, o)),
                short::<_, 2>(l, |o| raw::point(f, 2, 0, 0, o)),
                short::<_, 0>(l, |o| raw::point(f, 2, 0, 0, o)),
                short::<_, 3>(l, |o| raw::linkage(f, 2, 0, 0, o)),
                short::<_, 0>(l, |o| raw::linkage(f, 2, 0, 0, o)),
                short::<_, 14>(l, |o| raw::text(f, 2, 0, o)),
                short::<_, 0>(l, |o| raw::text(f, 2, 0, o)),
                short::<_, 1>(l, |o| raw::characters(f, 2, 0, o)),
                short::<_, 0>(l, |o| raw::characters(f, 2, 0, o)),
                short::<_, 2>(l, |o| raw::field(f, 2, 0, 0, o)),
                short::<_, 0>(l, |o| raw::field(f, 2, 0, 0, o)),
                short::<_, 1>(l, |o| raw::find_with_deleted(f, 2, &[], o)),
                short::<_, 0>(l, |o| raw::find_with_deleted(f, 2, &[], o)),
                short::<_, 1>(l, |o| raw::look_up(f, 2, &[], 0, &[], o)),
                short::<_, 0>(l, |o| raw::look_up(f, 2, &[], 0, &[], o)),
                short::<_, 1>(l, |o| raw::look_up_with_deleted(&[], 0, &[], o)),
                short::<_, 0>(l, |o| raw::look_up_with_deleted(&[], 0, &[], o)),
                lent_to_write(l, &l.index, &mut [7; 16], |i| short::<_, 0>(l, |o| raw::index(f, 2, i, o))),
                lent_to_write(l, &l.index, &mut [7; 16], |i| short::<_, 3>(l, |o| raw::cells(f, 2, i, o))),
                lent_to_write(l, &l.index, &mut [7; 16], |i| short::<_, 0>(l, |o| raw::cells(f, 2, i, o))),
                short::<_, 1>(l, |o| raw::pack(&[], o)),
                short::<_, 0>(l, |o| raw::pack(&[], o)),
                short::<_, 6>(l, |o| raw::unpack(0, 0, o)),
                short::<_, 0>(l, |o| raw::unpack(0, 0, o)),
                lent_to_write(l, &l.buffer, &mut [7; 52], |b| {
                    short::<_, 0>(l, |o| raw::write(&fields, &[0; 4], &[], 2, b, o))
                }),
                lent_to_write(l, &l.numbers, &mut [7; 64], |n| short::<_, 0>(l, |o| raw::views(f, 2, 0, n, o))),
                short::<_, 0>(l, |o| raw::in_range(f, 2, 0, o)),
                short::<_, 8>(l, |o| raw::plate(f, 2, 0, o)),
                short::<_, 0>(l, |o| raw::plate(f, 2, 0, o)),
                lent_to_write(l, &l.numbers, &mut [7; 64], |n| short::<_, 1>(l, |o| raw::plates(f, 2, 0, n, o))),
                lent_to_write(l, &l.numbers, &mut [7; 64], |n| short::<_, 1>(l, |o| raw::ranges(f, 2, 0, n, o))),
                lent_to_write(l, &l.numbers, &mut [7; 64], |n| short::<_, 0>(l, |o| raw::ranges(f, 2, 0, n, o))),
                lent_to_write(l, &l.numbers, &mut [7; 64], |n| short::<_, 1>(l, |o| raw::points(f, 2, 0, n, o))),
                lent_to_write(l, &l.numbers, &mut [7; 64], |n| short::<_, 0>(l, |o| raw::points(f, 2, 0, n, o))),
                lent_to_write(l, &l.numbers, &mut [7; 64], |n| short::<_, 1>(l, |o| raw::texts(f, 2, 0, n, o))),
                lent_to_write(l, &l.numbers, &mut [7; 64], |n| short::<_, 0>(l, |o| raw::texts(f, 2, 0, n, o))),
                text.lend(l, &mut [7; 60], |l, ask| short::<_, 0>(l, ask)),
                short_both(l, (6, 5), |n, g| raw::curve(f, 2, 0, n, g)),
                short_both(l, (7, 4), |n, g| raw::curve(f, 2, 0, n, g)),
                short_both(l, (0, 0), |n, g| raw::curve(f, 2, 0, n, g)),
                short_both(l, (18, 10), |n, g| short::<_, 1>(l, |o| raw::curves(f, 2, 0, n, g, o)).map_or(1, |()| 0)),
                short_both(l, (18, 10), |n, g| short::<_, 0>(l, |o| raw::curves(f, 2, 0, n, g, o)).map_or(1, |()| 0)),
            ];
            assert!(refused.iter().all(Result::is_err));
        });
        // a journal whose last record is in order
        let journal = [0, 0, 1, 0, 255, 255, 255, 255, 0, 0, 0, 0, 1, 0];
        assert_eq!(record(&journal, 14), Ok([1, TOP, 0, 1, 0]));
        lent(l, &l.journal, &journal, |j| {
            assert!(short::<_, 4>(l, |o| raw::record(j, 14, o)).is_err());
            assert!(short::<_, 0>(l, |o| raw::record(j, 14, o)).is_err());
        });
        // an empty journal, which is no block
        for way in [Way::ToBlocks, Way::FromBlocks] {
            assert_eq!(moved(way, &[], &mut [7; 512]), Ok(0));
            assert!(lent_to_write(l, &l.moved_to, &mut [7; 512], |b| short::<_, 0>(l, |o| by(way)(&[], b, o))).is_err());
        }
    });
}
