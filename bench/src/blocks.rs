//! Stored journals: a journal to blocks and back, against C with the same checks. Both give the same answers and bytes.

use crate::inputs::KIB;
use crate::tables::{heading, row};
use crate::timing::{measure, Measured};
use dgn::raw;
use reader::generate::Random;
use std::hint::black_box;

extern "C" {
    fn plain_to_blocks(journal: *const u8, n: usize, b: *mut u8, room: usize, out: *mut usize) -> usize;
    fn plain_from_blocks(b: *const u8, n: usize, journal: *mut u8, room: usize, out: *mut usize) -> usize;
}

/// One of the two calls of the library or of C: the number that it returns, and how many bytes it wrote.
type Move = fn(&[u8], &mut [u8]) -> (usize, usize);

fn to_blocks(journal: &[u8], b: &mut [u8]) -> (usize, usize) {
    let mut out = [0];
    (raw::journal_to_blocks(journal, b, &mut out), out[0])
}

fn from_blocks(b: &[u8], journal: &mut [u8]) -> (usize, usize) {
    let mut out = [0];
    (raw::journal_from_blocks(b, journal, &mut out), out[0])
}

fn to_blocks_in_c(journal: &[u8], b: &mut [u8]) -> (usize, usize) {
    let mut out = 0;
    (unsafe { plain_to_blocks(journal.as_ptr(), journal.len(), b.as_mut_ptr(), b.len(), &mut out) }, out)
}

fn from_blocks_in_c(b: &[u8], journal: &mut [u8]) -> (usize, usize) {
    let mut out = 0;
    (unsafe { plain_from_blocks(b.as_ptr(), b.len(), journal.as_mut_ptr(), journal.len(), &mut out) }, out)
}

const MOVES: [(&str, Move, Move); 2] =
    [("to blocks", to_blocks, to_blocks_in_c), ("from blocks", from_blocks, from_blocks_in_c)];

/// The answer and the buffer, which are the same by the library and by C.
fn alike((what, ours, in_c): (&str, Move, Move), bytes: &[u8], room: usize) -> (usize, Vec<u8>) {
    let (mut a, mut b) = (vec![7; room], vec![7; room]);
    let answer = ours(bytes, &mut a);
    assert_eq!(answer, in_c(bytes, &mut b), "{what}, {} bytes", bytes.len());
    assert!(a == b, "{what}, {} bytes", bytes.len());
    a.truncate(answer.1);
    (answer.0, a)
}

/// Journals of all kinds of lengths, and their blocks with faults; how many were refused.
fn check(random: &mut Random) -> (u64, u64) {
    let [to, from] = MOVES;
    let (mut runs, mut refused) = (0, 0);
    let mut run = |which, bytes: &[u8], room| {
        let (number, written) = alike(which, bytes, room);
        runs += 1;
        refused += u64::from(number != 0);
        (number, written)
    };
    for len in (0..2100).chain([1024 * KIB - 2, 1024 * KIB, 1024 * KIB + 2]) {
        let journal: Vec<u8> = (0..len).map(|_| random.below(256) as u8).collect();
        let full = len.div_ceil(508) * 512;
        run(to, &journal, full.saturating_sub(1));
        let (number, blocks) = run(to, &journal, full + 3);
        if number != 0 {
            continue;
        }
        assert_eq!(run(from, &blocks, len + 3), (0, journal));
        run(from, &blocks, len.saturating_sub(1));
        run(from, &[&blocks[..], &[0; 2]].concat(), len + 600);
        if len == 0 {
            continue;
        }
        run(from, &blocks[..blocks.len() - 2], len + 3);
        for _ in 0..3 {
            let mut damaged = blocks.clone();
            // a word changed against the check, or by itself
            let at = random.below(blocks.len() as u64 / 2) as usize * 2;
            damaged[at] = damaged[at].wrapping_add(2);
            if random.below(2) == 0 {
                let check = at / 512 * 512 + 510;
                let w = u16::from_le_bytes([damaged[check], damaged[check + 1]]).wrapping_sub(2);
                damaged[check..check + 2].copy_from_slice(&w.to_le_bytes());
            }
            run(from, &damaged, len + 600);
        }
    }
    (runs, refused)
}

pub fn table(rounds: usize) {
    let mut random = Random::new(20);
    let (runs, refused) = check(&mut random);
    println!("\nStored journals: {runs} moves alike by the library and by C, {refused} of them refused.");
    let journal: Vec<u8> = (0..1024 * KIB).map(|_| random.below(256) as u8).collect();
    let blocks = dgn::blocks_of_journal(&journal).expect("a journal that may be stored");
    heading(&["a journal of 1 MiB", "µs", "to C", "to a copy of its bytes"]);
    for ((what, ours, in_c), bytes, room) in [(MOVES[0], &journal, blocks.len()), (MOVES[1], &blocks, journal.len())] {
        let (mut a, mut b, mut c) = (vec![0; room], vec![0; room], vec![0; journal.len()]);
        let mut works: Vec<Box<dyn Measured + '_>> = vec![
            Box::new(|| assert_eq!(ours(black_box(bytes), black_box(&mut a)).0, 0)),
            Box::new(|| assert_eq!(in_c(black_box(bytes), black_box(&mut b)).0, 0)),
            Box::new(|| black_box(&mut c).copy_from_slice(black_box(&journal))),
        ];
        let times = measure(&mut works, rounds);
        let time = format!("{:.0}", times.time(0) * 1e6);
        row(&[what.to_string(), time, times.ratio(0, 1).to_string(), times.ratio(0, 2).to_string()]);
    }
}
