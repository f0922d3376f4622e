//! What the sessions of a run came to, so that a run says whether it had all that it should.

use reader::{Call, Refusal};

/// Calls by dimension (2D, 3D; any other with 2D).
#[derive(Default)]
pub struct Edited {
    /// Calls made, by which call it is: mark, rename, insert, remove, undo.
    made: [[u64; 5]; 2],
    /// Calls refused, by which call and by number, but for the file's own and a piece's own refusals.
    refused: [[[u64; 22]; 5]; 2],
    /// The file's own refusals by number.
    own: [[u64; 22]; 2],
    /// The piece's own by number.
    piece: [[u64; 22]; 2],
    /// Undos made and refused with 19, by the last record's kind; 0 for all others.
    undone: [u64; 5],
    bad: [u64; 5],
    /// Headers that would grow too large.
    pub grown: u64,
    /// Calls with an index that are made, and refused with 15.
    indexed: [[u64; 5]; 2],
    full: [[u64; 5]; 2],
}

fn which(call: &Call) -> usize {
    match call {
        Call::Mark { .. } => 0,
        Call::Rename { .. } => 1,
        Call::Insert { .. } => 2,
        Call::Remove { .. } => 3,
        Call::Undo => 4,
    }
}

/// The numbers that each call can answer by itself, in the order of the rules.
const NUMBERS: [&[usize]; 5] =
    [&[1, 13, 14, 16], &[1, 13, 18, 12, 16], &[1, 13, 15, 16], &[1, 13, 16], &[1, 17, 19, 15]];

/// A number that judging can answer but 1.
pub fn judging(number: usize) -> bool {
    (2..=12).contains(&number) || number == 20 || number == 21
}

impl Edited {
    /// An answer; `good` says whether the used file was accepted, `kind` is that of the journal's last record, `indexed` whether an
    /// index was lent.
    pub fn note(
        &mut self,
        dim: u64,
        call: &Call,
        answer: &Result<(), Refusal>,
        good: bool,
        kind: usize,
        indexed: bool,
    ) {
        let (d, c) = (usize::from(dim == 3), which(call));
        let kind = if kind < 5 { kind } else { 0 };
        match answer {
            Ok(()) => {
                self.made[d][c] += 1;
                self.indexed[d][c] += u64::from(indexed);
                self.undone[kind] += u64::from(c == 4);
            }
            Err(r) => {
                let n = r.number as usize;
                if !good && judging(n) {
                    self.own[d][n] += 1;
                } else if c == 2 && n != 2 && judging(n) {
                    self.piece[d][n] += 1;
                } else if indexed && n == 15 {
                    self.full[d][c] += 1;
                } else {
                    assert!(NUMBERS[c].contains(&n), "{n} is no answer of {call:?}");
                    self.refused[d][c][n] += 1;
                    self.bad[kind] += u64::from(n == 19);
                }
            }
        }
    }

    /// Every call was made and refused by each of its numbers, in both dimensions, with an index also by 15; every kind of record was undone and
    /// refused; every number of a file, of a piece and of a growing header came up.
    pub fn check(&self) {
        for d in 0..2 {
            for (c, numbers) in NUMBERS.iter().enumerate() {
                assert!(self.made[d][c] > 0, "call {c}, {}D", d + 2);
                assert!(self.indexed[d][c] > 0 && self.full[d][c] > 0, "call {c} with an index, {}D", d + 2);
                for &n in *numbers {
                    assert!(self.refused[d][c][n] > 0, "call {c} refused by {n}, {}D", d + 2);
                }
            }
            for n in (2..=21).filter(|&n| judging(n)) {
                assert!(self.own[d][n] > 0, "file's own {n}, {}D", d + 2);
                assert!(self.piece[d][n] > 0 || n == 2, "piece's own {n}, {}D", d + 2);
            }
        }
        for kind in 1..5 {
            assert!(self.undone[kind] > 0 && self.bad[kind] > 0, "records of kind {kind}");
        }
        assert!(self.bad[0] > 0 && self.grown > 0);
    }

    /// The numbers reached, with how many times each.
    pub fn line(&self) -> String {
        let sum = |number: usize| -> u64 {
            (0..2)
                .map(|d| {
                    self.own[d][number]
                        + self.piece[d][number]
                        + (0..5).map(|c| self.refused[d][c][number]).sum::<u64>()
                })
                .sum()
        };
        let [made, indexed, full] =
            [self.made, self.indexed, self.full].map(|numbers| numbers.iter().flatten().sum::<u64>());
        let each: Vec<String> = (1..=21).map(|n| format!("{n}: {}", sum(n))).collect();
        format!("made {made}, {indexed} with an index; refused by {}; with an index by 15: {full}", each.join(", "))
    }
}
