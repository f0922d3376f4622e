//! Journals moved to blocks and back: small ones of every size and every damage, the sizes around the ends of blocks, the
//! limits, and any calls.

use crate::library;
use crate::runs::Runs;
use reader::generate::blocks::{journal, lay, MOST_BLOCKS};
use reader::generate::moves::{any_move, each_move, limit_moves, needed, rooms, Move, Way};
use reader::generate::Random;

impl Runs {
    /// One call: the same answer and the same bytes in all of the buffer. What is written moves back.
    pub fn moved(&mut self, call: &Move) {
        let mut out = vec![call.fill; call.room];
        let ours = library::moved(call.way, &call.input, &mut out);
        let (theirs, bytes) = call.run();
        let what = format!("{:?} of {} bytes into {}", call.way, call.input.len(), call.room);
        assert_eq!(ours, theirs, "{what}");
        assert!(out == bytes, "the buffer after {what}");
        self.calls += 1;
        if let Ok(written) = ours {
            let back = match call.way {
                Way::ToBlocks => Way::FromBlocks,
                Way::FromBlocks => Way::ToBlocks,
            };
            let mut again = vec![!call.fill; call.input.len()];
            let answer = library::moved(back, &out[..written as usize], &mut again);
            assert_eq!(answer, Ok(call.input.len() as u64), "back after {what}");
            assert!(again == call.input, "back after {what}");
            self.calls += 1;
        }
    }
}

/// Small journals of every size, and stored ones with every byte changed, cut at every length, their blocks doubled, dropped
/// and swapped.
pub fn small(random: &mut Random, runs: &mut Runs) {
    each_move(random, |call| runs.moved(call));
}

/// The sizes around the ends of blocks: of the first 200, of some between and of the last; and the limits.
pub fn sizes(random: &mut Random, runs: &mut Runs) {
    for blocks in (1..=MOST_BLOCKS).filter(|k| *k <= 200 || k % 61 == 0 || *k >= MOST_BLOCKS - 5) {
        for size in 508 * blocks - 2..=508 * blocks + 2 {
            let flat = journal(random, size);
            let fill = random.word() as u8;
            if size % 2 == 0 && size <= 1_048_576 {
                let input = lay(&flat);
                runs.moved(&Move { way: Way::FromBlocks, room: size, input, fill });
            }
            let room = needed(Way::ToBlocks, &flat);
            runs.moved(&Move { way: Way::ToBlocks, input: flat, room, fill });
        }
    }
    limit_moves(random, |call| runs.moved(call));
}

/// Any calls; then one call with every length of the buffer.
pub fn calls(random: &mut Random, runs: &mut Runs, times: u64) {
    for _ in 0..times {
        runs.moved(&any_move(random));
    }
    let flat = journal(random, 700);
    for (way, input) in [(Way::FromBlocks, lay(&flat)), (Way::ToBlocks, flat)] {
        let most = *rooms(needed(way, &input)).iter().max().expect("lengths");
        for room in 0..=most {
            runs.moved(&Move { way, input: input.clone(), room, fill: 0x5a });
        }
    }
}
