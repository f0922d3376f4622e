//! Journals moved to blocks and back, compared with the layout as the
//! generator makes it.

mod common;
use common::*;
use reader::blocks::{BLOCK, CONTENT, STORED_LIMIT};
use reader::generate::blocks::{aimed, block, lay, FAULTS};
use reader::generate::moves::{any_move, boundary_moves, each_move, limit_moves, Move, Way};
use reader::generate::Random;
use reader::layout::LIMIT;
use reader::*;

/// What a call must answer and leave, from the layout alone: a stored journal
/// is good exactly if it is what its bytes, laid out anew, give, and its first
/// bad block is the first that differs.
fn wanted(call: &Move) -> (Result<u64, Refusal>, Vec<u8>) {
    let mut out = vec![call.fill; call.room];
    let input = &call.input;
    let limit = match call.way {
        Way::ToBlocks => LIMIT,
        Way::FromBlocks => STORED_LIMIT,
    };
    if input.len() % 2 == 1 || input.len() as u64 > limit {
        return (refused(1, 0), out);
    }
    let written = match call.way {
        Way::ToBlocks => lay(input),
        Way::FromBlocks => {
            let mut flat = Vec::new();
            for (number, chunk) in input.chunks(BLOCK).enumerate() {
                let last = (number + 1) * BLOCK >= input.len();
                let size = match chunk.get(508..510) {
                    Some(count) if last => usize::from(u16::from_le_bytes([count[0], count[1]])),
                    _ => CONTENT,
                };
                let room = (LIMIT as usize - flat.len()).min(CONTENT);
                let good = size % 2 == 0 && (2..=room).contains(&size);
                if !good || block(&chunk[..size.min(chunk.len())], size as u16) != chunk {
                    return (refused(22, number as u64), out);
                }
                flat.extend(&chunk[..size]);
            }
            flat
        }
    };
    if written.len() > out.len() {
        return (refused(15, 0), out);
    }
    out[..written.len()].copy_from_slice(&written);
    (Ok(written.len() as u64), out)
}

/// The other way for what a call has written, with an output of its input's
/// length.
fn undoing(call: &Move, made: &[u8]) -> Move {
    Move {
        way: match call.way {
            Way::ToBlocks => Way::FromBlocks,
            Way::FromBlocks => Way::ToBlocks,
        },
        input: made.to_vec(),
        room: call.input.len(),
        fill: !call.fill,
    }
}

/// The answer is the wanted one, and the other way undoes it.
fn try_move(call: &Move) -> u32 {
    let (answer, out) = call.run();
    assert!((answer.clone(), out.clone()) == wanted(call), "{answer:?}");
    match answer {
        Ok(size) => {
            let made = &out[..size as usize];
            let (undone, again) = undoing(call, made).run();
            assert_eq!(undone, Ok(call.input.len() as u64));
            assert!(again == call.input);
            0
        }
        Err(refusal) => refusal.number,
    }
}

// "each undoing the other on what it accepts".
#[test]
fn moves() {
    let mut random = Random::new(82);
    let mut seen = std::collections::BTreeMap::new();
    let mut see = |call: &Move| *seen.entry((call.way as u8, try_move(call))).or_insert(0) += 1;
    each_move(&mut random, &mut see);
    boundary_moves(&mut random, 40, &mut see);
    limit_moves(&mut random, &mut see);
    for _ in 0..20_000 {
        see(&any_move(&mut random));
    }
    let to_blocks = [0, 1, 15].map(|number| (0, number));
    let from_blocks = [0, 1, 15, 22].map(|number| (1, number));
    let all = [&to_blocks[..], &from_blocks].concat();
    assert_eq!(seen.keys().copied().collect::<Vec<_>>(), all);
    assert!(seen.values().all(|&number| number > 100), "{seen:?}");
}

// The first bad block, whatever stands behind it.
#[test]
fn faults() {
    let mut random = Random::new(83);
    for _ in 0..400 {
        for fault in FAULTS {
            let blocks = 1 + random.index(6);
            let made = aimed(&mut random, fault, blocks);
            let mut out = vec![0; made.stored.len()];
            assert_eq!(
                from_blocks(&made.stored, &mut out),
                Err(made.refusal.clone()),
                "{fault:?}"
            );
            assert_eq!(from_blocks(&made.stored, &mut []), Err(made.refusal));
        }
    }
}
