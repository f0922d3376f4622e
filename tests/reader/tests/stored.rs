//! Journals in blocks, both ways.

mod common;
use common::*;
use reader::blocks::{BLOCK, CONTENT, STORED_LIMIT};
use reader::generate::blocks::*;
use reader::generate::moves::{Move, Way};
use reader::generate::Random;
use reader::layout::LIMIT;
use reader::words::{bytes_of, words_of};
use reader::*;

const FILL: u8 = 0xBB;

/// The stored form by the call, out of a buffer with bytes to spare.
fn to(journal: &[u8]) -> Result<Vec<u8>, Refusal> {
    taken(
        |out| to_blocks(journal, out),
        1_100_000.min(4 * journal.len() + 600),
    )
}

/// The flat form by the call.
fn back(stored: &[u8]) -> Result<Vec<u8>, Refusal> {
    taken(|out| from_blocks(stored, out), stored.len() + 3)
}

/// What a call has written; the bytes past it stay, and all where it refuses.
fn taken<F>(call: F, room: usize) -> Result<Vec<u8>, Refusal>
where
    F: FnOnce(&mut [u8]) -> Result<u64, Refusal>,
{
    let mut out = vec![FILL; room];
    let answer = call(&mut out);
    let written = answer.as_ref().map_or(0, |&size| size as usize);
    assert!(out[written..].iter().all(|&byte| byte == FILL));
    out.truncate(written);
    answer.map(|_| out)
}

/// A journal of that many bytes, none of them zero.
fn bytes(size: usize) -> Vec<u8> {
    (0..size).map(|k| (k % 251) as u8 + 1).collect()
}

/// A block of those words, then the count and the check as they are given.
fn block_with(words: &[u16], count: u16, check: u16) -> Vec<u8> {
    let mut all = words.to_vec();
    all.resize(254, 0);
    all.extend([count, check]);
    bytes_of(&all)
}

// "An empty journal is no block."
#[test]
fn empty() {
    assert_eq!(to(&[]), Ok(vec![]));
    assert_eq!(back(&[]), Ok(vec![]));
    assert_eq!(to_blocks(&[], &mut []), Ok(0));
    assert_eq!(from_blocks(&[], &mut []), Ok(0));
    // A block of zeros has a right check and a count of 0.
    assert_eq!(back(&[0; BLOCK]), refused(22, 0));
}

// "508 bytes of journal, a word holding how many of them are used (even, not
// 0), and a last word such that the 256 words of the block, added with
// wrap-around in 16 bits, give zero."
#[test]
fn single_blocks() {
    // 2 bytes: 513 and 2 make 515, and 65,021 is missing.
    let two = block_with(&[513], 2, 65_021);
    assert_eq!(two[..4], [1, 2, 0, 0]);
    assert_eq!(two[508..], [2, 0, 0xFD, 0xFD]);
    // Sums that need no check word but 0, and that wrap many times.
    let zero = block_with(&[65_534], 2, 0);
    let most = block_with(&[65_535; 254], 508, 65_282);
    let half = block_with(&[32_768; 254], 508, 65_028);
    let none = block_with(&[0], 2, 65_534);
    let all = [(two, 2), (zero, 2), (most, 508), (half, 508), (none, 2)];
    for (stored, size) in all {
        let flat = stored[..size].to_vec();
        assert_eq!(to(&flat).as_ref(), Ok(&stored));
        assert_eq!(back(&stored), Ok(flat));
    }
}

// "Only the last block may be part full; its rest is zero."
#[test]
fn full_and_part_full() {
    for (size, blocks, last) in [(508, 1, 508), (510, 2, 2), (1016, 2, 508), (1018, 3, 2)] {
        let flat = bytes(size);
        let stored = to(&flat).unwrap();
        assert_eq!(stored.len(), blocks * BLOCK);
        for (number, block) in stored.chunks(BLOCK).enumerate() {
            let used = if number + 1 < blocks { 508 } else { last };
            assert_eq!(block[..used], flat[number * 508..number * 508 + used]);
            assert!(block[used..508].iter().all(|&byte| byte == 0));
            let words = words_of(block);
            assert_eq!(usize::from(words[254]), used);
            assert_eq!(words.into_iter().fold(0, u16::wrapping_add), 0);
        }
        assert_eq!(back(&stored), Ok(flat));
    }
}

// "A stored journal may take 1,057,280 bytes; more, or odd, is 1." A count
// "that takes the flat journal above 1,048,576 bytes" is 22.
#[test]
fn limits() {
    let flat = bytes(LIMIT as usize);
    let longest = to(&flat).unwrap();
    assert_eq!(longest.len() as u64, STORED_LIMIT);
    assert_eq!(back(&longest).as_ref(), Ok(&flat));
    assert_eq!(words_of(&longest[2064 * BLOCK..])[254], 64);
    for size in [1, 3, 507, 509, LIMIT as usize - 1] {
        assert_eq!(to(&flat[..size]), refused(1, 0));
    }
    for more in [1, 2, 444, 508] {
        assert_eq!(to(&bytes(LIMIT as usize + more)), refused(1, 0));
    }
    // The 2,065th block with other counts than 64.
    let whole = &longest[..2064 * BLOCK];
    for size in [2, 62, 64, 66, 68, 506, 508] {
        let part = bytes(size);
        let stored = [whole, &block(&part, size as u16)].concat();
        if size <= 64 {
            let wanted = [&flat[..2064 * CONTENT], &part].concat();
            assert_eq!(back(&stored), Ok(wanted));
        } else {
            assert_eq!(back(&stored), refused(22, 2064));
        }
    }
    // A short end where the last block would stand.
    for length in [2064 * BLOCK + 2, longest.len() - 2] {
        assert_eq!(back(&longest[..length]), refused(22, 2064));
        assert_eq!(back(&longest[..length - 1]), refused(1, 0));
    }
    assert_eq!(back(whole), Ok(flat[..2064 * CONTENT].to_vec()));
    // Longer ones, though a block of them is bad.
    for more in [1, 2, 511, 512, 514] {
        let mut longer = longest.clone();
        longer.resize(longest.len() + more, 0);
        longer[0] ^= 1;
        assert_eq!(back(&longer), refused(1, 0));
    }
}

// "22 BLOCK for a wrong check, count ..., rest or length".
#[test]
fn counts() {
    let flat = bytes(4 * CONTENT);
    let stored = lay(&flat);
    for number in 0..4 {
        for count in 0..=u16::MAX {
            let changed = with_count(&stored, number, count);
            let wanted = if count == 508 {
                Ok(4 * 508)
            } else {
                refused(22, number as u64)
            };
            assert_eq!(from_blocks(&changed, &mut vec![0; 4 * 508]), wanted);
        }
    }
    // In a last block of zeros every even count but 0 is good.
    let zeros = lay(&[bytes(508), vec![0; 508]].concat());
    for count in 0..=u16::MAX {
        let answer = back(&with_count(&zeros, 1, count));
        if count % 2 == 0 && (2..=508).contains(&count) {
            let size = usize::from(count);
            assert_eq!(answer, Ok([bytes(508), vec![0; size]].concat()));
        } else {
            assert_eq!(answer, refused(22, 1), "a count of {count}");
        }
    }
}

// "Only the last block may be part full": not one with blocks or with a short
// end behind it.
#[test]
fn part_full_before_the_last() {
    let part = block(&bytes(506), 506);
    let full = block(&bytes(508), 508);
    assert_eq!(back(&part), Ok(bytes(506)));
    let cases: [(&[&[u8]], u64); 7] = [
        (&[&part, &full], 0),
        (&[&part, &part], 0),
        (&[&part, &full[..2]], 0),
        (&[&full, &part, &full], 1),
        (&[&full, &part, &part[..510]], 1),
        (&[&full, &full[..2]], 1),
        (&[&full, &full, &part[..510]], 2),
    ];
    for (blocks, number) in cases {
        assert_eq!(back(&blocks.concat()), refused(22, number));
    }
}

// "its rest is zero": each byte behind the used ones, the check made right.
#[test]
fn rest() {
    for size in [2, 4, 256, 504, 506] {
        let stored = [block(&bytes(508), 508), block(&bytes(size), size as u16)].concat();
        assert!(back(&stored).is_ok());
        for at in size..CONTENT {
            for value in [1, 0x80, 0xFF] {
                let mut changed = stored.clone();
                changed[BLOCK + at] = value;
                mend(&mut changed, 1);
                assert_eq!(back(&changed), refused(22, 1));
            }
        }
        // Two words of the rest that add up to 0.
        if size <= 504 {
            let mut changed = stored.clone();
            changed[BLOCK + 504..BLOCK + 508].copy_from_slice(&[1, 0, 0xFF, 0xFF]);
            assert_eq!(back(&changed), refused(22, 1));
        }
    }
}

// A change of one word changes the sum of its block.
#[test]
fn every_changed_word() {
    let mut random = Random::new(81);
    for blocks in 1..=3 {
        let made = stored(&mut random, blocks);
        for at in 0..made.len() / 2 {
            let mut changed = made.clone();
            let old = u16::from_le_bytes([made[2 * at], made[2 * at + 1]]);
            let any = 1 + random.below(65_535) as u16;
            for change in (0..16).map(|bit| 1 << bit).chain([3, 255, 65_535, any]) {
                let new = old.wrapping_add(change);
                changed[2 * at..2 * at + 2].copy_from_slice(&new.to_le_bytes());
                assert_eq!(back(&changed), refused(22, at as u64 / 256));
            }
        }
        for (at, changed) in each_byte_changed(&mut random, &made).enumerate() {
            assert_eq!(back(&changed), refused(22, (at / BLOCK) as u64));
        }
    }
}

// "a short end is a bad last block".
#[test]
fn cut_at_every_length() {
    let stored = lay(&bytes(3 * CONTENT + 20));
    for cut in cuts(&stored) {
        let whole = cut.len() / BLOCK;
        let wanted = match cut.len() % BLOCK {
            _ if cut.len() == stored.len() => Ok(bytes(3 * CONTENT + 20)),
            0 => Ok(bytes(whole * CONTENT)),
            end if end % 2 == 1 => refused(1, 0),
            _ => refused(22, whole as u64),
        };
        assert_eq!(back(cut), wanted);
    }
}

// The check of a block tells nothing of the block's place.
#[test]
fn whole_blocks_moved() {
    let flat = bytes(3 * CONTENT + 20);
    let parts: Vec<&[u8]> = flat.chunks(CONTENT).collect();
    let stored = lay(&flat);
    for one in 0..3 {
        for other in 0..3 {
            let mut order = parts.clone();
            order.swap(one, other);
            assert_eq!(back(&swapped(&stored, one, other)), Ok(order.concat()));
        }
        let mut twice = parts.clone();
        twice.insert(one, parts[one]);
        assert_eq!(back(&doubled(&stored, one)), Ok(twice.concat()));
        let mut without = parts.clone();
        without.remove(one);
        assert_eq!(back(&dropped(&stored, one)), Ok(without.concat()));
        assert_eq!(back(&swapped(&stored, one, 3)), refused(22, one as u64));
    }
    assert_eq!(back(&doubled(&stored, 3)), refused(22, 3));
    assert_eq!(back(&dropped(&stored, 3)), Ok(flat[..3 * CONTENT].to_vec()));
}

// 1, then 22, then 15. "Output buffers may have any length; bytes past what is
// written stay."
#[test]
fn order_and_outputs() {
    for size in [2, 506, 508, 510, 1016, 1018] {
        let flat = bytes(size);
        let stored = lay(&flat);
        for (way, input, wanted) in [
            (Way::ToBlocks, &flat, &stored),
            (Way::FromBlocks, &stored, &flat),
        ] {
            for room in (0..wanted.len() + 20).chain([1_048_577, 1_057_283]) {
                let input = input.clone();
                let call = Move {
                    way,
                    input,
                    room,
                    fill: FILL,
                };
                let (answer, out) = call.run();
                if room < wanted.len() {
                    assert_eq!(answer, refused(15, 0));
                    assert!(out.iter().all(|&byte| byte == FILL));
                } else {
                    assert_eq!(answer, Ok(wanted.len() as u64));
                    assert_eq!(&out[..wanted.len()], &wanted[..]);
                    assert!(out[wanted.len()..].iter().all(|&byte| byte == FILL));
                }
            }
        }
        let mut bad = stored.clone();
        bad[511] ^= 1;
        assert_eq!(from_blocks(&bad, &mut []), refused(22, 0));
        assert_eq!(from_blocks(&bad[1..], &mut []), refused(1, 0));
        assert_eq!(to_blocks(&flat[1..], &mut []), refused(1, 0));
    }
    let longest = bytes(LIMIT as usize);
    let mut out = vec![FILL; STORED_LIMIT as usize - 1];
    assert_eq!(to_blocks(&longest, &mut out), refused(15, 0));
    let mut out = vec![FILL; LIMIT as usize - 1];
    assert_eq!(from_blocks(&lay(&longest), &mut out), refused(15, 0));
    assert!(out.iter().all(|&byte| byte == FILL));
}
