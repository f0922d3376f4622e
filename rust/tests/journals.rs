//! Journals stored in blocks: there and back, each fault of a block, and the damage that is seen and that is not.

use dgn::{blocks_of_journal, journal_of_blocks, Number, Refusal, BLOCK_BYTES, BLOCK_JOURNAL, FILE_BYTES, STORED_BYTES};

fn refused(number: Number, place: usize) -> Result<Vec<u8>, Refusal> {
    Err(Refusal { number, place, count: 0 })
}

/// Bytes that differ from block to block.
fn journal(len: usize) -> Vec<u8> {
    (0..len).map(|i| (i * i / 5 + i / BLOCK_JOURNAL) as u8).collect()
}

/// The block's last word, for what its others are.
fn seal(block: &mut [u8]) {
    let sum = block[..510].chunks(2).fold(0u16, |sum, w| sum.wrapping_add(u16::from_le_bytes([w[0], w[1]])));
    block[510..512].copy_from_slice(&sum.wrapping_neg().to_le_bytes());
}

#[test]
fn there_and_back() {
    for len in [0, 2, 506, 508, 510, 1016, 1018, 50_800, FILE_BYTES - 2, FILE_BYTES] {
        let flat = journal(len);
        let blocks = blocks_of_journal(&flat).unwrap();
        assert_eq!(blocks.len(), len.div_ceil(BLOCK_JOURNAL) * BLOCK_BYTES);
        for (block, chunk) in blocks.chunks(BLOCK_BYTES).zip(flat.chunks(BLOCK_JOURNAL)) {
            let mut wanted = chunk.to_vec();
            wanted.resize(BLOCK_BYTES, 0);
            wanted[508..510].copy_from_slice(&(chunk.len() as u16).to_le_bytes());
            seal(&mut wanted);
            assert_eq!(block, wanted);
        }
        assert_eq!(journal_of_blocks(&blocks), Ok(flat));
    }
    assert_eq!(blocks_of_journal(&journal(FILE_BYTES)).unwrap().len(), STORED_BYTES);
    for len in [1, 509, FILE_BYTES + 1, FILE_BYTES + 2] {
        assert_eq!(blocks_of_journal(&vec![0; len]), refused(Number::Call, 0));
    }
    for len in [1, 511, 513, STORED_BYTES + 1, STORED_BYTES + 2] {
        assert_eq!(journal_of_blocks(&vec![0; len]), refused(Number::Call, 0));
    }
}

#[test]
fn bad_blocks() {
    let good = blocks_of_journal(&journal(3 * 508 + 100)).unwrap();
    // a wrong count with a right check: none, odd, above a block, not full before the last
    for (k, count) in [(0, 0), (1, 0), (3, 0), (3, 99), (3, 510), (3, 65_534), (0, 506), (2, 506), (2, 510)] {
        let mut blocks = good.clone();
        let block = &mut blocks[512 * k..][..512];
        block[508..510].copy_from_slice(&(count as u16).to_le_bytes());
        seal(block);
        assert_eq!(journal_of_blocks(&blocks), refused(Number::Block, k), "{count} in block {k}");
    }
    // a rest that is not zero
    for at in [100, 101, 507] {
        let mut blocks = good.clone();
        let block = &mut blocks[3 * 512..];
        block[at] = 1;
        seal(block);
        assert_eq!(journal_of_blocks(&blocks), refused(Number::Block, 3));
    }
    // an empty block behind a full one
    let mut blocks = blocks_of_journal(&journal(508)).unwrap();
    blocks.resize(1024, 0);
    assert_eq!(journal_of_blocks(&blocks), refused(Number::Block, 1));
    // the 2,065th block with 66 bytes
    let mut blocks = blocks_of_journal(&journal(FILE_BYTES)).unwrap();
    let block = &mut blocks[2064 * 512..];
    block[508] = 66;
    seal(block);
    assert_eq!(journal_of_blocks(&blocks), refused(Number::Block, 2064));
}

#[test]
fn damage() {
    let flat = journal(2 * 508 + 100);
    let good = blocks_of_journal(&flat).unwrap();
    // any word changed
    for word in 0..good.len() / 2 {
        let mut blocks = good.clone();
        blocks[2 * word] ^= 1 << (word % 8);
        assert_eq!(journal_of_blocks(&blocks), refused(Number::Block, word / 256));
    }
    // an end inside a block; between blocks it is not seen
    for end in (0..good.len()).step_by(2) {
        let cut = journal_of_blocks(&good[..end]);
        match end % 512 {
            0 => assert_eq!(cut.as_deref(), Ok(&flat[..end / 512 * 508])),
            _ => assert_eq!(cut, refused(Number::Block, end / 512)),
        }
    }
    // a last block twice is seen where it is part full
    let [first, second, last] = [0, 1, 2].map(|k| &good[512 * k..][..512]);
    assert_eq!(journal_of_blocks(&[first, second, last, last].concat()), refused(Number::Block, 2));
    assert_eq!(journal_of_blocks(&[first, second, second].concat()).unwrap().len(), 3 * 508);
    // full blocks in another order are not seen
    let swapped = [&flat[508..1016], &flat[..508], &flat[1016..]].concat();
    assert_eq!(journal_of_blocks(&[second, first, last].concat()), Ok(swapped));
}
