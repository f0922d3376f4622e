//! Names as texts and as word pairs.

use super::random::Random;

/// Names that come up again and again, so that the finder finds some.
const COMMON: [(&str, u16, u16); 8] = [
    ("", 0, 0),
    ("A", 1600, 0),
    ("00417", 49234, 51080),
    ("417", 55677, 0),
    ("ABC", 1683, 0),
    (" A", 40, 0),
    ("A  B", 1600, 3200),
    ("999999", 63999, 63999),
];

const LETTERS: &[u8] = b" ABCDEFGHIJKLMNOPQRSTUVWXYZ$.0123456789";

/// The two words of a good name.
pub fn name_words(random: &mut Random) -> (u16, u16) {
    if random.one_in(2) {
        let (_, first, second) = random.pick(&COMMON);
        return (first, second);
    }
    (name_word(random), name_word(random))
}

/// A word of three letters.
fn name_word(random: &mut Random) -> u16 {
    let mut word = 0;
    for _ in 0..3 {
        // 39 codes: 0 to 28 and 30 to 39.
        let code = random.below(39) as u16;
        word = word * 40 + if code < 29 { code } else { code + 1 };
    }
    word
}

/// A word that is no three letters.
pub fn bad_name_word(random: &mut Random) -> u16 {
    match random.below(5) {
        0 => 64000,
        1 => 65535,
        2 => 64000 + random.below(1536) as u16,
        // Code 29 in one of the three positions.
        3 => 29 * 1600,
        _ => {
            let good = name_word(random);
            match random.below(3) {
                0 => 29 * 1600 + good % 1600,
                1 => good / 1600 * 1600 + 29 * 40 + good % 40,
                _ => good / 40 * 40 + 29,
            }
        }
    }
}

/// A text that is a name.
pub fn text(random: &mut Random) -> Vec<u8> {
    if random.one_in(2) {
        return random.pick(&COMMON).0.as_bytes().to_vec();
    }
    let length = random.index(7);
    let mut text: Vec<u8> = (0..length).map(|_| random.pick(LETTERS)).collect();
    while text.last() == Some(&b' ') {
        text.pop();
    }
    text
}

/// A text that is no name.
pub fn bad_text(random: &mut Random) -> Vec<u8> {
    match random.below(6) {
        0 => b"A ".to_vec(),
        1 => b" ".to_vec(),
        2 => b"ABCDEFG".to_vec(),
        3 => b"abc".to_vec(),
        4 => {
            let length = 7 + random.index(20);
            (0..length).map(|_| random.pick(&LETTERS[1..])).collect()
        }
        _ => {
            let mut text = text(random);
            text.truncate(5);
            let at = random.index(text.len() + 1);
            let wrong = random.pick(&[
                0u8, b'-', b'/', b'#', b'%', b'@', b'[', b'z', b':', 127, 200, 255,
            ]);
            text.insert(at, wrong);
            text
        }
    }
}

/// Mostly a name, sometimes not.
pub fn any_text(random: &mut Random) -> Vec<u8> {
    match random.below(8) {
        0 => bad_text(random),
        1 => {
            let length = random.index(9);
            random.bytes(length)
        }
        _ => text(random),
    }
}
