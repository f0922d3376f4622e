//! D-floats as 64-bit floats.

use reader::float_bits;
use reader::generate::floats::{bad_float, float, float_words};
use reader::generate::Random;

const MOST: u64 = (1 << 55) - 1;

fn value(words: [u16; 4]) -> f64 {
    f64::from_bits(float_bits(words).unwrap())
}

// "Word 16512 followed by three zeros is 1."
#[test]
fn by_hand() {
    assert_eq!(float_bits([16512, 0, 0, 0]), Some(1023 << 52));
    assert_eq!(value([16512, 0, 0, 0]), 1.0);
    assert_eq!(value([16512 | 1 << 15, 0, 0, 0]), -1.0);
    assert_eq!(value([16512 | 1 << 6, 0, 0, 0]), 1.5);
    assert_eq!(value([16512 + 128, 0, 0, 0]), 2.0);
    assert_eq!(value([16512 - 128, 0, 0, 0]), 0.5);
    // 100000 is 2^16 times 1.52587890625.
    assert_eq!(value([0x48C3, 0x5000, 0, 0]), 100_000.0);
    // The least and the greatest sizes.
    assert_eq!(value([128, 0, 0, 0]), 2f64.powi(-128));
    assert_eq!(
        value([0x7FFF, 0xFFFF, 0xFFFF, 0xFFF8]),
        2f64.powi(127) - 2f64.powi(74)
    );
    assert_eq!(value([0x7FFF, 0xFFFF, 0xFFFF, 0xFFFF]), 2f64.powi(127));
    // Each fraction bit.
    for bit in 3..55 {
        let words = float_words(0, 129, 1 << bit);
        assert_eq!(value(words), 1.0 + 2f64.powi(bit - 55));
    }
}

// "E=0 with sign clear is zero", "E=0 with sign set is 21 FLOAT": whatever the
// fraction.
#[test]
fn zeros() {
    for fraction in [0, 1, 4, 8, 1 << 48, 1 << 54, MOST] {
        assert_eq!(float_bits(float_words(0, 0, fraction)), Some(0));
        assert_eq!(float_bits(float_words(1, 0, fraction)), None);
        assert!(float_bits(float_words(0, 1, fraction)).is_some());
        assert!(float_bits(float_words(1, 1, fraction)).is_some());
    }
}

// "The float is the nearest 64-bit one, ties to even; exact when the low three
// fraction bits are zero".
#[test]
fn rounding_by_hand() {
    let rounded = |fraction: u64| float_bits(float_words(0, 129, fraction)).unwrap() - (1023 << 52);
    let cases = [
        (0, 0),
        (1, 0),
        (3, 0),
        (4, 0),
        (5, 1),
        (8, 1),
        (11, 1),
        (12, 2),
        (13, 2),
        (16, 2),
        (19, 2),
        (20, 2),
        (21, 3),
    ];
    for (fraction, wanted) in cases {
        assert_eq!(rounded(fraction), wanted, "{fraction}");
    }
    // All ones: the last that does not carry, the tie that does, and 2.
    assert_eq!(rounded(MOST - 7), (1 << 52) - 1);
    assert_eq!(rounded(MOST - 4), (1 << 52) - 1);
    assert_eq!(rounded(MOST - 3), 1 << 52);
    assert_eq!(rounded(MOST), 1 << 52);
    assert_eq!(value(float_words(0, 129, MOST - 3)), 2.0);
    assert_eq!(value(float_words(1, 129, MOST)), -2.0);
}

/// The distance over whole numbers, and the same by the processor.
fn check(words: [u16; 4]) {
    let [first, second, third, fourth] = words.map(u64::from);
    let exponent = first / 128 % 256;
    let fraction = first % 128 * (1 << 48) + second * (1 << 32) + third * (1 << 16) + fourth;
    let negative = first >= 1 << 15;
    let Some(bits) = float_bits(words) else {
        assert!(exponent == 0 && negative);
        return;
    };
    if exponent == 0 {
        assert!(!negative && bits == 0);
        return;
    }
    assert_eq!(bits >> 63 == 1, negative);
    let whole = (1 << 55) + fraction;
    let mantissa = (1 << 52) + bits % (1 << 52);
    let stored = bits >> 52 & 2047;
    // mantissa * 2^(stored - 1075) beside whole * 2^(E - 184).
    let eighths = if stored == exponent + 894 {
        8 * mantissa
    } else {
        assert_eq!((stored, mantissa), (exponent + 895, 1 << 52));
        16 * mantissa
    };
    let distance = eighths.abs_diff(whole);
    assert!(distance <= 4);
    assert!(distance < 4 || mantissa % 2 == 0);
    if fraction % 8 == 0 {
        assert_eq!(distance, 0);
    }
    let size = whole as f64 * 2f64.powi(exponent as i32 - 184);
    assert_eq!(f64::from_bits(bits), if negative { -size } else { size });
}

// The same over each first word, and over floats of all sorts.
#[test]
fn all_sorts() {
    let lows = [
        [0, 0, 0],
        [0, 0, 4],
        [0, 0, 12],
        [0xFFFF, 0xFFFF, 0xFFFB],
        [0xFFFF, 0xFFFF, 0xFFFC],
        [0xFFFF, 0xFFFF, 0xFFFF],
        [1, 0, 0],
    ];
    for first in 0..=u16::MAX {
        for [second, third, fourth] in lows {
            check([first, second, third, fourth]);
        }
    }
    let mut random = Random::new(50);
    let mut ties = 0;
    for _ in 0..200_000 {
        let words = float(&mut random);
        assert!(float_bits(words).is_some());
        ties += u32::from(words[3] % 8 == 4);
        check(words);
        check([0; 4].map(|_: u16| random.word()));
        assert_eq!(float_bits(bad_float(&mut random)), None);
    }
    assert!(ties > 40_000, "{ties}");
}
