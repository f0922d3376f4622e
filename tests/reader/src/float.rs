//! D-floats, by whole numbers alone.
//!
//! Four words: the first has the sign in bit 15, the exponent E in bits 7 to
//! 14 and the top seven fraction bits; the others follow from high to low.
//! With F the 55 fraction bits the size is (2^55 + F) * 2^(E - 184).

/// The bits of the 64-bit float nearest to a D-float, ties to even. E of 0 is
/// zero with the sign clear, and no float with the sign set.
pub fn float_bits(words: [u16; 4]) -> Option<u64> {
    let [first, second, third, fourth] = words.map(u64::from);
    let sign = first >> 15;
    let exponent = first >> 7 & 255;
    if exponent == 0 {
        return if sign == 0 { Some(0) } else { None };
    }
    let fraction = (first & 127) << 48 | second << 32 | third << 16 | fourth;
    let whole = (1 << 55) + fraction;
    // 56 bits to 53: the last three are rounded off.
    let rest = whole % 8;
    let mut rounded = whole / 8;
    if rest > 4 || rest == 4 && rounded % 2 == 1 {
        rounded += 1;
    }
    // The size is rounded * 2^(E - 181), the top bit being 2^52. That bit is
    // not stored; the stored exponent is its own plus 1023.
    let mut stored = exponent + 1023 + 52 - 181;
    if rounded == 1 << 53 {
        rounded = 1 << 52;
        stored += 1;
    }
    Some(sign << 63 | stored << 52 | (rounded - (1 << 52)))
}
