//! The worked cell of docs/RULES.md, and sample files.

use dgn::{Bounds, Dimension, DisplayHeader, Fields, Type};

pub const TWO: Dimension = Dimension::Two;

/// The fields of a line with every field set; its range has low z above high z.
pub fn fields() -> Fields {
    Fields {
        kind: Type::Line,
        level: 5,
        component: true,
        deleted: true,
        bounds: Bounds { low: [1, -2, i32::MAX], high: [65538, 7, i32::MIN] },
        display: DisplayHeader {
            graphic_group: 15,
            attribute_index: 16,
            properties: 17,
            style: 2,
            weight: 3,
            colour: 4,
        },
    }
}

/// The bytes of a 2D line from (1, -2) to (65538, 7).
pub fn line(fields: &Fields) -> Vec<u8> {
    let mut line = vec![0; 52];
    assert_eq!(dgn::write(fields, &[1, -2, 65538, 7], &[], TWO, &mut line), Ok(26));
    line
}

/// A 2D cell of 46 words named 00417 with that line in it, and the end marker.
#[allow(dead_code)]
pub fn cell() -> Vec<u8> {
    let name = dgn::pack("00417").expect("a good name");
    let mut words = [0u16; 46];
    words[0] = 2 << 8;
    words[1] = 44;
    words[18] = 53;
    words[19] = name.first;
    words[20] = name.second;
    let mut file: Vec<u8> = words.iter().flat_map(|word| word.to_le_bytes()).collect();
    file.extend(line(&fields()));
    file.extend([255, 255]);
    file
}

/// A file of the folder samples.
#[allow(dead_code)]
pub fn sample(name: &str) -> Vec<u8> {
    std::fs::read(format!("{}/../samples/{name}", env!("CARGO_MANIFEST_DIR"))).expect(name)
}
