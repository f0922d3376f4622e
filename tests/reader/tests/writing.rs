//! Writing elements, and writing again what was read.

mod common;
use common::*;
use reader::generate::{self, writes, Random};
use reader::words::bytes_of;
use reader::*;

fn line_fields() -> Fields {
    Fields {
        kind: 3,
        ..Fields::default()
    }
}

fn try_write(fields: &Fields, points: &[i32], tail: &[u8], dim: u64) -> Result<u64, Refusal> {
    let mut out = vec![0x5A; 140_000];
    let answer = write(fields, points, tail, dim, &mut out);
    if answer.is_err() {
        // "A refusal changes no lent byte and no length."
        assert!(out.iter().all(|&byte| byte == 0x5A));
    }
    answer
}

// "1 (also another type, a point list of the wrong length for type 3, not a
// whole number of points, or odd tail)" and "a field out of its range".
#[test]
fn fields_out_of_range() {
    let good = line_fields();
    let four = [0; 4];
    let call = refused(1, 0);
    assert_eq!(try_write(&good, &four, &[], 2), Ok(26));
    for dim in [0, 1, 4, u64::MAX] {
        assert_eq!(try_write(&good, &four, &[], dim), call);
    }
    for kind in [0, 1, 2, 5, 7, 21, 17, 128, 259, u64::MAX] {
        assert_eq!(
            try_write(
                &Fields {
                    kind,
                    ..good.clone()
                },
                &four,
                &[],
                2
            ),
            call
        );
    }
    type Set = fn(&mut Fields, u64);
    let limits: [(Set, u64); 9] = [
        (|fields, value| fields.level = value, 63),
        (|fields, value| fields.c = value, 1),
        (|fields, value| fields.deleted = value, 1),
        (|fields, value| fields.graphic_group = value, 65535),
        (|fields, value| fields.attribute_index = value, 65535),
        (|fields, value| fields.properties = value, 65535),
        (|fields, value| fields.style = value, 7),
        (|fields, value| fields.weight = value, 31),
        (|fields, value| fields.colour = value, 255),
    ];
    for (set, limit) in limits {
        let mut fields = good.clone();
        set(&mut fields, limit);
        // Properties of 65535 set A, and the index is wrong for it.
        let wanted = if fields.properties == 65535 {
            refused(11, 0)
        } else {
            Ok(26)
        };
        assert_eq!(try_write(&fields, &four, &[], 2), wanted);
        for above in [limit + 1, u64::MAX] {
            set(&mut fields, above);
            assert_eq!(try_write(&fields, &four, &[], 2), call);
        }
    }
    for end in 0..6 {
        let mut fields = good.clone();
        for value in [i64::from(i32::MIN), i64::from(i32::MAX)] {
            fields.range[end] = value;
            assert_eq!(try_write(&fields, &four, &[], 2), Ok(26));
            for outside in [value + value.signum(), value * 2, -value * 2] {
                fields.range[end] = outside;
                assert_eq!(try_write(&fields, &four, &[], 2), call);
            }
        }
    }
    for length in [0, 1, 2, 3, 5, 6, 8] {
        assert_eq!(try_write(&good, &vec![0; length], &[], 2), call);
    }
    assert_eq!(try_write(&good, &[0; 6], &[], 3), Ok(30));
    for length in [0, 3, 4, 5, 7, 9] {
        assert_eq!(try_write(&good, &vec![0; length], &[], 3), call);
    }
    assert_eq!(
        try_write(
            &Fields {
                kind: 4,
                ..good.clone()
            },
            &[0; 5],
            &[],
            2
        ),
        call
    );
    assert_eq!(try_write(&good, &four, &[0], 2), call);
}

// "It refuses in this order: 1 ..., 7, 8 (size above 65,535), 11, 15."
#[test]
fn order_of_the_writer() {
    let string = Fields {
        kind: 4,
        ..line_fields()
    };
    for kind in [4, 6, 11] {
        let fields = Fields {
            kind,
            ..string.clone()
        };
        for (n, good) in [(0, false), (1, false), (2, true), (101, true), (102, false)] {
            let answer = try_write(&fields, &vec![0; n * 2], &[], 2);
            assert_eq!(
                answer,
                if good {
                    Ok(19 + 4 * n as u64)
                } else {
                    refused(7, 0)
                }
            );
        }
    }
    let long = vec![0; (65_535 - 26) * 2];
    assert_eq!(try_write(&line_fields(), &[0; 4], &long, 2), Ok(65_535));
    let longer = vec![0; (65_536 - 26) * 2];
    assert_eq!(
        try_write(&line_fields(), &[0; 4], &longer, 2),
        refused(8, 0)
    );
    let huge = vec![0; 1_048_578];
    assert_eq!(try_write(&line_fields(), &[0; 4], &huge, 2), refused(8, 0));

    // All at once, mended one by one.
    let mut fields = Fields {
        kind: 4,
        level: 64,
        properties: 1 << 11,
        ..line_fields()
    };
    let mut none: [u8; 0] = [];
    let mut ask =
        |fields: &Fields, n: usize, tail: &[u8]| write(fields, &vec![0; n * 2], tail, 2, &mut none);
    assert_eq!(ask(&fields, 1, &longer), refused(1, 0));
    fields.level = 63;
    assert_eq!(ask(&fields, 1, &longer), refused(7, 0));
    assert_eq!(ask(&fields, 2, &longer), refused(8, 0));
    assert_eq!(ask(&fields, 2, &[]), refused(11, 0));
    fields.attribute_index = 11;
    assert_eq!(ask(&fields, 2, &[]), refused(15, 0));
    let mut out = [7; 54];
    assert_eq!(write(&fields, &[0; 4], &[], 2, &mut out), Ok(27));
    assert_eq!(
        write(&fields, &[0; 4], &[], 2, &mut out[..53]),
        refused(15, 0)
    );
}

// "11 LINKAGE: attribute part wrong", for an element being written.
#[test]
fn linkages_written() {
    let with = |index: u64, tail: &[u16]| {
        let fields = Fields {
            attribute_index: index,
            properties: 1 << 11,
            ..line_fields()
        };
        try_write(&fields, &[0; 4], &bytes_of(tail), 2)
    };
    assert_eq!(with(10, &[]), Ok(26));
    assert_eq!(with(9, &[]), refused(11, 0));
    assert_eq!(with(11, &[]), refused(11, 0));
    assert_eq!(with(10, &[0x1001, 9]), Ok(28));
    assert_eq!(with(10, &[0x1002, 9]), refused(11, 0));
    assert_eq!(with(11, &[4, 0, 1, 2, 3]), Ok(31));
    assert_eq!(with(10, &[4, 0, 1, 2, 3]), refused(11, 0));
}

// "The output buffer may have any length; its bytes after the element stay."
#[test]
fn bytes_after_the_element() {
    for extra in 0..5 {
        let mut out = vec![0xC3; 52 + extra];
        assert_eq!(
            write(&line_fields(), &[1, -2, 3, -4], &[], 2, &mut out),
            Ok(26)
        );
        assert!(out[52..].iter().all(|&byte| byte == 0xC3));
        let mut file = out[..52].to_vec();
        file.extend([255, 255]);
        assert_eq!(point(&file, 2, 0, 0), Ok(vec![1, -2]));
        assert_eq!(point(&file, 2, 0, 1), Ok(vec![3, -4]));
    }
}

// "The writer makes types 3, 4, 6 and 11 from all header fields, points in a
// lent slice, and the tail": what is written is judged, viewed and read back.
#[test]
fn written_then_read() {
    let mut random = Random::new(7);
    for _ in 0..5000 {
        let call = writes::good_write(&mut random);
        let mut out = vec![call.fill; call.room];
        let size = write(&call.fields, &call.points, &call.tail, call.dim, &mut out).unwrap();
        let bytes = size as usize * 2;
        assert!(out[bytes..].iter().all(|&byte| byte == call.fill));
        let mut file = out[..bytes].to_vec();
        let mut place = 0;
        if call.fields.c == 1 {
            // A component needs a header above it.
            let mut above = library_cell(&[]);
            above[18] += size as u16;
            place = 35;
            file = [bytes_of(&above), file].concat();
        }
        file.extend([255, 255]);
        assert!(judge(&file, call.dim).is_ok());
        let seen = view(&file, call.dim, place).unwrap();
        assert_eq!(fields_of(&seen), call.fields);
        assert_eq!(seen.size, size);
        for (k, wanted) in call.points.chunks(call.dim as usize).enumerate() {
            assert_eq!(point(&file, call.dim, place, k as u64).unwrap(), wanted);
        }
        assert!(file[place as usize * 2..].ends_with(&[&call.tail[..], &[255, 255]].concat()));
    }
}

// The other way: an accepted element of types 3, 4, 6 and 11, written again
// from its view, gives the same bytes.
#[test]
fn read_then_written() {
    let mut random = Random::new(8);
    let mut made_again = 0;
    for _ in 0..6000 {
        let dim = generate::files::dimension(&mut random);
        let made = generate::valid(&mut random, dim);
        let (starts, _) = generate::places::scan(&made.file);
        for start in starts
            .iter()
            .filter(|start| [3, 4, 6, 11].contains(&start.kind))
        {
            let seen = view(&made.file, dim, start.place).unwrap();
            let mut points = Vec::new();
            let mut k = 0;
            while let Ok(next) = point(&made.file, dim, start.place, k) {
                points.extend(next);
                k += 1;
            }
            let whole = &made.file[start.place as usize * 2..start.end as usize * 2];
            let before = if seen.kind == 3 { 18 } else { 19 };
            let tail = &whole[(before + points.len() * 2) * 2..];
            let mut out = vec![0; whole.len()];
            assert_eq!(
                write(&fields_of(&seen), &points, tail, dim, &mut out),
                Ok(seen.size)
            );
            assert_eq!(out, whole);
            made_again += 1;
        }
    }
    assert!(made_again > 2000);
}

// "A refusal changes no lent byte and no length."
#[test]
fn spoiled_calls() {
    let mut random = Random::new(9);
    let mut seen = std::collections::BTreeSet::new();
    for _ in 0..40_000 {
        let call = writes::write_call(&mut random);
        let mut out = vec![call.fill; call.room];
        match write(&call.fields, &call.points, &call.tail, call.dim, &mut out) {
            Ok(size) => assert!(out[size as usize * 2..].iter().all(|&b| b == call.fill)),
            Err(refusal) => {
                assert!(out.iter().all(|&byte| byte == call.fill));
                assert_eq!(refusal.place, 0);
                seen.insert(refusal.number);
            }
        }
    }
    assert_eq!(seen.into_iter().collect::<Vec<_>>(), [1, 7, 11, 15]);
    let call = writes::long_line(65_536);
    let mut out = vec![0; call.room];
    assert_eq!(
        write(&call.fields, &call.points, &call.tail, 2, &mut out),
        refused(8, 0)
    );
}
