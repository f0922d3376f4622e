//! Writing: refusals in their order, and what stands behind an element.

mod common;

use common::{fields, line, TWO};
use dgn::{Fields, Number, Refusal, Type};

fn number(answer: Result<usize, Refusal>) -> Number {
    let Refusal { number, place, count } = answer.unwrap_err();
    assert_eq!((place, count), (0, 0));
    number
}

#[test]
fn written() {
    let mut buffer = [9; 60];
    let points = [1, -2, 65538, 7];
    assert_eq!(dgn::write(&fields(), &points, &[], TWO, &mut buffer), Ok(26));
    assert_eq!(buffer[..52], line(&fields()));
    assert_eq!(buffer[52..], [9; 8]);
    // a long is two words, high word first; in a range with its top bit turned over
    assert_eq!(buffer[40..48], [255, 255, 254, 255, 1, 0, 2, 0]);
    assert_eq!(buffer[8..20], [255, 127, 254, 255, 255, 255, 255, 255, 1, 128, 2, 0]);
    assert_eq!(buffer[24..28], [0; 4]);
}

#[test]
fn refused() {
    let mut buffer = [9; 60];
    let (line, shape) = (Fields::new(Type::Line), Fields::new(Type::Shape));
    let mut write = |fields: &Fields, points: &[i32], tail: &[u8], room: usize| {
        let answer = dgn::write(fields, points, tail, TWO, &mut buffer[..room]);
        assert!(answer.is_ok() || buffer.iter().all(|&byte| byte == 9), "a refusal changes no byte");
        answer
    };
    assert_eq!(number(write(&line, &[0; 4], &[], 51)), Number::Room);
    assert_eq!(number(write(&line, &[0; 4], &[0], 60)), Number::Call);
    assert_eq!(number(write(&line, &[0; 6], &[], 60)), Number::Call);
    assert_eq!(number(write(&Fields::new(Type::Text), &[0; 4], &[], 60)), Number::Call);
    assert_eq!(number(write(&Fields { level: 64, ..line }, &[0; 4], &[], 60)), Number::Call);
    assert_eq!(number(write(&shape, &[0; 2], &[], 60)), Number::Short);
    assert_eq!(number(write(&shape, &[0; 204], &[], 60)), Number::Short);
    assert_eq!(number(write(&line, &[0; 4], &[0; 131_020], 60)), Number::Total);
    let mut attributes = line;
    attributes.display.properties = 1 << 11;
    assert_eq!(number(write(&attributes, &[0; 4], &[], 60)), Number::Linkage);
    assert_eq!(write(&shape, &[0; 4], &[], 60), Ok(27));
}
