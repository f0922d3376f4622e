//! Refusals as numbers, as an error and as text.

use dgn::{Number, Refusal};

#[test]
fn taken_apart() {
    assert_eq!(Refusal::of(0), None);
    for (n, number) in (1..=22).zip(Number::ALL.iter().copied()) {
        assert_eq!(number as usize, n);
        assert_eq!(Refusal::of(n + 256 * 417), Some(Refusal { number, place: 417, count: 0 }));
        let (place, count) = if n == 13 { (0, 417) } else { (417, 0) };
        assert_eq!(Refusal::of_find(n + 256 * 417), Some(Refusal { number, place, count }));
    }
    assert_eq!(Refusal::of(23), None);
    assert_eq!(Refusal::of(256), None);
}

#[test]
fn said() {
    let mut names = Vec::new();
    for &number in Number::ALL {
        let (name, text) = (number.name(), number.text());
        assert!(!name.is_empty() && name.chars().all(|c| c.is_ascii_uppercase() || c == ' '), "{name}");
        assert!(text.len() > 10 && text.is_ascii(), "{text}");
        let printed = Refusal { number, place: 155, count: 0 }.to_string();
        assert_eq!(printed, format!("{} {name} at 155: {text}", number as u8));
        names.push(name);
    }
    assert_eq!((names[0], names[12], names[19], names[20], names[21]), ("CALL", "NO SUCH", "FIELD", "FLOAT", "BLOCK"));
    names.sort_unstable();
    names.dedup();
    assert_eq!(names.len(), 22, "each has a name of its own");
}

#[test]
fn an_error() {
    fn judged(file: &[u8]) -> Result<usize, Box<dyn std::error::Error>> {
        Ok(dgn::judge(file, dgn::Dimension::Two)?.marker)
    }
    assert_eq!(judged(&[255, 255]).unwrap(), 0);
    assert!(judged(&[]).unwrap_err().to_string().starts_with("2 NO END at 0: "));
}
