//! What a file holds after a list of steps, by the second reader alone; and a sample file.

use crate::model::Words;
use reader::{Call, State};

pub fn words(text: &str) -> Words {
    text.split_whitespace().map(|word| word.to_string()).collect()
}

/// A session of the second reader with room for all.
pub fn session(file: &[u8]) -> (State, Vec<u8>) {
    let used = 2 * reader::judge(file, 2).expect("an accepted file").marker as usize + 2;
    let (mut buffer, behind) = (file[..used].to_vec(), file[used..].to_vec());
    buffer.resize((1 << 20) - behind.len(), 0);
    (State { dim: 2, file: buffer, used: used as u64, journal: vec![0; 1 << 20], jused: 0 }, behind)
}

/// The calls of a command whose cells are named by their places.
pub fn calls(words: &[String]) -> Vec<Call> {
    let place = || words[1].strip_prefix('@').unwrap().parse().unwrap();
    match words[0].as_str() {
        "rename" => vec![Call::Rename { place: place(), text: words[2].clone().into_bytes() }],
        "delete" => vec![Call::Mark { place: place(), deleted: true }],
        "restore" => vec![Call::Mark { place: place(), deleted: false }],
        "remove" => vec![Call::Remove { place: place() }],
        "undo" => vec![Call::Undo; words.get(1).map_or(1, |count| count.parse().unwrap())],
        other => panic!("{other}"),
    }
}

/// The file after a list of steps.
pub fn after(original: &[u8], steps: &[Words]) -> Option<Vec<u8>> {
    let (mut state, behind) = session(original);
    for step in steps {
        for call in calls(step) {
            state.run(&call).ok()?;
        }
    }
    Some([state.used_file(), &behind].concat())
}

/// How many edits stand after a list of steps.
pub fn standing(steps: &[Words]) -> usize {
    steps.iter().fold(0, |count, step| match step[0].as_str() {
        "undo" => count - step.get(1).map_or(1, |undone| undone.parse().unwrap()),
        _ => count + 1,
    })
}

/// A small 2D file: two cells, each with so many lines, the end marker, and four bytes behind it.
pub fn sample(lines: usize) -> Vec<u8> {
    let mut file: Vec<u16> = Vec::new();
    for name in ["00417", "PUMP.1"] {
        let name = dgn::pack(name).unwrap();
        let at = file.len();
        file.resize(at + 46, 0);
        file[at] = 2 << 8;
        file[at + 1] = 44;
        file[at + 18] = (27 + 26 * lines) as u16;
        file[at + 19] = name.first;
        file[at + 20] = name.second;
        for k in 0..lines {
            let at = file.len();
            file.resize(at + 26, 0);
            file[at] = 3 << 8 | 128 | 1;
            file[at + 1] = 24;
            file[at + 19] = k as u16;
        }
    }
    file.extend([65535, 0x1234, 0x5678]);
    file.iter().flat_map(|word| word.to_le_bytes()).collect()
}
