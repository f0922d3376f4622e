//! The bench: checks that all answer alike, measures them in turn and prints tables of ratios.
//! `bench FOLDER [ROUNDS [many|index|plates]]`: FOLDER takes the files that the programs read and write; with `many` the table of many
//! files alone, with `index` those of cells and indexes, with `plates` that of plates.

mod blocks;
mod calls;
mod checks;
mod edits;
mod indexes;
mod inputs;
mod many;
mod programs;
mod reading;
mod tables;
mod timing;
mod whole;

use inputs::{make, Input, KIB, KINDS, RANGED};

const ROOT: &str = concat!(env!("CARGO_MANIFEST_DIR"), "/..");

fn main() {
    let mut arguments = std::env::args().skip(1);
    let folder = arguments.next().expect("bench FOLDER [ROUNDS [many|index|plates]]");
    let rounds: usize = arguments.next().map_or(301, |n| n.parse().expect("a number of rounds"));

    let all: Vec<Input> = KINDS.iter().map(|&kind| make(kind, 1024 * KIB, 1)).collect();
    match arguments.next().as_deref() {
        Some("many") => return many::table(&folder, rounds),
        Some("index") => return indexes::tables(rounds),
        Some("plates") => return whole::plates(&all, rounds),
        _ => {}
    }
    let mut checked = checks::Checked::default();
    let ranged: Vec<Input> = RANGED.iter().map(|&kind| make(kind, 1024 * KIB, 1)).collect();
    for input in all.iter().chain(&ranged) {
        checked.input(input);
    }
    checked.generated(20);
    for folder in ["tests/real", "tests/real/texts", "tests/real/curves"] {
        checked.real(&format!("{ROOT}/{folder}"));
    }
    println!("Answers: {} files judged alike by all three, {} of them refused.", checked.files, checked.refused);

    reading::judging(&all, rounds);
    reading::places(&all, rounds);
    whole::views(&all, 1 + rounds / 6);
    whole::points(&all, 1 + rounds / 6);
    whole::texts(&all, 1 + rounds / 6);
    whole::curves(&all, 1 + rounds / 6);
    whole::ranges(&ranged, &all, 1 + rounds / 6);
    whole::plates(&all, 1 + rounds / 6);
    edits::table(rounds);
    indexes::tables(rounds);
    blocks::table(rounds);
    programs::listing(&folder, rounds);
    reading::growth(1 + rounds / 3);
    programs::beside_gdal(&folder, 1 + rounds / 10);
    many::table(&folder, 1 + rounds / 30);
}
