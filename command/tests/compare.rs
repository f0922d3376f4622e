//! compare: after one edit by the library just that edit is seen.

use dgn::{Dimension, Session};
use dgn_command::files::{File, How};
use dgn_command::reading::differences::{Difference, Differences, Relation};
use dgn_command::reading::tree::Tree;
use std::ffi::OsStr;

const ROOT: &str = concat!(env!("CARGO_MANIFEST_DIR"), "/..");
const TWO: Dimension = Dimension::Two;

fn read(name: &str) -> Vec<u8> {
    std::fs::read(format!("{ROOT}/{name}")).expect("a file")
}

fn opened(bytes: Vec<u8>) -> File<'static> {
    let judged = dgn::judge(&bytes, TWO).expect("a good file");
    File { name: OsStr::new("a file"), bytes, dimension: TWO, how: How::Asked, judged }
}

/// How two elements stand to each other, and the places of both.
type Seen = (Relation, Option<u32>, Option<u32>);

/// What an edit of a file leaves not the same, and whether something is in another order.
fn seen(name: &str, edit: impl FnOnce(&mut Session)) -> (Vec<Seen>, bool) {
    let bytes = read(name);
    let mut buffer = bytes.clone();
    buffer.resize(bytes.len() + 4096, 0);
    let mut session = Session::open(buffer, bytes.len(), vec![0; 8192], TWO).expect("a good file");
    edit(&mut session);
    let (a, b) = (opened(bytes), opened(session.file().to_vec()));
    let (a, b) = (Tree::of(&a), Tree::of(&b));
    let differences = Differences::of(&a, &b);
    let not_same = |difference: &&Difference| difference.relation != Relation::Same;
    let list = differences.list.iter().filter(not_same);
    let places = list.map(|d| (d.relation, d.a.map(|node| node.place), d.b.map(|node| node.place))).collect();
    (places, differences.moved)
}

#[test]
fn nothing() {
    assert_eq!(seen("samples/nested.dgn", |_| ()), (vec![], false));
}

#[test]
fn a_part_at_the_top_renamed() {
    let (seen, _) = seen("samples/seals.cel", |session| session.rename(181, "00418").expect("a cell"));
    assert_eq!(seen, [(Relation::Renamed, Some(181), Some(181))]);
}

#[test]
fn a_part_in_parts_renamed() {
    let (seen, _) = seen("samples/nested.dgn", |session| session.rename(183, "SEAL").expect("a cell"));
    let here = |relation, place| (relation, Some(place), Some(place));
    assert_eq!(seen, [here(Relation::Changed, 26), here(Relation::Changed, 111), here(Relation::Renamed, 183)]);
}

#[test]
fn two_parts_that_take_each_others_names() {
    let (seen, moved) = seen("samples/seals.cel", |session| {
        session.rename(0, "417").expect("a cell");
        session.rename(181, "00417").expect("a cell");
    });
    assert_eq!(seen, [(Relation::Renamed, Some(0), Some(0)), (Relation::Renamed, Some(181), Some(181))]);
    assert!(!moved);
}

#[test]
fn a_part_deleted() {
    let changed = (Relation::Changed, Some(286), Some(286));
    let (whole, _) = seen("samples/seals.cel", |session| session.mark(286, true).expect("an element"));
    assert_eq!(whole, [changed]);
    let (one, _) = seen("samples/seals.cel", |session| session.mark(321, true).expect("an element"));
    assert_eq!(one, [changed]);
    // a mark and something else: what is beneath is compared
    let (both, _) = seen("samples/seals.cel", |session| {
        session.mark(321, true).expect("an element");
        session.remove(360).expect("an element");
    });
    let gone = |place| (Relation::OnlyA, Some(place), None);
    assert_eq!(both, [changed, gone(321), gone(360), (Relation::OnlyB, None, Some(321))]);
}

#[test]
fn a_part_removed_and_put_elsewhere() {
    let file = read("samples/seals.cel");
    let piece = &file[2 * 181..2 * 286];
    let (removed, _) = seen("samples/seals.cel", |session| session.remove(181).expect("an element"));
    assert_eq!(removed, [(Relation::OnlyA, Some(181), None)]);
    let (moved, order) = seen("samples/seals.cel", |session| {
        session.remove(181).expect("an element");
        session.insert(None, 0, piece).expect("a piece");
    });
    assert_eq!(moved, []);
    assert!(order);
    let (twice, _) = seen("samples/seals.cel", |session| session.insert(None, 0, piece).expect("a piece"));
    assert_eq!(twice, [(Relation::OnlyB, None, Some(286))]);
}
