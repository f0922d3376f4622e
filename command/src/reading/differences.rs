//! In what two trees differ.

use super::tree::{Node, Tree};
use crate::output;
use crate::parts;
use std::collections::{HashMap, HashSet};

/// How an element of one file stands to one of the other.
#[derive(Clone, Copy, PartialEq, Eq, Debug)]
pub enum Relation {
    /// The same name and bytes.
    Same,
    /// The same name, other bytes.
    Changed,
    /// The same bytes but for the name.
    Renamed,
    /// In A alone.
    OnlyA,
    /// In B alone.
    OnlyB,
}

impl Relation {
    /// Its word in a column.
    pub fn word(self) -> &'static str {
        match self {
            Relation::Same => "same",
            Relation::Changed => "changed",
            Relation::Renamed => "renamed",
            Relation::OnlyA => "only-a",
            Relation::OnlyB => "only-b",
        }
    }
}

/// An element of A, of B, or of both.
#[derive(Debug)]
pub struct Difference<'t> {
    /// How they stand to each other.
    pub relation: Relation,
    /// That of A.
    pub a: Option<&'t Node>,
    /// That of B.
    pub b: Option<&'t Node>,
    /// Of a changed one: how many elements directly under it, other than cells, are the same, only in A, only in B.
    pub others: [u32; 3],
    /// Of a changed one at the top: that nothing but marks of deletion differ. What stands under it is then not compared.
    pub marks: bool,
}

impl<'t> Difference<'t> {
    fn new(relation: Relation, a: Option<&'t Node>, b: Option<&'t Node>) -> Difference<'t> {
        Difference { relation, a, b, others: [0; 3], marks: false }
    }
}

impl Difference<'_> {
    /// A line on it; none where it is the same, or no part.
    pub fn line(&self) -> Option<String> {
        let node = self.a.or(self.b)?;
        let code = parts::shown(&node.code()?);
        let at = |node: &Node| format!("@{}", node.place);
        let (a, b) = (self.a.map_or(String::new(), at), self.b.map_or(String::new(), at));
        let what = match (self.relation, self.a, self.b) {
            (Relation::Same, ..) => return None,
            (Relation::Changed, Some(old), Some(new)) => {
                format!("changed: {code}, {a} in A, {b} in B{}", self.detail(old, new))
            }
            (Relation::Renamed, Some(_), Some(new)) => {
                format!("renamed: {code}, {a} in A, is {} in B, {b}", parts::shown(&new.code().unwrap_or_default()))
            }
            (Relation::OnlyB, ..) => {
                format!("only in B: {code}, {b}, {}", output::count(node.elements as usize, "element"))
            }
            _ => format!("only in A: {code}, {a}, {}", output::count(node.elements as usize, "element")),
        };
        Some(format!("{}{what}", "  ".repeat(node.depth.into())))
    }

    /// What is seen at once of a change.
    fn detail(&self, old: &Node, new: &Node) -> String {
        let deleted = match (old.deleted, new.deleted) {
            (true, false) if self.marks => "; the same but for the mark: deleted in A",
            (false, true) if self.marks => "; the same but for the mark: deleted in B",
            _ if self.marks => "; the same but for marks of deletion in it",
            (true, false) => "; deleted in A",
            (false, true) => "; deleted in B",
            _ => "",
        };
        let [same, a, b] = self.others.map(|number| number as usize);
        let others = match a + b {
            0 => String::new(),
            _ => format!(
                "; {} the same, {} only in A, {} only in B",
                output::count(same, "element"),
                output::grouped(a),
                output::grouped(b)
            ),
        };
        format!("{deleted}{others}")
    }
}

/// All elements that were compared.
pub struct Differences<'t> {
    /// With each other, in the order of A, those of B alone behind those of the same header.
    pub list: Vec<Difference<'t>>,
    /// Whether some that are the same stand in another order.
    pub moved: bool,
}

impl<'t> Differences<'t> {
    /// Compares two files.
    pub fn of(a: &'t Tree, b: &'t Tree) -> Differences<'t> {
        let mut differences = Differences { list: Vec::new(), moved: false };
        differences.compare(a, a.top(), b, b.top());
        differences
    }

    /// Whether all is the same.
    pub fn all_same(&self) -> bool {
        self.list.iter().all(|difference| difference.relation == Relation::Same)
    }

    /// How many cells, or other elements, stand so to each other.
    pub fn count(&self, relation: Relation, cells: bool) -> usize {
        let is_cell = |difference: &Difference| difference.a.or(difference.b).is_some_and(|node| node.name.is_some());
        self.list.iter().filter(|difference| difference.relation == relation && is_cell(difference) == cells).count()
    }

    /// From a number of the list on and at one depth: elements other than cells that are the same, only in A, only in B.
    fn others(&self, from: usize, depth: u8) -> [u32; 3] {
        let here = |difference: &&Difference| {
            difference.a.or(difference.b).is_some_and(|node| node.depth == depth && node.name.is_none())
        };
        let count = |relation| self.list[from..].iter().filter(here).filter(|d| d.relation == relation).count() as u32;
        [Relation::Same, Relation::OnlyA, Relation::OnlyB].map(count)
    }

    /// Compares what stands directly under two headers, or at the top of both files.
    fn compare(&mut self, a: &'t Tree, of_a: Vec<&'t Node>, b: &'t Tree, of_b: Vec<&'t Node>) {
        let mut pairs = Pairs::new(of_a, of_b);
        pairs.pair(Relation::Same, |node| Some(a.extent(node)), |node| Some(b.extent(node)));
        // only cells as long as one that is left in the other file can be the same but for the name
        let (long_a, long_b) = pairs.lengths();
        let nameless = |tree: &Tree, node: &Node, lengths: &HashSet<u32>| {
            (node.name.is_some() && lengths.contains(&node.words())).then(|| tree.nameless(node))
        };
        pairs.pair(Relation::Renamed, |node| nameless(a, node, &long_b), |node| nameless(b, node, &long_a));
        pairs.pair(Relation::Changed, |node| node.name, |node| node.name);
        self.moved |= pairs.moved();
        let Pairs { of_a, of_b, found, .. } = pairs;
        for (&node, found) in of_a.iter().zip(&found) {
            match *found {
                Some((relation, k)) => {
                    let other = of_b[k as usize];
                    let at = self.list.len();
                    self.list.push(Difference::new(relation, Some(node), Some(other)));
                    let is_top = node.depth == 0 && node.words() == other.words();
                    self.list[at].marks = relation == Relation::Changed && is_top && a.live(node) == b.live(other);
                    if relation == Relation::Changed && !self.list[at].marks {
                        self.compare(a, a.under(node), b, b.under(other));
                        self.list[at].others = self.others(at + 1, node.depth + 1);
                    }
                }
                None => self.list.push(Difference::new(Relation::OnlyA, Some(node), None)),
            }
        }
        let mut taken = vec![false; of_b.len()];
        found.iter().flatten().for_each(|&(_, k)| taken[k as usize] = true);
        let alone = of_b.into_iter().zip(taken).filter(|(_, taken)| !taken);
        self.list.extend(alone.map(|(node, _)| Difference::new(Relation::OnlyB, None, Some(node))));
    }
}

/// Elements of A and of B, and which of them belong together.
struct Pairs<'t> {
    of_a: Vec<&'t Node>,
    of_b: Vec<&'t Node>,
    /// For each of A the relation and the number of that of B.
    found: Vec<Option<(Relation, u32)>>,
    taken: Vec<bool>,
}

impl<'t> Pairs<'t> {
    fn new(of_a: Vec<&'t Node>, of_b: Vec<&'t Node>) -> Pairs<'t> {
        let (found, taken) = (vec![None; of_a.len()], vec![false; of_b.len()]);
        Pairs { of_a, of_b, found, taken }
    }

    /// The lengths of the cells that are left, of A and of B.
    fn lengths(&self) -> (HashSet<u32>, HashSet<u32>) {
        let length = |node: &&Node| node.name.map(|_| node.words());
        let of_a = self.of_a.iter().zip(&self.found).filter(|(_, found)| found.is_none());
        let of_b = self.of_b.iter().zip(&self.taken).filter(|(_, taken)| !**taken);
        (of_a.filter_map(|(node, _)| length(node)).collect(), of_b.filter_map(|(node, _)| length(node)).collect())
    }

    /// Pairs those that are left and have the same key, the first with the first.
    fn pair<K: Eq + std::hash::Hash>(
        &mut self,
        relation: Relation,
        key_a: impl Fn(&Node) -> Option<K>,
        key_b: impl Fn(&Node) -> Option<K>,
    ) {
        if self.found.iter().all(Option::is_some) {
            return;
        }
        // of those of B with a key the first, and for each the next with its key
        let mut first: HashMap<K, u32> = HashMap::new();
        let mut next = vec![u32::MAX; self.of_b.len()];
        for (k, node) in self.of_b.iter().enumerate().rev().filter(|(k, _)| !self.taken[*k]) {
            if let Some(key) = key_b(node) {
                next[k] = first.insert(key, k as u32).unwrap_or(u32::MAX);
            }
        }
        for (node, found) in self.of_a.iter().zip(&mut self.found).filter(|(_, found)| found.is_none()) {
            let Some(waiting) = key_a(node).and_then(|key| first.get_mut(&key)).filter(|k| **k != u32::MAX) else {
                continue;
            };
            let k = *waiting as usize;
            *waiting = next[k];
            *found = Some((relation, k as u32));
            self.taken[k] = true;
        }
    }

    /// Whether two pairs stand the other way round in B.
    fn moved(&self) -> bool {
        let order: Vec<u32> = self.found.iter().flatten().map(|&(_, k)| k).collect();
        !order.is_sorted()
    }
}
