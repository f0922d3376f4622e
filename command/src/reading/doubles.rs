//! The codes that several cells of a file have.

use crate::output;
use crate::parts;
use dgn::{Entry, Name};

/// How many places of a code are shown.
const SHOWN: usize = 8;

/// A cell by the two words of its name and its place.
#[derive(Clone, Copy, Default)]
struct Cell {
    name: u32,
    place: u32,
}

impl Cell {
    fn of(entry: Entry) -> Cell {
        Cell { name: u32::from(entry.name.first) << 16 | u32::from(entry.name.second), place: entry.place as u32 }
    }
}

/// A code that several cells have.
pub struct Double {
    name: u32,
    cells: usize,
    /// Of the first cells.
    places: [usize; SHOWN],
}

impl Double {
    fn of(cells: &[Cell]) -> Double {
        let mut double = Double { name: cells[0].name, cells: 0, places: [0; SHOWN] };
        cells.iter().for_each(|cell| double.add(cell));
        double
    }

    fn add(&mut self, cell: &Cell) {
        if let Some(place) = self.places.get_mut(self.cells) {
            *place = cell.place as usize;
        }
        self.cells += 1;
    }

    /// The code.
    pub fn code(&self) -> String {
        let name = Name { first: (self.name >> 16) as u16, second: self.name as u16 };
        dgn::unpack(name).expect("the name of a cell")
    }

    /// How many cells have it.
    pub fn cells(&self) -> usize {
        self.cells
    }

    /// The places of the first of them, in file order.
    pub fn places(&self) -> &[usize] {
        &self.places[..self.cells.min(SHOWN)]
    }

    /// Puts the warning of it behind a text.
    pub fn warn(&self, text: &mut String) {
        output::push_grouped(text, self.cells);
        *text += " cells have the code ";
        parts::show(text, &self.code());
        let mut before = ": @";
        for &place in self.places() {
            *text += before;
            output::push_number(text, place);
            before = ", @";
        }
        if self.cells > SHOWN {
            *text += ", and ";
            output::push_grouped(text, self.cells - SHOWN);
            *text += " more";
        }
    }
}

/// Finds them in one file after another, in the same memory. A table of hashes leaves the cells whose name has the hash of another
/// cell's; in a second one, for which few names are left, they are put together by name.
#[derive(Default)]
pub struct Finder {
    /// For each hash, how many cells have it.
    counts: Vec<u8>,
    /// The cells whose hash several have.
    alike: Vec<Cell>,
    /// For each hash, the number of the double whose name was the first to have it.
    numbers: Vec<u32>,
    doubles: Vec<Double>,
    /// The cells of other names with that hash.
    others: Vec<Cell>,
}

/// Hashes below a power of two.
#[derive(Clone, Copy)]
struct Hash {
    bits: u32,
}

impl Hash {
    /// Not below so many.
    fn of(many: usize) -> Hash {
        Hash { bits: many.next_power_of_two().ilog2() }
    }

    /// The first bits of the product of the name with an odd number near 2^32 divided by the golden ratio.
    fn at(self, name: u32) -> usize {
        (u64::from(name.wrapping_mul(0x9e37_79b1)) << self.bits >> 32) as usize
    }

    /// A table of them, cleared.
    fn table<T: Copy>(self, memory: &mut Vec<T>, none: T) -> &mut [T] {
        memory.clear();
        memory.resize(1 << self.bits, none);
        memory
    }
}

impl Finder {
    /// Those of cells in file order; by the order of an index.
    pub fn find(&mut self, cells: impl ExactSizeIterator<Item = Entry> + Clone) -> &[Double] {
        let used = self.leave(cells.map(Cell::of));
        self.join(used);
        &self.doubles
    }

    /// Leaves the cells whose hash several have; gives how many these are.
    fn leave(&mut self, cells: impl ExactSizeIterator<Item = Cell> + Clone) -> usize {
        let hash = Hash::of(8 * cells.len());
        let counts = hash.table(&mut self.counts, 0);
        for cell in cells.clone() {
            let count = &mut counts[hash.at(cell.name)];
            *count = count.saturating_add(1);
        }
        self.alike.resize(cells.len(), Cell::default());
        let alike = &mut self.alike[..];
        let mut used = 0;
        // each is put there, and the next one over it where it is not left: a branch would often be foreseen wrongly
        for cell in cells {
            alike[used] = cell;
            used += usize::from(counts[hash.at(cell.name)] > 1);
        }
        used
    }

    /// Puts so many of them together by name.
    fn join(&mut self, used: usize) {
        let Finder { alike, numbers, doubles, others, .. } = self;
        let hash = Hash::of(2 * used);
        let numbers = hash.table(numbers, u32::MAX);
        doubles.clear();
        others.clear();
        for cell in &alike[..used] {
            let number = &mut numbers[hash.at(cell.name)];
            match doubles.get_mut(*number as usize) {
                Some(double) if double.name == cell.name => double.add(cell),
                Some(_) => others.push(*cell),
                None => {
                    *number = doubles.len() as u32;
                    doubles.push(Double::of(&[*cell]));
                }
            }
        }
        others.sort_by_key(|cell| cell.name);
        doubles.extend(others.chunk_by(|one, other| one.name == other.name).map(Double::of));
        doubles.retain(|double| double.cells > 1);
        doubles.sort_unstable_by_key(|double| double.name);
    }
}
