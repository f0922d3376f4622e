//! What the accepted files and the aimed refusals of a run held, so that a run says whether it had all that it should.

use reader::generate::places::scan;
use reader::generate::tree::is_header;
use reader::LinkageKind;

pub struct Seen {
    /// Elements by dimension (2D, 3D) and type.
    types: [[u64; 128]; 2],
    /// Deleted elements by depth.
    deleted: [u64; 9],
    /// Headers without components, by type.
    empty: [u64; 128],
    user: u64,
    other: u64,
    after_marker: u64,
    /// Aimed refusals by number and depth.
    refused: [[u64; 10]; 22],
}

impl Default for Seen {
    fn default() -> Seen {
        Seen {
            types: [[0; 128]; 2],
            deleted: [0; 9],
            empty: [0; 128],
            user: 0,
            other: 0,
            after_marker: 0,
            refused: [[0; 10]; 22],
        }
    }
}

impl Seen {
    /// A file that both accepted.
    pub fn accepted(&mut self, file: &[u8], dim: u64) {
        let (starts, marker) = scan(file);
        if file.len() as u64 / 2 > marker + 1 {
            self.after_marker += 1;
        }
        for s in starts {
            self.types[dim as usize - 2][s.kind as usize] += 1;
            if s.deleted {
                self.deleted[s.depth as usize] += 1;
            }
            let size = u64::from(u16::from_le_bytes([file[2 * s.place as usize + 2], file[2 * s.place as usize + 3]])) + 2;
            if is_header(s.kind) && s.end == s.place + size {
                self.empty[s.kind as usize] += 1;
            }
            match reader::linkage(file, dim, s.place, 0).map(|l| l.kind) {
                Ok(LinkageKind::User) => self.user += 1,
                Ok(LinkageKind::Other) => self.other += 1,
                Err(_) => {}
            }
        }
    }

    /// An aimed refusal that both answered.
    pub fn refused(&mut self, number: u32, depth: u64) {
        self.refused[number as usize][depth as usize] += 1;
    }

    /// Every type that is read was accepted in both dimensions, types 18 and 19 in 3D; elements were deleted at every
    /// depth; every header was empty once; linkages of both kinds and words after the marker were met.
    pub fn check_accepted(&self) {
        for kind in (0..128).filter(|kind| ![24, 27, 87].contains(kind)) {
            assert!(self.types[1][kind] > 0, "type {kind} in 3D");
            assert!(self.types[0][kind] > 0 || kind == 18 || kind == 19, "type {kind} in 2D");
            assert!(self.empty[kind] > 0 || !is_header(kind as u64), "empty header of type {kind}");
        }
        assert!(self.deleted.iter().all(|&n| n > 0), "deleted by depth: {:?}", self.deleted);
        assert!(self.user > 0 && self.other > 0 && self.after_marker > 0);
    }

    /// Every number from 1 to 12, 20 and 21 was met, and those of an element at every depth that it can have.
    pub fn check_refused(&self) {
        for number in (1..=12).chain([20, 21]) {
            for depth in 0..=9 {
                let due = match number {
                    1 | 2 => depth == 0,
                    10 => depth == 9,
                    _ => depth < 9,
                };
                assert!(self.refused[number][depth] > 0 || !due, "refusal {number} at depth {depth}");
            }
        }
    }
}
