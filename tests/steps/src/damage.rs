//! Damaged logs: refused, with the block that is damaged, and nothing is touched.

use crate::folder::{renumber, State, FILE, LOG, NEXT};
use crate::tests::{Tests, CHANGED};
use dgn::journal_of_blocks;

/// A damage, and the blocks it is in.
struct Damage {
    what: String,
    data: Vec<u8>,
    blocks: Vec<usize>,
}

fn damages(good: &[u8]) -> Vec<Damage> {
    let mut all = Vec::new();
    let mut add = |what: String, data: Vec<u8>, blocks: Vec<usize>| {
        if data != good {
            all.push(Damage { what, data, blocks });
        }
    };
    for k in 0..good.len() {
        let mut data = good.to_vec();
        data[k] ^= 1 << (k % 8);
        add(format!("byte {k}"), data, vec![k / 512]);
    }
    for k in (0..good.len()).step_by(64) {
        add(format!("cut to {k}"), good[..k].to_vec(), vec![k / 512]);
    }
    let count = good.len() / 512;
    let block = |k: usize| 512 * k..512 * k + 512;
    for a in 0..count {
        let mut data = good.to_vec();
        data[block(a)].fill(0);
        add(format!("block {a} zero"), data, vec![a]);
        let mut data = good.to_vec();
        data.splice(block(a), []);
        add(format!("block {a} gone"), data, (0..count).collect());
        for b in 0..a {
            let mut data = good.to_vec();
            data[block(a)].copy_from_slice(&good[block(b)]);
            add(format!("block {a} is {b}"), data.clone(), vec![a]);
            data[block(b)].copy_from_slice(&good[block(a)]);
            add(format!("blocks {a} and {b} exchanged"), data, vec![a, b]);
        }
        let mut data = good.to_vec();
        let at = (0..250).map(|k| 512 * a + 2 * k).find(|&k| good[k..k + 2] != good[k + 2..k + 4]).unwrap();
        data.copy_within(at..at + 2, at + 2);
        data[at..at + 2].copy_from_slice(&good[at + 2..at + 4]);
        add(format!("two words of block {a} exchanged"), data, vec![a]);
    }
    add("a block more".into(), [good, &[0; 512]].concat(), vec![count]);
    all
}

impl Tests {
    pub fn damage(&mut self) {
        let base = self.base(&["rename @0 417", "remove @46", "delete @46"]);
        let mut unseen = 0;
        for Damage { what, data, blocks } in damages(&base[LOG].1.data) {
            let mut state = base.clone();
            state.get_mut(LOG).unwrap().1.data = data.clone();
            self.build("work", &state);
            for command in ["history", "undo", "rename --dry-run @0 X"] {
                let ran = self.plain("work", command);
                self.count("damaged logs tried", 1);
                // the block is named; one of the first two, which hold the seal, may be named with the other
                let names = |block: &usize| {
                    ran.err.contains(&format!("block {block} ")) || (*block < 2 && ran.err.contains("blocks 0 to 1 "))
                };
                if !ran.refused("is damaged: ") || !blocks.iter().any(names) {
                    self.fail(format!("{what}, {command}: {ran:?}"));
                }
            }
            if self.state("work") != state {
                self.fail(format!("{what}: something was touched"));
            }
            unseen += usize::from(
                !data.is_empty()
                    && data.len() % 512 == 0
                    && data.chunks(512).all(|block| journal_of_blocks(block).is_ok()),
            );
        }
        self.count("of these with a right check in every block, which the seal alone sees", unseen);
        self.new_history(&base);
        self.needed_next();
    }

    /// A damaged log is kept under another name, and a new history begins.
    fn new_history(&mut self, base: &State) {
        let mut state = base.clone();
        state.get_mut(LOG).unwrap().1.data[700] ^= 1;
        self.build("work", &state);
        let ran = self.plain("work", "rename --new-history @0 NEW");
        let now = self.state("work");
        let kept = format!("{LOG}.1");
        if !ran.good()
            || now.len() != 3
            || now.get(&kept).map(|log| &log.1) != Some(&state[LOG].1)
            || !ran.err.contains(&kept)
        {
            self.fail(format!("a damaged log, --new-history: {ran:?} {:?}", now.keys()));
        }
        let ran = self.plain("work", "undo");
        if !ran.good() || self.state("work")[FILE].1 != base[FILE].1 {
            self.fail(format!("a new history, undo: {ran:?}"));
        }
    }

    /// The new log is needed to complete a step, and is damaged or of another history: refused, and nothing is touched.
    fn needed_next(&mut self) {
        let (base, made) = (self.base(&["rename @0 417"]), self.base(&["rename @0 417", "delete @46"]));
        let mut state = base.clone();
        state.insert(FILE.into(), (0, made[FILE].1.clone()));
        state.insert(NEXT.into(), (7, made[LOG].1.clone()));
        for k in 0..made[LOG].1.data.len() {
            let next = &mut state.get_mut(NEXT).unwrap().1.data;
            next.clone_from(&made[LOG].1.data);
            next[k] ^= 1 << (k % 8);
            self.refused_as_changed(&renumber(&state), &format!("the new log, byte {k}"));
        }
        let other = self.base(&["rename @0 OTHER", "delete @46"]);
        state.insert(FILE.into(), (0, other[FILE].1.clone()));
        state.insert(NEXT.into(), (7, other[LOG].1.clone()));
        self.refused_as_changed(&renumber(&state), "the new log of another history");
    }

    fn refused_as_changed(&mut self, state: &State, what: &str) {
        self.build("work", state);
        let ran = self.plain("work", "history");
        self.count("damaged logs tried", 1);
        if !ran.refused(CHANGED) || self.state("work") != *state {
            self.fail(format!("{what}: {ran:?}"));
        }
    }
}
