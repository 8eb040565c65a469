//! The whole-pool check as a walk from the root, left to right.

use super::header::{admit_commit, admit_header, admit_pool, Header, WORD_CAPACITY};
use super::node::{read, Cover, WHOLE};
use super::refusal::SHORT_MARKS;

/// The fewest entries of an inner node that is not the root.
pub const INNER_LEAST: u64 = 3;

#[derive(Clone, Copy, Debug, PartialEq, Eq)]
pub enum Checked {
    Sound { nodes: u64, records: u64 },
    Fault { node: u64 },
}

struct Walk<'a> {
    pool: &'a [u64],
    header: Header,
    marks: &'a mut [u8],
    nodes: u64,
    records: u64,
    earlier_leaf: Option<u64>,
}

/// The number at fault.
type Faulted = u64;

/// Check: refusals 2, 3, 11 and the header part of 4, in this order, then the walk.
pub fn check(pool: &[u64], marks: &mut [u8]) -> Result<Checked, u64> {
    admit_pool(pool)?;
    admit_commit(pool)?;
    let capacity = pool[WORD_CAPACITY];
    if (marks.len() as u64) < capacity {
        return Err(SHORT_MARKS);
    }
    let header = admit_header(pool)?;
    marks[..capacity as usize].fill(0);
    let mut walk = Walk {
        pool,
        header,
        marks,
        nodes: 0,
        records: 0,
        earlier_leaf: None,
    };
    match walk.whole() {
        Ok(()) => Ok(Checked::Sound {
            nodes: walk.nodes,
            records: walk.records,
        }),
        Err(node) => Ok(Checked::Fault { node }),
    }
}

impl Walk<'_> {
    fn whole(&mut self) -> Result<(), Faulted> {
        self.visit(self.header.root, 0, 1, WHOLE)?;
        let last = self.earlier_leaf.expect("the walk ends in a leaf");
        if read(self.pool, last).link != 0 {
            return Err(last);
        }
        if self.nodes != self.header.used {
            return Err(0);
        }
        Ok(())
    }

    fn visit(&mut self, number: u64, parent: u64, depth: u64, cover: Cover) -> Result<(), Faulted> {
        if number < 1 || number > self.header.used || self.marks[number as usize - 1] == 1 {
            return Err(parent);
        }
        self.marks[number as usize - 1] = 1;
        self.nodes += 1;
        let node = read(self.pool, number);
        let inner = depth < self.header.height;
        if !node.is_sound(inner) || !node.is_within(cover) || (inner && depth > 1 && node.count < INNER_LEAST) {
            return Err(number);
        }
        if !inner {
            return self.reach_leaf(number, node.count);
        }
        for place in 0..=node.count as usize {
            let (child, cover) = node.child(place, cover);
            self.visit(child, number, depth + 1, cover)?;
        }
        Ok(())
    }

    fn reach_leaf(&mut self, number: u64, records: u64) -> Result<(), Faulted> {
        if let Some(earlier) = self.earlier_leaf {
            if read(self.pool, earlier).link != number {
                return Err(earlier);
            }
        }
        self.earlier_leaf = Some(number);
        self.records += records;
        Ok(())
    }
}
