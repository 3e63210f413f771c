//! Refusal 6: all lists together, in order of start, with a stack of the records that are still open.

use crate::label::{Label, List};

const MOST_NESTED: usize = 64;

/// One past all keys: the key of a list that is done.
const PAST: u64 = 1 << 40;

/// The key of what is left of list number `tag`: its next start, and then the list's number, which has 8 bits.
fn key(left: List, tag: usize) -> u64 {
    left.first().map_or(PAST, |next| u64::from(Label::read(next).start) << 8 | tag as u64)
}

/// The tournament of the lists' keys: entry r of the second half has the key of list r, and node i the lesser of nodes 2i and 2i + 1.
struct Tournament {
    nodes: Vec<u64>,
}

impl Tournament {
    fn new(lists: &[List]) -> Tournament {
        let mut nodes = vec![PAST; lists.len()];
        nodes.extend(lists.iter().enumerate().map(|(tag, list)| key(list, tag)));
        for i in (1..lists.len()).rev() {
            nodes[i] = nodes[2 * i].min(nodes[2 * i + 1]);
        }
        Tournament { nodes }
    }

    /// The least key; `PAST` where there is no list.
    fn least(&self) -> u64 {
        self.nodes.get(1).copied().unwrap_or(PAST)
    }

    /// List number `tag` has moved on to `key`: the nodes above it are played again. Gives the least key then.
    fn put(&mut self, tag: usize, key: u64) -> u64 {
        let mut i = self.nodes.len() / 2 + tag;
        let mut best = key;
        self.nodes[i] = best;
        while i > 1 {
            best = best.min(self.nodes[i ^ 1]);
            i /= 2;
            self.nodes[i] = best;
        }
        best
    }
}

/// Whether two labels of the lists share a number or cross, or 65 are nested.
pub fn wrong(mut lists: Vec<List>) -> bool {
    let mut tournament = Tournament::new(&lists);
    let mut open: Vec<Label> = Vec::with_capacity(MOST_NESTED);
    let mut least = tournament.least();
    while least < PAST {
        let tag = (least & 0xff) as usize;
        let (next, left) = lists[tag].split_first().expect("a list without labels has no key");
        let label = Label::read(next);
        while open.pop_if(|inner| inner.end < label.start).is_some() {}
        if let Some(inner) = open.last() {
            if inner.start == label.start || inner.end <= label.end || open.len() == MOST_NESTED {
                return true;
            }
        }
        open.push(label);
        lists[tag] = left;
        least = tournament.put(tag, key(left, tag));
    }
    false
}
