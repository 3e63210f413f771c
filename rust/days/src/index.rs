//! A day as lists of labels, and its bytes.

use std::collections::BTreeMap;

/// A record's start and end.
pub type Label = (u32, u32);

/// Whether a label lies inside another.
pub fn is_inside(label: Label, outer: Label) -> bool {
    outer.0 < label.0 && label.1 < outer.1
}

/// The records of a day: for each tag its labels. Nothing here forbids a day that is not lawful.
#[derive(Clone, Debug, Default, PartialEq, Eq)]
pub struct Day {
    pub lists: BTreeMap<Vec<u8>, Vec<Label>>,
}

impl Day {
    pub fn new() -> Day {
        Day::default()
    }

    /// One record more, at the end of its tag's list.
    pub fn push(&mut self, tag: &str, label: Label) {
        match self.lists.get_mut(tag.as_bytes()) {
            Some(list) => list.push(label),
            None => {
                self.lists.insert(tag.as_bytes().to_vec(), vec![label]);
            }
        }
    }

    /// The number of records.
    pub fn records(&self) -> usize {
        self.lists.values().map(Vec::len).sum()
    }

    /// How many entries a list of times needs for each start and end to have one: one more than the greatest number.
    pub fn entries_needed(&self) -> usize {
        self.lists.values().flatten().map(|label| label.0.max(label.1) as usize + 1).max().unwrap_or(0)
    }

    /// The same records under other names: the first tag has the first of the names, and so on. The names have to differ, and to be as many
    /// as the tags.
    pub fn renamed(self, names: &[&str]) -> Day {
        assert_eq!(names.len(), self.lists.len());
        Day { lists: names.iter().map(|name| name.as_bytes().to_vec()).zip(self.lists.into_values()).collect() }
    }

    /// Each list in order of start, as an index has it.
    pub fn sort(&mut self) {
        for list in self.lists.values_mut() {
            list.sort();
        }
    }

    /// The day index: the table of contents, then the bodies in its order.
    pub fn to_bytes(&self) -> Vec<u8> {
        let mut bytes = Vec::with_capacity(4 + 24 * self.lists.len() + 8 * self.records());
        bytes.extend((self.lists.len() as u16).to_le_bytes());
        bytes.extend(1u16.to_le_bytes());
        let mut offset = 4 + 24 * self.lists.len() as u32;
        for (name, list) in &self.lists {
            let mut field = [0u8; 16];
            field[..name.len()].copy_from_slice(name);
            bytes.extend(field);
            bytes.extend(offset.to_le_bytes());
            bytes.extend((list.len() as u32).to_le_bytes());
            offset += 8 * list.len() as u32;
        }
        for (start, end) in self.lists.values().flatten() {
            bytes.extend(start.to_le_bytes());
            bytes.extend(end.to_le_bytes());
        }
        bytes
    }
}
