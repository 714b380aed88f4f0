//! A task file as a draft, each of whose fields can be made wrong before its bytes are written.

use crate::draw::{good, Size};
use crate::random::Random;
use crate::reference::file::sum;
use crate::reference::put::body_of;

/// An entry; a field that is None is written as it must be.
#[derive(Clone, Debug)]
pub struct Entry {
    pub kind: u16,
    pub number: u16,
    pub start: Option<u16>,
    pub length: Option<u16>,
    pub sum: Option<u32>,
    pub body: Vec<u8>,
}

#[derive(Clone, Debug)]
pub struct Draft {
    pub n: Option<u16>,
    pub form: u16,
    pub entries: Vec<Entry>,
    pub tail: Vec<u8>,
}

impl Entry {
    pub fn new(kind: u16, number: u16, body: Vec<u8>) -> Entry {
        Entry { kind, number, start: None, length: None, sum: None, body }
    }
}

impl Draft {
    pub fn new(entries: Vec<Entry>) -> Draft {
        Draft { n: None, form: 1, entries, tail: vec![] }
    }

    pub fn bytes(&self) -> Vec<u8> {
        let mut file = vec![];
        file.extend(self.n.unwrap_or(self.entries.len() as u16).to_le_bytes());
        file.extend(self.form.to_le_bytes());
        let mut start = 4 + 12 * self.entries.len();
        for entry in &self.entries {
            file.extend(entry.kind.to_le_bytes());
            file.extend(entry.number.to_le_bytes());
            file.extend(entry.start.unwrap_or(start as u16).to_le_bytes());
            file.extend(entry.length.unwrap_or(entry.body.len() as u16).to_le_bytes());
            file.extend(entry.sum.unwrap_or_else(|| sum(&entry.body)).to_le_bytes());
            start += entry.body.len();
        }
        for entry in &self.entries {
            file.extend(&entry.body);
        }
        file.extend(&self.tail);
        file
    }
}

/// A table's entry or a note's.
fn entry(random: &mut Random, number: u16) -> Entry {
    if random.once_in(3) {
        let length = if random.once_in(3) { 0 } else { random.below(12) };
        let kind = random.pick(&[128, 129, 200, 254, 255]);
        return Entry::new(kind, number, random.bytes(length));
    }
    Entry::new(1, number, body_of(&good(random, Size::Small)))
}

/// A good file of n entries with different numbers.
pub fn good_draft(random: &mut Random, n: usize) -> Draft {
    let mut numbers: Vec<u16> = vec![];
    while numbers.len() < n {
        let any = random.next() as u16;
        let number = random.pick(&[0, 1, 7, 255, 256, 65_535, any % 300, any]);
        if !numbers.contains(&number) {
            numbers.push(number);
        }
    }
    Draft::new(numbers.into_iter().map(|number| entry(random, number)).collect())
}
