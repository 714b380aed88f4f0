//! Every refusal of a file at every bound, alone and two at once in either order.

use super::files::everything;
use crate::draft::{Draft, Entry};
use crate::run::{Outcome, Run};

/// A change of one field of a draft.
#[derive(Clone, Copy, Debug)]
enum Fault {
    None,
    N(u16),
    Form(u16),
    Kind(usize, u16),
    Number(usize, u16),
    /// The start or the length, so much more than it must be.
    Start(usize, u16),
    Length(usize, u16),
    Sum(usize, u32),
    /// A byte of a body, with the sum as it must be.
    Body(usize, usize, u8),
    /// The body cut to so many bytes, or lengthened to them with zeros.
    BodyLength(usize, usize),
    Tail(usize),
}

impl Fault {
    fn apply(self, draft: &mut Draft) {
        match self {
            Fault::None => {}
            Fault::N(n) => draft.n = Some(n),
            Fault::Form(form) => draft.form = form,
            Fault::Kind(i, kind) => draft.entries[i].kind = kind,
            Fault::Number(i, number) => draft.entries[i].number = number,
            Fault::Start(i, more) => {
                let before: usize = draft.entries[..i].iter().map(|entry| entry.body.len()).sum();
                let start = 4 + 12 * draft.entries.len() + before;
                draft.entries[i].start = Some((start as u16).wrapping_add(more));
            }
            Fault::Length(i, more) => {
                let length = draft.entries[i].body.len() as u16;
                draft.entries[i].length = Some(length.wrapping_add(more));
            }
            Fault::Sum(i, change) => {
                let sum = crate::reference::file::sum(&draft.entries[i].body);
                draft.entries[i].sum = Some(sum ^ change);
            }
            Fault::Body(i, at, byte) => {
                if at < draft.entries[i].body.len() {
                    draft.entries[i].body[at] = byte;
                }
            }
            Fault::BodyLength(i, length) => draft.entries[i].body.resize(length, 0),
            Fault::Tail(length) => draft.tail = vec![0; length],
        }
    }
}

/// Two tables with a note between them, and an empty note at the end.
fn base() -> Draft {
    let first = [2, 1, 3, 0, 2, 0, 1, 0, 1, 0, 3, 0, 2, 0, 2, 0, 4, 0, 2, 0, 3, 0];
    let second = [1, 2, 1, 0, 4, 0, 1, 0, 3, 0];
    Draft::new(vec![
        Entry::new(1, 7, first.to_vec()),
        Entry::new(200, 0, vec![9, 8, 7]),
        Entry::new(1, 300, second.to_vec()),
        Entry::new(255, 65_535, vec![]),
    ])
}

fn faults() -> Vec<Fault> {
    let mut list = vec![Fault::None, Fault::Tail(1), Fault::Tail(12), Fault::Tail(65_535)];
    list.extend([0, 1, 3, 5, 64, 65, 256, 260].map(Fault::N));
    list.extend([0, 2, 256, 257].map(Fault::Form));
    for i in 0..4 {
        list.extend([0, 1, 2, 127, 128, 255, 256, 257, 384].map(|kind| Fault::Kind(i, kind)));
        list.extend([0, 7, 300].map(|number| Fault::Number(i, number)));
        list.extend([1, 65_535, 256].map(|more| Fault::Start(i, more)));
        list.extend([1, 65_535, 65_500].map(|more| Fault::Length(i, more)));
        list.extend([1, 0x100, 0x1_0000, 0x8000_0000].map(|change| Fault::Sum(i, change)));
    }
    for i in [0, 2] {
        // m, x, count, the zero byte; then T, D and C of the first row.
        list.extend([0, 17].map(|m| Fault::Body(i, 0, m)));
        list.extend([0, 9].map(|x| Fault::Body(i, 1, x)));
        list.extend([0, 2, 33].map(|count| Fault::Body(i, 2, count)));
        list.push(Fault::Body(i, 3, 1));
        list.extend([(4, 0), (5, 16), (8, 0), (8, 9), (6, 0), (6, 4)].map(|(at, byte)| Fault::Body(i, at, byte)));
        list.extend([0, 3, 4, 5, 10, 16, 28].map(|length| Fault::BodyLength(i, length)));
    }
    // A frame over 4,096 by the last row of the first table: T 4,095.
    list.extend([Fault::Body(0, 16, 255), Fault::Body(0, 17, 15)]);
    list
}

pub fn pairs(run: &mut Run) -> Outcome {
    let faults = faults();
    for first in &faults {
        for second in &faults {
            let mut draft = base();
            first.apply(&mut draft);
            second.apply(&mut draft);
            everything(run, &draft.bytes())?;
        }
    }
    Ok(())
}
