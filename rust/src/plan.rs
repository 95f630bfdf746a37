//! What a planning call tells, and the stores that it stands for: what a host in front of a flash part works with.

use crate::paper::{Page, Store};

/// Room in which a call composes what is to be stored: a region of seven blocks.
pub type Content = [u8; 28672];

/// Operations of a plan, those that are nothing among them.
pub const OPERATIONS: usize = 12;

/// An entry's header, and its state, which a header's operation leaves out.
const HEADER: usize = 60;
const STATE: usize = 2;

/// Offsets `at` are the image's, `from` the content's.
#[derive(Clone, Copy, PartialEq, Eq, Debug)]
pub enum Operation {
    Nothing,
    Mark { at: usize, value: u8 },
    Erase { first: usize, count: usize },
    Program { at: usize, from: usize, len: usize },
    Header { at: usize, from: usize },
}

impl Operation {
    /// How many stores of w bytes it stands for. A header's state is left as it is: on a part that programs pages its place has FF, and no byte of it is stored alone.
    pub fn stores(self, w: usize) -> usize {
        match self {
            Operation::Nothing => 0,
            Operation::Mark { .. } => 1,
            Operation::Erase { count, .. } => count,
            Operation::Program { at, len, .. } => pages(at, len, w),
            Operation::Header { .. } if w == 1 => HEADER - 1,
            Operation::Header { at, .. } => pages(at, HEADER, w),
        }
    }

    /// Its store of an index, which is below their number.
    pub fn store(self, w: usize, index: usize, content: &Content) -> Store {
        match self {
            Operation::Nothing => panic!("no store"),
            Operation::Mark { at, value } => Store::byte(at, value),
            Operation::Erase { first, .. } => Store::Erase(first + index),
            Operation::Program { at, from, len } => page(at, &content[from..][..len], w, index),
            Operation::Header { at, from } if w == 1 => {
                let place = if index < STATE { index } else { index + 1 };
                Store::byte(at + place, content[from + place])
            }
            Operation::Header { at, from } => {
                let mut header: [u8; HEADER] = *content[from..].first_chunk().expect("a header in the content");
                header[STATE] = 0xFF;
                page(at, &header, w, index)
            }
        }
    }
}

/// How many pages of w bytes have some of these bytes.
fn pages(at: usize, len: usize, w: usize) -> usize {
    match len {
        0 => 0,
        _ => (at + len - 1) / w - at / w + 1,
    }
}

/// What the page of an index has of these bytes.
fn page(at: usize, bytes: &[u8], w: usize, index: usize) -> Store {
    // the most frequent width, without the work of cutting
    if w == 1 {
        return Store::byte(at + index, bytes[index]);
    }
    let begins = (at / w + index) * w;
    let (first, end) = (begins.max(at), (begins + w).min(at + bytes.len()));
    Store::Program(first, Page::of(&bytes[first - at..end - at]))
}

/// An accepted call's operations in their order, and the number of the one that decides. They do not depend on dead bytes or on w, which are the part's.
#[derive(Clone, Copy, PartialEq, Eq, Debug)]
pub struct Plan {
    pub deciding: Option<usize>,
    pub operations: [Operation; OPERATIONS],
}

impl Plan {
    /// The stores in their order, on a part that programs w bytes at a time.
    pub fn stores<'a>(&'a self, w: usize, content: &'a Content) -> impl Iterator<Item = Store> + 'a {
        self.operations.iter().flat_map(move |operation| (0..operation.stores(w)).map(move |index| operation.store(w, index, content)))
    }

    /// How many there are.
    pub fn count(&self, w: usize) -> usize {
        self.operations.iter().map(|operation| operation.stores(w)).sum()
    }

    /// The index of the store that decides: the operation is a mark, one store.
    pub fn deciding_store(&self, w: usize) -> Option<usize> {
        let before = &self.operations[..self.deciding?];
        Some(before.iter().map(|operation| operation.stores(w)).sum())
    }
}
