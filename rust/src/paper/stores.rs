//! Lists of stores, and what a set or start-up stores, in the paper's order.

use std::ops::Range;

use super::entry::{self, Contents, ADDED, GONE, HEADER_VALID, REPLACED, STATE, UNFINISHED};
use super::image::{Parts, BLOCK};
use super::layout::{Authenticated, Layout};
use super::region::{self, compacted, Standing};
use super::work::{BEGUN, DESTINATION_COMPLETE, RECORDS, SPARE_COMPLETE};
use crate::interface::Key;

/// The length of an entry's header in the form that a set stores.
const HEADER: usize = Authenticated::HEADER;

/// The bytes of one store, 1 to 16 of them.
#[derive(Clone, Copy, PartialEq, Eq)]
pub struct Page {
    len: u8,
    bytes: [u8; 16],
}

impl Page {
    pub fn of(values: &[u8]) -> Page {
        let mut bytes = [0; 16];
        bytes[..values.len()].copy_from_slice(values);
        Page { len: values.len() as u8, bytes }
    }

    pub fn bytes(&self) -> &[u8] {
        &self.bytes[..self.len as usize]
    }
}

impl std::fmt::Debug for Page {
    fn fmt(&self, f: &mut std::fmt::Formatter<'_>) -> std::fmt::Result {
        write!(f, "{:02X?}", self.bytes())
    }
}

/// A store programs bytes within one page (it may only clear bits), or erases one block (every byte becomes FF).
#[derive(Clone, Copy, PartialEq, Eq, Debug)]
pub enum Store {
    Program(usize, Page),
    Erase(usize),
}

impl Store {
    /// A byte store.
    pub fn byte(at: usize, v: u8) -> Store {
        let mut bytes = [0; 16];
        bytes[0] = v;
        Store::Program(at, Page { len: 1, bytes })
    }

    pub fn make(self, image: &mut [u8]) {
        match self {
            Store::Program(at, page) => clear(&mut image[at..], page.bytes()),
            Store::Erase(block) => image[block * BLOCK..][..BLOCK].fill(0xFF),
        }
    }

    /// 02 (i): "A dead byte with a bit to fall fails its whole store". Erases never fail.
    pub fn fails(self, dead: &[u32], image: &[u8]) -> bool {
        match self {
            Store::Program(at, page) => first_to_fail(dead, at, page.bytes(), image).is_some(),
            Store::Erase(_) => false,
        }
    }
}

/// Bits that the values lack are cleared in the front of the bytes.
fn clear(bytes: &mut [u8], values: &[u8]) {
    bytes.iter_mut().zip(values).for_each(|(byte, v)| *byte &= v);
}

/// The place of the first of these values that is to be stored at a dead address whose byte has a bit that would have to fall.
fn first_to_fail(dead: &[u32], at: usize, values: &[u8], image: &[u8]) -> Option<usize> {
    let places = dead.iter().filter_map(|&address| (address as usize).checked_sub(at));
    places.filter(|&k| values.get(k).is_some_and(|v| image[at + k] & !v != 0)).min()
}

/// Stores that follow each other: bytes of the list's own at rising offsets, cut at page ends, or erases of rising blocks.
#[derive(Clone)]
enum Piece {
    Bytes(usize, Range<usize>),
    Erases(Range<usize>),
}

impl Piece {
    /// The number of its stores.
    fn len(&self, w: usize) -> usize {
        match self {
            Piece::Bytes(at, bytes) => (at + bytes.len()).div_ceil(w) - at / w,
            Piece::Erases(blocks) => blocks.len(),
        }
    }
}

/// How many of the bytes from an offset on are in the first so many stores: up to the end of their last page, or all.
fn bytes_in(count: usize, at: usize, length: usize, w: usize) -> usize {
    match count {
        0 => 0,
        _ => ((at / w + count) * w - at).min(length),
    }
}

/// What has come of a list: how many of its stores are made, and whether the next one failed.
#[derive(Clone, Copy, PartialEq, Eq, Debug)]
pub struct Made {
    pub stores: usize,
    pub failed: bool,
}

/// A call's list of stores, each within one page of w bytes. Its bytes are composed before the first store is made.
#[derive(Clone)]
pub struct Stores {
    w: usize,
    bytes: Vec<u8>,
    pieces: Vec<Piece>,
    deciding: Option<usize>,
}

impl Stores {
    /// An empty list.
    pub fn new(w: usize) -> Stores {
        Stores { w, bytes: vec![], pieces: vec![], deciding: None }
    }

    /// A list whose bytes are composed; it has some ten pieces at most.
    fn of(w: usize, bytes: Vec<u8>) -> Stores {
        Stores { w, bytes, pieces: Vec::with_capacity(10), deciding: None }
    }

    pub fn len(&self) -> usize {
        self.pieces.iter().map(|piece| piece.len(self.w)).sum()
    }

    pub fn is_empty(&self) -> bool {
        self.len() == 0
    }

    /// The index of the deciding store; a format and a start-up have none.
    pub fn deciding(&self) -> Option<usize> {
        self.deciding
    }

    pub fn iter(&self) -> impl Iterator<Item = Store> + '_ {
        self.pieces.iter().flat_map(|piece| (0..piece.len(self.w)).map(|k| self.store_of(piece, k)))
    }

    /// The store of an index.
    pub fn get(&self, mut index: usize) -> Option<Store> {
        for piece in &self.pieces {
            let count = piece.len(self.w);
            if index < count {
                return Some(self.store_of(piece, index));
            }
            index -= count;
        }
        None
    }

    /// The blocks that its first so many stores erase, in their order.
    pub fn erased(&self, mut first: usize) -> impl Iterator<Item = usize> + '_ {
        self.pieces.iter().flat_map(move |piece| {
            let count = piece.len(self.w).min(first);
            first -= count;
            match piece {
                Piece::Bytes(..) => 0..0,
                Piece::Erases(blocks) => blocks.start..blocks.start + count,
            }
        })
    }

    fn store_of(&self, piece: &Piece, k: usize) -> Store {
        match piece {
            // the most frequent width, without the work of cutting
            Piece::Bytes(at, bytes) if self.w == 1 => Store::byte(at + k, self.bytes[bytes.start + k]),
            Piece::Bytes(at, bytes) => {
                let [begin, end] = [k, k + 1].map(|count| bytes_in(count, *at, bytes.len(), self.w));
                Store::Program(at + begin, Page::of(&self.bytes[bytes.clone()][begin..end]))
            }
            Piece::Erases(blocks) => Store::Erase(blocks.start + k),
        }
    }

    /// Makes the first n stores.
    pub fn make(&self, n: u64, image: &mut [u8]) {
        self.make_worn(n, &[], image);
    }

    /// 02 (h): makes the first n stores, or those before the first one that fails, which changes nothing.
    pub fn make_worn(&self, n: u64, dead: &[u32], image: &mut [u8]) -> Made {
        let n = usize::try_from(n).unwrap_or(usize::MAX);
        let mut made = Made { stores: 0, failed: false };
        for piece in &self.pieces {
            let wanted = piece.len(self.w).min(n - made.stores);
            let count = self.first_failing(piece, dead, image).map_or(wanted, |failing| failing.min(wanted));
            self.make_front(piece, count, image);
            made.stores += count;
            if count < wanted {
                made.failed = true;
                break;
            }
        }
        made
    }

    /// The index of a piece's first store that fails. A piece stores no byte twice, so that each is found as it was before the piece.
    fn first_failing(&self, piece: &Piece, dead: &[u32], image: &[u8]) -> Option<usize> {
        match piece {
            Piece::Bytes(at, bytes) => first_to_fail(dead, *at, &self.bytes[bytes.clone()], image).map(|k| (at + k) / self.w - at / self.w),
            Piece::Erases(_) => None,
        }
    }

    /// Makes the first stores of a piece.
    fn make_front(&self, piece: &Piece, count: usize, image: &mut [u8]) {
        match piece {
            Piece::Bytes(at, bytes) => {
                let length = bytes_in(count, *at, bytes.len(), self.w);
                clear(&mut image[*at..], &self.bytes[bytes.start..][..length]);
            }
            Piece::Erases(blocks) => image[blocks.start * BLOCK..][..count * BLOCK].fill(0xFF),
        }
    }

    fn mark(&mut self, at: usize, v: u8) {
        self.bytes.push(v);
        self.run(at, self.bytes.len() - 1..self.bytes.len());
    }

    fn run(&mut self, at: usize, bytes: Range<usize>) {
        self.pieces.push(Piece::Bytes(at, bytes));
    }

    /// The header of the entry that the list's own bytes begin with. 02 (i): "in the tail an entry's header has FF in the place of its state, and no store is made for
    /// that FF alone". Entries begin at multiples of 4, so that it would stand alone where a page is one byte, and nowhere else.
    fn tail_header(&mut self, at: usize) {
        if self.w == 1 {
            self.run(at, 0..STATE);
            self.run(at + STATE + 1, STATE + 1..HEADER);
        } else {
            self.bytes[STATE] = UNFINISHED;
            self.run(at, 0..HEADER);
        }
    }

    fn erase(&mut self, blocks: Range<usize>) {
        self.pieces.push(Piece::Erases(blocks));
    }

    /// The last store so far is the deciding one.
    fn decide(&mut self) {
        self.deciding = Some(self.len() - 1);
    }
}

fn work_block(parts: &Parts) -> Range<usize> {
    parts.blocks..parts.blocks + 1
}

fn spare_blocks(parts: &Parts) -> Range<usize> {
    parts.blocks + 1..2 * parts.blocks + 1
}

/// All blocks in rising order, then the 28 header bytes in rising order.
pub fn formatting(w: usize, parts: &Parts) -> Stores {
    let mut stores = Stores::of(w, region::header::<Authenticated>(parts.length()).to_vec());
    stores.erase(0..2 * parts.blocks + 1);
    stores.run(0, 0..stores.bytes.len());
    stores
}

/// In the tail: a leftover 3E beside a 3F becomes 3C; the 3F becomes 3E; header bytes in rising order without state; state 7F; name; data;
/// state 3F (deciding); the old entry 3C.
pub fn in_tail(w: usize, standing: &Standing, tail: usize, key: Key, contents: &Contents) -> Stores {
    let mut stores = Stores::of(w, Vec::with_capacity(contents.entry_size::<Authenticated>(key) + 8));
    entry::write::<Authenticated>(&mut stores.bytes, key, contents);
    if let Some(leftover) = standing.leftover() {
        stores.mark(leftover.at + STATE, GONE);
    }
    if let Some(added) = standing.added {
        stores.mark(added.at + STATE, REPLACED);
    }
    stores.tail_header(tail);
    stores.mark(tail + STATE, HEADER_VALID);
    let (name, data) = (HEADER, HEADER + key.name.len());
    stores.run(tail + name, name..data);
    stores.run(tail + data, data..data + contents.data_size());
    stores.mark(tail + STATE, ADDED);
    stores.decide();
    if let Some(old) = standing.value() {
        stores.mark(old.at + STATE, GONE);
    }
    stores
}

/// Delete: leftover first, then bit 0x02 of the state cleared (deciding).
pub fn deletion(w: usize, standing: &Standing) -> Stores {
    let mut stores = Stores::new(w);
    if let Some(leftover) = standing.leftover() {
        stores.mark(leftover.at + STATE, GONE);
    }
    if let Some(value) = standing.value() {
        stores.mark(value.at + STATE, value.state() & !0x02);
        stores.decide();
    }
    stores
}

/// The region is compacted with a change folded in, or with those of a profile: erase the work block if 64 records are used; next record FE; the new region stored into
/// the spare in whole pages; record FC (deciding); then as when resumed.
pub fn compaction(w: usize, parts: &Parts, used: usize, region: Vec<u8>) -> Stores {
    let mut stores = Stores::of(w, region);
    compact(&mut stores, parts, used, true);
    stores
}

/// The list's own bytes begin with the new region.
fn compact(stores: &mut Stores, parts: &Parts, used: usize, decides: bool) {
    let record = if used == RECORDS {
        stores.erase(work_block(parts));
        0
    } else {
        used
    };
    stores.mark(parts.length() + record, BEGUN);
    stores.run(parts.spare_at(), 0..parts.length());
    stores.mark(parts.length() + record, SPARE_COMPLETE);
    if decides {
        stores.decide();
    }
    finish(stores, parts, record);
}

/// Erase the region's blocks; copy the spare in whole pages, whose bytes the list's own begin with; record F8; erase the spare's blocks.
fn finish(stores: &mut Stores, parts: &Parts, record: usize) {
    stores.erase(0..parts.blocks);
    stores.run(0, 0..parts.length());
    stores.mark(parts.length() + record, DESTINATION_COMPLETE);
    stores.erase(spare_blocks(parts));
}

/// If pending, a start-up resumes at the erase of the region.
pub fn resumption(w: usize, parts: &Parts, record: usize) -> Stores {
    let mut stores = Stores::of(w, parts.spare.to_vec());
    finish(&mut stores, parts, record);
    stores
}

/// What a start-up finds wanting where nothing is pending.
pub struct Wanting {
    pub erase_spare: bool,
    pub erase_work: bool,
    pub compact: bool,
}

/// Erase the spare's blocks, the work block, and compact with no change. `used` records stand by then.
pub fn clearing(w: usize, parts: &Parts, used: usize, wanting: Wanting) -> Stores {
    let mut stores = Stores::new(w);
    if wanting.erase_spare {
        stores.erase(spare_blocks(parts));
    }
    if wanting.erase_work {
        stores.erase(work_block(parts));
    }
    if wanting.compact {
        stores.bytes = compacted(parts.region);
        compact(&mut stores, parts, used, false);
    }
    stores
}
