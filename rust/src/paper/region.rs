//! A region: header, entries, tail; *sound*, *clean*, and the values. All of it is said of any layout; only what a set or start-up does is of 01's alone.

use std::marker::PhantomData;

use super::entry::{well_formed, write, Contents, Entry, ADDED, DELETED, GONE, HEADER_VALID, MOST_DATA, REPLACED, STORABLE, UNFINISHED};
use super::image::blank;
use super::layout::{Authenticated, Layout};
use super::records::{is_record, record_name};
use crate::interface::Key;

pub const REGION_HEADER: usize = 28;

/// Signature, size = L, format 5A, state FE, six zero bytes.
pub fn header<F: Layout>(length: usize) -> [u8; REGION_HEADER] {
    let mut header = [0; REGION_HEADER];
    header[..16].copy_from_slice(&F::SIGNATURE);
    header[16..20].copy_from_slice(&(length as u32).to_le_bytes());
    header[20] = 0x5A;
    header[21] = 0xFE;
    header
}

/// The walk starts at 28 and stops where under an entry header's length remains or no start id is found; `at` is then where the tail begins.
pub struct Walk<'a, F: Layout> {
    region: &'a [u8],
    pub at: usize,
    layout: PhantomData<F>,
}

pub fn walk<F: Layout>(region: &[u8]) -> Walk<'_, F> {
    Walk { region, at: REGION_HEADER, layout: PhantomData }
}

impl<'a, F: Layout> Iterator for Walk<'a, F> {
    type Item = Entry<'a, F>;

    /// Nothing follows an entry that does not end within the region.
    fn next(&mut self) -> Option<Entry<'a, F>> {
        let entry: Entry<F> = Entry::read(self.at, &self.region[self.at..])?;
        self.at = if entry.ends_within_region() { self.at + entry.size() } else { self.region.len() };
        Some(entry)
    }
}

/// Where the tail begins, if the region is *sound*.
pub fn sound<F: Layout>(region: &[u8]) -> Option<usize> {
    if region[..REGION_HEADER] != header::<F>(region.len()) {
        return None;
    }
    let mut walk = walk::<F>(region);
    for entry in walk.by_ref() {
        if !entry.ends_within_region() || !allowed(&entry) || doubled(&region[..entry.at], &entry) {
            return None;
        }
    }
    Some(walk.at)
}

/// Where the tail begins, if the region is *clean*: sound, and the tail all FF.
pub fn clean<F: Layout>(region: &[u8]) -> Option<usize> {
    sound::<F>(region).filter(|&tail| blank(&region[tail..]))
}

/// The state is one of the six; a 3F or 3E entry has a well-formed name, data size 1 to 2,048 and attributes that can be stored under that name.
fn allowed<F: Layout>(entry: &Entry<F>) -> bool {
    match entry.state() {
        UNFINISHED | HEADER_VALID | DELETED | GONE => true,
        ADDED | REPLACED => storable(entry) && (1..=MOST_DATA).contains(&entry.data_size()) && well_formed(entry.name()),
        _ => false,
    }
}

/// 02 (a): 0x0F under a record's name only; other attributes under any name, a record's too.
fn storable<F: Layout>(entry: &Entry<F>) -> bool {
    let attributes = entry.attributes();
    STORABLE.contains(&attributes) && (!is_record(attributes) || record_name(entry.key()))
}

/// Whether a 3F or 3E entry has the state, name and GUID of one before it.
fn doubled<F: Layout>(before: &[u8], entry: &Entry<F>) -> bool {
    let state = entry.state();
    if state != ADDED && state != REPLACED {
        return false;
    }
    let key = entry.key();
    walk::<F>(before).any(|earlier| earlier.state() == state && earlier.is_for(key))
}

/// What a sound region has under a name: at most one 3F and one 3E entry.
#[derive(Clone, Copy, Default)]
pub struct Standing<'a> {
    pub added: Option<Entry<'a>>,
    pub replaced: Option<Entry<'a>>,
}

impl<'a> Standing<'a> {
    /// A name's value is its 3F entry, else its 3E entry.
    pub fn value(&self) -> Option<Entry<'a>> {
        self.added.or(self.replaced)
    }

    /// A 3E entry beside a 3F.
    pub fn leftover(&self) -> Option<Entry<'a>> {
        self.added.and(self.replaced)
    }
}

pub fn find<'a>(region: &'a [u8], key: Key) -> Standing<'a> {
    let mut standing = Standing::default();
    for entry in walk(region) {
        match entry.state() {
            ADDED if entry.is_for(key) => standing.added = Some(entry),
            REPLACED if entry.is_for(key) => standing.replaced = Some(entry),
            _ => {}
        }
    }
    standing
}

/// The list of values of a sound region, in flash order.
pub fn values<F: Layout>(region: &[u8]) -> impl Iterator<Item = Entry<'_, F>> {
    walk::<F>(region).filter(|entry| match entry.state() {
        ADDED => true,
        REPLACED => !walk::<F>(region).any(|other| other.state() == ADDED && other.is_for(entry.key())),
        _ => false,
    })
}

/// A region of values as 3F entries in flash order, rest FF. There is room for the bytes of marks after it.
pub fn compacted(region: &[u8]) -> Vec<u8> {
    let mut bytes = Vec::with_capacity(region.len() + 8);
    write_values::<_, Authenticated>(&mut bytes, region.len(), values::<Authenticated>(region));
    bytes.resize(region.len(), 0xFF);
    bytes
}

/// The header of a region of so many bytes and its values as they stand after a change: as 3F entries in flash order, the changed one last. The old value under the
/// changed name is left out. There is room for the rest of the region and for the bytes of marks after it; the values may take more.
pub fn changed(region: &[u8], length: usize, key: Key, put: Option<&Contents>) -> Vec<u8> {
    let mut bytes = Vec::with_capacity(length + 8);
    write_values::<_, Authenticated>(&mut bytes, length, values::<Authenticated>(region).filter(|value| !value.is_for(key)));
    if let Some(contents) = put {
        write::<Authenticated>(&mut bytes, key, contents);
    }
    bytes
}

/// A region's header and values as 3F entries, in the order given, which may come from a region of another layout.
pub fn write_values<'a, F: Layout, T: Layout>(bytes: &mut Vec<u8>, length: usize, values: impl Iterator<Item = Entry<'a, F>>) {
    bytes.extend_from_slice(&header::<T>(length));
    for value in values {
        write::<T>(bytes, value.key(), &value.contents());
    }
}
