//! An entry: a header of its layout's length, then name and data, unpadded. The reader is handed the region from the entry's first byte on.

use super::layout::{Authenticated, Layout};
use crate::interface::{Guid, Key};

pub const START_ID: [u8; 2] = [0xAA, 0x55];

/// Offsets of the fields that stand alike in every layout.
pub const STATE: usize = 2;
const ATTRIBUTES: usize = 4;

/// The six states.
pub const UNFINISHED: u8 = 0xFF;
pub const HEADER_VALID: u8 = 0x7F;
pub const ADDED: u8 = 0x3F;
pub const REPLACED: u8 = 0x3E;
pub const DELETED: u8 = 0x3D;
pub const GONE: u8 = 0x3C;

/// Attribute bits.
pub const RT: u32 = 0x04;
pub const ERROR_RECORD: u32 = 0x08;
pub const TIME_BASED: u32 = 0x20;
pub const APPEND: u32 = 0x40;

/// The attributes that a value can have; the last are a hardware error record's.
pub const STORABLE: [u32; 5] = [0x03, 0x07, 0x23, 0x27, 0x0F];

pub const MOST_DATA: usize = 2048;

/// A name is UTF-16, 1 to 63 characters and a zero character: 4 to 128 bytes, even, no earlier zero.
pub fn well_formed(name: &[u8]) -> bool {
    let Some((earlier, last)) = name.split_last_chunk::<2>() else { return false };
    (4..=128).contains(&name.len()) && name.len().is_multiple_of(2) && *last == [0, 0] && earlier.chunks_exact(2).all(|character| character != [0, 0])
}

/// The next multiple of 4.
pub fn rounded(size: usize) -> usize {
    (size + 3) & !3
}

pub fn u32_at(bytes: &[u8], at: usize) -> u32 {
    u32::from_le_bytes([bytes[at], bytes[at + 1], bytes[at + 2], bytes[at + 3]])
}

/// An entry that the walk has found at an offset of the region.
#[derive(Clone, Copy)]
pub struct Entry<'a, F: Layout = Authenticated> {
    pub at: usize,
    header: &'a F::Header,
    body: &'a [u8],
}

impl<'a, F: Layout> Entry<'a, F> {
    /// None where under a header's length remains or no start id is found. `bytes` are those from `at` on.
    pub fn read(at: usize, bytes: &'a [u8]) -> Option<Entry<'a, F>> {
        let (header, body) = F::split(bytes)?;
        (header.as_ref()[..2] == START_ID).then_some(Entry { at, header, body })
    }

    fn header(&self) -> &'a [u8] {
        self.header.as_ref()
    }

    pub fn state(&self) -> u8 {
        self.header()[STATE]
    }

    pub fn attributes(&self) -> u32 {
        u32_at(self.header(), ATTRIBUTES)
    }

    /// Zeros where the layout keeps none.
    pub fn stamp(&self) -> &'a [u8; 16] {
        match F::STAMP {
            Some(at) => self.header()[at..].first_chunk().expect("16 bytes of the header"),
            None => &[0; 16],
        }
    }

    pub fn vendor(&self) -> &'a Guid {
        self.header()[F::VENDOR..].first_chunk().expect("the header's last 16 bytes")
    }

    fn name_size(&self) -> usize {
        u32_at(self.header(), F::NAME_SIZE) as usize
    }

    pub fn data_size(&self) -> usize {
        u32_at(self.header(), F::DATA_SIZE) as usize
    }

    /// An entry whose header is unfinished counts as its header alone: its sizes are not to be trusted.
    fn body_size(&self) -> u64 {
        if self.state() == UNFINISHED {
            0
        } else {
            self.name_size() as u64 + self.data_size() as u64
        }
    }

    pub fn ends_within_region(&self) -> bool {
        self.body_size() <= self.body.len() as u64
    }

    /// The rounded size of an entry that ends within the region.
    pub fn size(&self) -> usize {
        rounded(F::HEADER + self.body_size() as usize)
    }

    /// Of an entry that ends within the region.
    pub fn name(&self) -> &'a [u8] {
        &self.body[..self.name_size()]
    }

    /// Of an entry that ends within the region.
    pub fn data(&self) -> &'a [u8] {
        &self.body[self.name_size()..][..self.data_size()]
    }

    pub fn key(&self) -> Key<'a> {
        Key { name: self.name(), vendor: self.vendor() }
    }

    /// What a value is carried with.
    pub fn contents(&self) -> Contents<'a> {
        Contents { attributes: self.attributes(), stamp: self.stamp(), old: self.data(), new: &[] }
    }

    /// For a well-formed name, by characters, which is quicker than by slices: names are short and differ early, more often than GUIDs. (Of an odd name the last
    /// byte would not be compared; a well-formed one is even.)
    pub fn is_for(&self, key: Key) -> bool {
        self.name_size() == key.name.len() && self.name().chunks_exact(2).eq(key.name.chunks_exact(2)) && self.vendor() == key.vendor
    }
}

/// What a value holds beside its name and GUID; an append's data stand behind the old data.
#[derive(Clone, Copy)]
pub struct Contents<'a> {
    pub attributes: u32,
    pub stamp: &'a [u8; 16],
    pub old: &'a [u8],
    pub new: &'a [u8],
}

impl Contents<'_> {
    pub fn data_size(&self) -> usize {
        self.old.len() + self.new.len()
    }

    /// The rounded size of the entry that holds this under a name.
    pub fn entry_size<F: Layout>(&self, key: Key) -> usize {
        rounded(F::HEADER + key.name.len() + self.data_size())
    }
}

/// An entry in state 3F with its padding, count and key index 0, behind what `bytes` holds. Where the layout keeps no stamp, none is written.
pub fn write<F: Layout>(bytes: &mut Vec<u8>, key: Key, contents: &Contents) {
    let at = bytes.len();
    bytes.resize(at + F::HEADER, 0);
    let header = &mut bytes[at..];
    header[..2].copy_from_slice(&START_ID);
    header[STATE] = ADDED;
    header[ATTRIBUTES..][..4].copy_from_slice(&contents.attributes.to_le_bytes());
    if let Some(place) = F::STAMP {
        header[place..][..16].copy_from_slice(contents.stamp);
    }
    header[F::NAME_SIZE..][..4].copy_from_slice(&(key.name.len() as u32).to_le_bytes());
    header[F::DATA_SIZE..][..4].copy_from_slice(&(contents.data_size() as u32).to_le_bytes());
    header[F::VENDOR..].copy_from_slice(key.vendor);
    bytes.extend_from_slice(key.name);
    bytes.extend_from_slice(contents.old);
    bytes.extend_from_slice(contents.new);
    bytes.resize(at + contents.entry_size::<F>(key), 0xFF);
}
