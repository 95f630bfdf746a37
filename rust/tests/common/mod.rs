//! What the tests share. Not every test uses all of it.
#![allow(dead_code)]

pub mod book;
pub mod cases;
pub mod cuts;
pub mod digest;
pub mod failing;
pub mod generate;
pub mod modes;
pub mod profiles;
pub mod programs;
pub mod random;
pub mod rounds;
pub mod settings;
pub mod station;
pub mod stored;
pub mod tenants;
pub mod wear;

use varstore::interface::{Guid, Key};

/// The paper's variable and data, other names, other data.
pub const VENDOR: Guid = [1, 2, 3, 4, 5, 6, 7, 8, 9, 10, 11, 12, 13, 14, 15, 16];
pub const RATE: Key = Key { name: b"R\0A\0T\0E\0\0\0", vendor: &VENDOR };
pub const A: Key = Key { name: b"A\0\0\0", vendor: &VENDOR };
pub const B: Key = Key { name: b"B\0\0\0", vendor: &VENDOR };
/// 02 (a): the GUID of hardware error records, and one of them.
pub const RECORDS: Guid = [0xDD, 0x6B, 0x4E, 0x41, 0x7B, 0xE4, 0xCC, 0x47, 0xB2, 0x44, 0xBB, 0x61, 0x02, 0x0C, 0xF5, 0x16];
pub const RECORD: Key = Key { name: b"H\0w\0E\0r\0r\0R\0e\0c\x000\x000\x000\x001\0\0\0", vendor: &RECORDS };
pub const OLD: &[u8] = &[0x64, 0, 0, 0];
pub const NEW: &[u8] = &[0x65, 0, 0, 0];

/// Stamps of the same year: 1 April and 1 October 2024.
pub const SPRING: [u8; 16] = [0xE8, 0x07, 4, 1, 0, 0, 0, 0, 0, 0, 0, 0, 0, 0, 0, 0];
pub const AUTUMN: [u8; 16] = [0xE8, 0x07, 10, 1, 0, 0, 0, 0, 0, 0, 0, 0, 0, 0, 0, 0];

/// The descriptor with a stamp, then the data proper.
pub fn stamped(stamp: &[u8; 16], data: &[u8]) -> Vec<u8> {
    let mut bytes = stamp.to_vec();
    bytes.extend_from_slice(&24u32.to_le_bytes());
    bytes.extend_from_slice(&[0x00, 0x02, 0xF1, 0x0E]);
    bytes.extend_from_slice(&generate::CERTIFICATE);
    bytes.extend_from_slice(data);
    bytes
}

/// The same with a year.
pub fn signed(year: u16, data: &[u8]) -> Vec<u8> {
    let mut stamp = [0; 16];
    stamp[..2].copy_from_slice(&year.to_le_bytes());
    stamp[2..7].copy_from_slice(&[1, 2, 3, 4, 5]);
    stamped(&stamp, data)
}

pub fn same_bytes(what: &str, ours: &[u8], theirs: &[u8]) {
    if ours != theirs {
        let at = (0..ours.len()).find(|&at| ours[at] != theirs[at]).expect("equal lengths");
        panic!("{what} differs first at {at}: paper {:02X}, engine {:02X}", ours[at], theirs[at]);
    }
}
