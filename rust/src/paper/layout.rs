//! 02 (d): "Each stored form has a header length of its own". What differs between the two forms, and nothing else does: the region's signature, and where
//! the fields of an entry's header stand. Start id, state, zero byte and attributes begin both headers.

pub trait Layout: Copy + 'static {
    const SIGNATURE: [u8; 16];
    /// The length of an entry's header; where under so many bytes remain, the walk stops, and an unfinished entry counts as so many.
    const HEADER: usize;
    /// An array of that length, so that fields are read without asking for it again.
    type Header: AsRef<[u8]> + 'static;
    /// The plain form keeps no stamps.
    const STAMP: Option<usize>;
    const NAME_SIZE: usize;
    const DATA_SIZE: usize;
    const VENDOR: usize;

    /// The header, and what stands behind it.
    fn split(bytes: &[u8]) -> Option<(&Self::Header, &[u8])>;
}

/// Document 01's form, the new one of 02 (d): start id, state, zero, attributes, monotonic count, time stamp, key index, name size, data size, GUID.
#[derive(Clone, Copy)]
pub struct Authenticated;

impl Layout for Authenticated {
    const SIGNATURE: [u8; 16] = [0x78, 0x2C, 0xF3, 0xAA, 0x7B, 0x94, 0x9A, 0x43, 0xA1, 0x80, 0x2E, 0x14, 0x4E, 0xC3, 0x77, 0x92];
    const HEADER: usize = 60;
    type Header = [u8; 60];
    const STAMP: Option<usize> = Some(16);
    const NAME_SIZE: usize = 36;
    const DATA_SIZE: usize = 40;
    const VENDOR: usize = 44;

    fn split(bytes: &[u8]) -> Option<(&[u8; 60], &[u8])> {
        bytes.split_first_chunk()
    }
}

/// The first recorders' form: start id, state, zero, attributes, name size, data size, GUID.
#[derive(Clone, Copy)]
pub struct Plain;

impl Layout for Plain {
    const SIGNATURE: [u8; 16] = [0x16, 0x36, 0xCF, 0xDD, 0x75, 0x32, 0x64, 0x41, 0x98, 0xB6, 0xFE, 0x85, 0x70, 0x7F, 0xFE, 0x7D];
    const HEADER: usize = 32;
    type Header = [u8; 32];
    const STAMP: Option<usize> = None;
    const NAME_SIZE: usize = 8;
    const DATA_SIZE: usize = 12;
    const VENDOR: usize = 16;

    fn split(bytes: &[u8]) -> Option<(&[u8; 32], &[u8])> {
        bytes.split_first_chunk()
    }
}
