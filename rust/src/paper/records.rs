//! 02 (a): hardware error records, "under GUID .. only, with the name HwErrRec and four digits 0 to F in upper case". A record is a value with attribute 0x08; the
//! name alone does not make one.

use super::entry::ERROR_RECORD;
use crate::interface::{Guid, Key};

pub const VENDOR: Guid = [0xDD, 0x6B, 0x4E, 0x41, 0x7B, 0xE4, 0xCC, 0x47, 0xB2, 0x44, 0xBB, 0x61, 0x02, 0x0C, 0xF5, 0x16];

/// The eight characters before the digits.
const FRONT: &[u8] = b"H\0w\0E\0r\0r\0R\0e\0c\0";

/// Whether these are a record's attributes, with 0x40 or without.
pub fn is_record(attributes: u32) -> bool {
    attributes & ERROR_RECORD != 0
}

/// Whether a record may stand under this name: the GUID, and 13 characters with the zero character.
pub fn record_name(key: Key) -> bool {
    let is_digit = |character: &[u8]| matches!(character, [b'0'..=b'9' | b'A'..=b'F', 0]);
    let digits = key.name.strip_prefix(FRONT).and_then(|rest| rest.strip_suffix(&[0, 0]));
    *key.vendor == VENDOR && digits.is_some_and(|digits| digits.len() == 8 && digits.chunks_exact(2).all(is_digit))
}
