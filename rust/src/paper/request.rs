//! What a set carries: key names, the verdict wanted, the descriptor, and the change that is asked.

use super::entry::{u32_at, Contents, Entry, APPEND, TIME_BASED};
use super::modes::Mode;
use super::region;
use crate::interface::{Guid, Key, Request, Session};

const GLOBAL: Guid = [0x61, 0xDF, 0xE4, 0x8B, 0xCA, 0x93, 0xD2, 0x11, 0xAA, 0x0D, 0x00, 0xE0, 0x98, 0x03, 0x2B, 0x8C];
const SECURITY: Guid = [0xCB, 0xB2, 0x19, 0xD7, 0x3A, 0x3D, 0x96, 0x45, 0xA3, 0xBC, 0xDA, 0xD0, 0x0E, 0x67, 0x65, 0x6F];
const CERTIFICATE: Guid = [0x9D, 0xD2, 0xAF, 0x4A, 0xDF, 0x68, 0xEE, 0x49, 0x8A, 0xA9, 0x34, 0x7D, 0x37, 0x56, 0x65, 0xA7];

pub const PK: Key = Key { name: b"P\0K\0\0\0", vendor: &GLOBAL };
pub const KEK: Key = Key { name: b"K\0E\0K\0\0\0", vendor: &GLOBAL };
pub const DB: Key = Key { name: b"d\0b\0\0\0", vendor: &SECURITY };
pub const DBX: Key = Key { name: b"d\0b\0x\0\0\0", vendor: &SECURITY };
pub const DBT: Key = Key { name: b"d\0b\0t\0\0\0", vendor: &SECURITY };

/// The key names by the verdicts that they want.
#[derive(Clone, Copy, PartialEq, Eq)]
pub enum KeyName {
    Pk,
    Kek,
    Database,
}

pub fn key_name(key: Key) -> Option<KeyName> {
    match key {
        key if key == PK => Some(KeyName::Pk),
        key if key == KEK => Some(KeyName::Kek),
        key if key == DB || key == DBX || key == DBT => Some(KeyName::Database),
        _ => None,
    }
}

/// Verdicts.
const BY_PK: u32 = 1;
const BY_KEK: u32 = 2;
const BY_PAYLOAD: u32 = 3;
const BY_CREATOR: u32 = 4;

/// Verdict wanted: any of these; none if empty. 02 (j): "Audit wants the verdicts of setup, and deployed those of user", so that PK's value says which; "Custom mode does not
/// count in deployed".
pub fn wanted(session: &Session, region: &[u8], request: &Request, value: Option<&Entry>) -> &'static [u32] {
    let enrolled = || region::find(region, PK).value().is_some();
    let custom = session.setup.custom != 0 && request.presence != 0;
    match key_name(request.key) {
        Some(_) if custom && Mode::of(region) != Mode::Deployed => &[],
        Some(KeyName::Pk) if enrolled() => &[BY_PK],
        Some(KeyName::Pk) => &[BY_PAYLOAD],
        Some(KeyName::Kek) if enrolled() => &[BY_PK],
        Some(KeyName::Database) if enrolled() => &[BY_PK, BY_KEK],
        Some(_) => &[],
        None if request.attributes & TIME_BASED == 0 => &[],
        None if value.is_some() => &[BY_CREATOR],
        None => &[BY_PAYLOAD],
    }
}

/// The stamp that a set carries, zeros without 0x20, and the data proper.
#[derive(Clone, Copy)]
pub struct Payload<'a> {
    pub stamp: &'a [u8; 16],
    pub data: &'a [u8],
}

/// None if a descriptor is wanted and does not fit the form or the data. It is time stamp 16, length u32 (24 or more, counted from here),
/// revision 0x0200, type 0x0EF1, certificate GUID; data proper starts at 16 + length.
pub fn payload<'a>(request: &Request<'a>) -> Option<Payload<'a>> {
    if request.attributes & TIME_BASED == 0 {
        return Some(Payload { stamp: &[0; 16], data: request.data });
    }
    let descriptor = request.data.first_chunk::<40>()?;
    let length = u32_at(descriptor, 16) as usize;
    let fits_the_form =
        descriptor[7..16] == [0; 9] && length >= 24 && descriptor[20..24] == [0x00, 0x02, 0xF1, 0x0E] && descriptor[24..] == CERTIFICATE;
    if !fits_the_form {
        return None;
    }
    let data = request.data.get(length.checked_add(16)?..)?;
    Some(Payload { stamp: descriptor.first_chunk().expect("16 of 40 bytes"), data })
}

/// Stamps are compared by year down to second.
pub fn is_later(stamp: &[u8; 16], than: &[u8; 16]) -> bool {
    let year = |stamp: &[u8; 16]| u16::from_le_bytes([stamp[0], stamp[1]]);
    (year(stamp), &stamp[2..7]) > (year(than), &than[2..7])
}

/// 02 (b): with 0x20 an append's stored stamp becomes the later of the two, the old one if neither is later; every other set stores its own.
fn stamp_to_store<'a>(request: &Request, given: &'a [u8; 16], value: Option<&Entry<'a>>) -> &'a [u8; 16] {
    let joins = request.attributes & APPEND != 0 && request.attributes & TIME_BASED != 0;
    match value.map(|value| value.stamp()) {
        Some(old) if joins && !is_later(given, old) => old,
        _ => given,
    }
}

/// What a set does to the values.
pub enum Change<'a> {
    Nothing,
    Delete,
    Put(Contents<'a>),
}

/// Attributes 0, or empty data proper without append, delete. An empty append changes nothing. Append joins the data, and creates if absent.
/// Equal data and attributes, neither 0x20 nor 0x40 among them: no stores.
pub fn change<'a>(request: &Request, payload: Payload<'a>, value: Option<Entry<'a>>) -> Change<'a> {
    let append = request.attributes & APPEND != 0;
    if request.attributes == 0 || (payload.data.is_empty() && !append) {
        return Change::Delete;
    }
    if payload.data.is_empty() {
        return Change::Nothing;
    }
    let plain = request.attributes & (TIME_BASED | APPEND) == 0;
    if plain && value.is_some_and(|value| value.attributes() == request.attributes && value.data() == payload.data) {
        return Change::Nothing;
    }
    let stamp = stamp_to_store(request, payload.stamp, value.as_ref());
    let old = value.filter(|_| append).map_or(&[][..], |value| value.data());
    Change::Put(Contents { attributes: request.attributes & !APPEND, stamp, old, new: payload.data })
}
