//! 02 (j), written once more for the tests: the mode that values say, what PlatMode becomes beside PK, and what a mode request changes.

use super::book::{Book, Value};
use super::generate::{self, Asked, Name};
use super::random::Random;
use super::signed;
use super::stored::Call;
use varstore::calls::PAPER;
use varstore::interface::{Answer, Context, Key, Session, Setup, AUDIT_MODE, DEPLOYED_MODE, OURS, SETUP_MODE, USER_MODE};
use varstore::paper::image::Parts;
use varstore::paper::region::find;
use varstore::paper::request::PK;

pub const PLAT_MODE: Key = Key {
    name: b"P\0l\0a\0t\0M\0o\0d\0e\0\0\0",
    vendor: &[0x61, 0xDF, 0xE4, 0x8B, 0xCA, 0x93, 0xD2, 0x11, 0xAA, 0x0D, 0x00, 0xE0, 0x98, 0x03, 0x2B, 0x8C],
};

/// The bytes of PlatMode's entry with one byte of data: 60 + 18 + 1, rounded.
pub const ENTRY: usize = 80;

fn value_of<'a>(values: &'a [Value], key: Key) -> Option<&'a Value> {
    values.iter().find(|value| value.name.key() == key)
}

/// "The mode is one stored byte, 2 audit or 3 deployed, under the name PlatMode and PK's vendor GUID, attributes 0x07. If it is absent, PK says setup or user; a 2 beside a PK,
/// a 3 without one, or other data or attributes count as absent."
pub fn mode_of(values: &[Value]) -> u32 {
    let stored = value_of(values, PLAT_MODE).filter(|value| value.attributes == 0x07 && value.data.len() == 1).map(|value| value.data[0]);
    match value_of(values, PK) {
        None if stored == Some(2) => AUDIT_MODE,
        None => SETUP_MODE,
        Some(_) if stored == Some(3) => DEPLOYED_MODE,
        Some(_) => USER_MODE,
    }
}

/// A stored mode.
pub fn mode_value(byte: u8) -> Value {
    Value { name: Name { name: PLAT_MODE.name.to_vec(), vendor: *PLAT_MODE.vendor }, attributes: 0x07, stamp: [0; 16], data: vec![byte] }
}

/// Whether a mode request is for a transition that is carried out: "Setup may go to audit; user to audit, losing PK, or to deployed".
pub fn may_go(from: u32, to: u32) -> bool {
    [(SETUP_MODE, AUDIT_MODE), (USER_MODE, AUDIT_MODE), (USER_MODE, DEPLOYED_MODE)].contains(&(from, to))
}

/// What of modes a call that is done or decided on these values is.
pub fn deed(call: &Call, before: &Book, after: &Book) -> Option<&'static str> {
    let stands = |book: &Book, key| value_of(&book.values, key).is_some();
    let (from, stray) = (mode_of(&before.values), stands(before, PLAT_MODE));
    let of_pk = matches!(call, Call::Set(asked) if asked.name.key() == PK) && stands(before, PK) != stands(after, PK);
    match (call, from) {
        (Call::Mode { .. }, USER_MODE) if !stands(after, PK) => Some("user to audit"),
        (Call::Mode { .. }, USER_MODE) if stray => Some("user to deployed over a byte"),
        (Call::Mode { .. }, USER_MODE) => Some("user to deployed"),
        (Call::Mode { .. }, _) if stray => Some("setup to audit over a byte"),
        (Call::Mode { .. }, _) => Some("setup to audit"),
        (_, AUDIT_MODE) if of_pk => Some("audit to deployed"),
        (_, DEPLOYED_MODE) if of_pk => Some("deployed to setup"),
        (_, USER_MODE) if of_pk && stray => Some("PK gone with a byte"),
        (_, _) if of_pk && stray => Some("PK come over a byte"),
        (_, _) if of_pk => Some("PK alone"),
        _ => None,
    }
}

/// All of them.
pub const DEEDS: [&str; 10] = [
    "user to audit",
    "user to deployed over a byte",
    "user to deployed",
    "setup to audit over a byte",
    "setup to audit",
    "audit to deployed",
    "deployed to setup",
    "PK gone with a byte",
    "PK come over a byte",
    "PK alone",
];

/// A mode request, or a set or delete of PK, with an eye to the mode that stands: most often one that is carried out.
pub fn change(r: &mut Random, image: &[u8]) -> Call {
    let values = match (PAPER.check)(image).answer {
        Answer::Done(0) => Book::of(image).values,
        _ => vec![],
    };
    let mode = mode_of(&values);
    let goes_on = mode == SETUP_MODE || mode == USER_MODE;
    if goes_on != r.once_in(3) {
        let to = match mode {
            SETUP_MODE if !r.once_in(3) => AUDIT_MODE,
            _ => r.pick(&[2, 2, 2, 2, 3, 3, 3, 3, 0, 1, 4, 0x102, 0x8000_0003, u32::MAX]),
        };
        return Call::Mode { to, side: r.pick(&[OURS, OURS, OURS, OURS, OURS, 2, u32::MAX, 1]) };
    }
    let enrolled = value_of(&values, PK).is_some();
    let attributes = r.pick(&[0x27, 0x27, 0x27, 0x67]);
    let (year, proper) = (2000 + r.below(100) as u16, if enrolled != r.once_in(6) { vec![] } else { generate::data(r, 90) });
    let verdict = if r.once_in(8) { r.below(5) as u32 } else { [3, 1][usize::from(enrolled)] };
    let name = Name { name: PK.name.to_vec(), vendor: *PK.vendor };
    Call::Set(Asked { name, attributes, data: signed(year, &proper), presence: r.pick(&[0, 0, 1]), verdict, side: OURS })
}

/// A byte under PlatMode's name as another writer may leave it, most often one that counts as absent: in the place of a stored mode, if a call may use the image.
pub fn leave_byte(r: &mut Random, image: &mut [u8]) {
    let session = (PAPER.session_new)(&Setup::alone(image.len()));
    let to = r.pick(&[AUDIT_MODE, DEPLOYED_MODE, DEPLOYED_MODE]);
    Call::Mode { to, side: OURS }.by(&PAPER, Context::NO_LIMIT, &session, image);
    let Some(parts) = Parts::of(image).filter(|_| (PAPER.check)(image).answer == Answer::Done(0)) else { return };
    if let Some(value) = find(parts.region, PLAT_MODE).value() {
        let at = value.at;
        image[at + 4] = r.pick(&[0x07, 0x07, 0x07, 0x03, 0x23, 0x27]);
        image[at + 60 + 18] = r.pick(&[0, 1, 2, 2, 3, 3, 0xFF]);
    }
}

/// Another phase, room and locks in a session, with an eye to a change of mode.
pub fn terms(r: &mut Random, session: &mut Session, image: &[u8], call: &Call) {
    if r.once_in(2) {
        session.phase = r.pick(&[0, 0, 1, 2]);
        session.count = r.pick(&[0, 0, 1, 2]);
        for place in 0..session.count as usize {
            let key = r.pick(&[PLAT_MODE, PK, PK]);
            session.sizes[place] = key.name.len() as u32;
            session.locks[place * 144..][..144].fill(0);
            session.locks[place * 144..][..key.name.len()].copy_from_slice(key.name);
            session.locks[place * 144 + 128..][..16].copy_from_slice(key.vendor);
        }
    }
    match r.below(4) {
        0 => {}
        1 => generate::room_after(r, session, image, call),
        _ => {
            session.setup.share = Setup::alone(image.len()).share;
            session.setup.rules = 0;
            session.setup.reserve = r.pick(&[0, 0, 100]);
        }
    }
}
