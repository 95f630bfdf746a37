//! 02 (j): audit and deployed modes. "The mode is one stored byte, 2 audit or 3 deployed, under the name PlatMode and PK's vendor GUID, attributes 0x07."

use super::entry::{Contents, Entry};
use super::region::find;
use super::request::{Change, PK};
use crate::interface::{Key, AUDIT_MODE, DEPLOYED_MODE, SETUP_MODE, USER_MODE};

pub const PLAT_MODE: Key = Key { name: b"P\0l\0a\0t\0M\0o\0d\0e\0\0\0", ..PK };
const ATTRIBUTES: u32 = 0x07;

#[derive(Clone, Copy, PartialEq, Eq, Debug)]
pub enum Mode {
    Setup,
    User,
    Audit,
    Deployed,
}

impl Mode {
    /// "If it is absent, PK says setup or user; a 2 beside a PK, a 3 without one, or other data or attributes count as absent."
    pub fn of(region: &[u8]) -> Mode {
        let enrolled = find(region, PK).value().is_some();
        let byte = find(region, PLAT_MODE).value().filter(|value| value.attributes() == ATTRIBUTES).map(|value| value.data());
        match (enrolled, byte) {
            (false, Some([2])) => Mode::Audit,
            (true, Some([3])) => Mode::Deployed,
            (true, _) => Mode::User,
            (false, _) => Mode::Setup,
        }
    }

    pub fn number(self) -> u32 {
        match self {
            Mode::Setup => SETUP_MODE,
            Mode::User => USER_MODE,
            Mode::Audit => AUDIT_MODE,
            Mode::Deployed => DEPLOYED_MODE,
        }
    }
}

/// What a mode request does: the mode that it stores, and whether PK is lost.
#[derive(Clone, Copy)]
pub struct Transition {
    pub stored: Contents<'static>,
    pub loses_pk: bool,
}

/// "Setup may go to audit; user to audit, losing PK, or to deployed". None where another transition is requested: from audit to deployed and from deployed to setup PK leads,
/// and no request.
pub fn transition(from: Mode, to: u32) -> Option<Transition> {
    match (from, to) {
        (Mode::Setup, AUDIT_MODE) => Some(Transition { stored: stored(&[2]), loses_pk: false }),
        (Mode::User, AUDIT_MODE) => Some(Transition { stored: stored(&[2]), loses_pk: true }),
        (Mode::User, DEPLOYED_MODE) => Some(Transition { stored: stored(&[3]), loses_pk: false }),
        _ => None,
    }
}

/// A mode's value. It has no stamp, also where one with a stamp stood.
fn stored(byte: &'static [u8; 1]) -> Contents<'static> {
    Contents { attributes: ATTRIBUTES, stamp: &[0; 16], old: &[], new: byte }
}

/// What PlatMode becomes together with a change of PK, over the value that PK has: the value put in its place, or none where it goes. "audit to deployed when PK is enrolled",
/// "a PK that comes or goes also removes a byte that counts as absent, and one deleted in deployed the 3". None where PK changes alone: where PK neither comes nor goes, or
/// nothing is under PlatMode's name.
pub fn beside(region: &[u8], key: Key, value: Option<&Entry>, change: &Change) -> Option<Option<Contents<'static>>> {
    let comes = matches!(change, Change::Put(_)) && value.is_none();
    let goes = matches!(change, Change::Delete);
    if key != PK || !(comes || goes) || find(region, PLAT_MODE).value().is_none() {
        return None;
    }
    Some((Mode::of(region) == Mode::Audit).then(|| stored(&[3])))
}
