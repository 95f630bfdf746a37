//! 02 (f): a second tenant in the same region. "All names under one vendor GUID, named in the session, are the modem's; the rest are ours, key names and error
//! records always included. A call carries its side. Each side has its share of bytes, reserve and eight locks".

use super::entry::Entry;
use super::layout::Authenticated;
use super::modes::PLAT_MODE;
use super::records::{is_record, record_name};
use super::region::{values, REGION_HEADER};
use super::request::key_name;
use crate::interface::{Key, Setup, MODEM};

#[derive(Clone, Copy, PartialEq, Eq, Debug)]
pub enum Side {
    Ours,
    Modem,
}

impl Side {
    /// The side that a call carries: 1 is the modem's, any other number is ours.
    pub fn of(number: u32) -> Side {
        match number {
            MODEM => Side::Modem,
            _ => Side::Ours,
        }
    }

    /// Whose a name is. One of a record's form is ours whatever attributes stand under it. 02 (j): "PlatMode is ours, like the key names."
    pub fn owning(setup: &Setup, key: Key) -> Side {
        match *key.vendor == setup.modem.vendor && key_name(key).is_none() && key != PLAT_MODE && !record_name(key) {
            true => Side::Modem,
            false => Side::Ours,
        }
    }

    /// Its share of bytes, which nothing caps: it may be above L.
    pub fn share(self, setup: &Setup) -> u64 {
        match self {
            Side::Ours => setup.share.into(),
            Side::Modem => setup.modem.share.into(),
        }
    }
}

/// Rounded entry sizes: those of all error records, and of each side's other values. Shares, H and a reserve are compared with them, which may be any u32: 64 bits hold
/// the sums.
#[derive(Clone, Copy, Default)]
pub struct Sizes {
    pub records: u64,
    ours: u64,
    modem: u64,
}

impl Sizes {
    pub fn of<'a>(setup: &Setup, values: impl Iterator<Item = Entry<'a>>) -> Sizes {
        let mut sizes = Sizes::default();
        values.for_each(|value| sizes.add(setup, value.key(), value.attributes(), value.size()));
        sizes
    }

    pub fn add(&mut self, setup: &Setup, key: Key, attributes: u32, size: usize) {
        let sum = match Side::owning(setup, key) {
            _ if is_record(attributes) => &mut self.records,
            Side::Ours => &mut self.ours,
            Side::Modem => &mut self.modem,
        };
        *sum += size as u64;
    }

    /// "a side's sum without error records".
    pub fn of_side(&self, side: Side) -> u64 {
        match side {
            Side::Ours => self.ours,
            Side::Modem => self.modem,
        }
    }

    pub fn all(&self) -> u64 {
        self.records + self.ours + self.modem
    }
}

/// "22 when a start-up finds .. a side above its share, the error records above H, or shares that do not fit": "both shares and H and the 28 header bytes fit in L".
pub fn exceeded(setup: &Setup, region: &[u8]) -> bool {
    let (records, sides) = (u64::from(setup.records), [Side::Ours, Side::Modem]);
    let allotted = REGION_HEADER as u64 + records + sides.map(|side| side.share(setup)).iter().sum::<u64>();
    let sizes = Sizes::of(setup, values::<Authenticated>(region));
    allotted > region.len() as u64 || sizes.records > records || sides.iter().any(|side| sizes.of_side(*side) > side.share(setup))
}
