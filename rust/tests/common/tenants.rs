//! 02 (f), written once more for the tests: whose a name is, what the values that stand take of each share, which setup admits them, and when a start-up is refused 22.

use super::book::{Book, Value};
use super::modes::PLAT_MODE;
use super::RECORDS;
use varstore::interface::{Key, Setup};
use varstore::paper::image::Parts;
use varstore::paper::layout::Authenticated;
use varstore::paper::request::{DB, DBT, DBX, KEK, PK};
use varstore::paper::{region, work};

/// "All names under one vendor GUID, named in the session, are the modem's; the rest are ours, key names and error records always included." 02 (j): "PlatMode is ours, like
/// the key names."
pub fn is_modems(setup: &Setup, key: Key) -> bool {
    let characters: Vec<u16> = key.name.chunks_exact(2).map(|pair| u16::from_le_bytes([pair[0], pair[1]])).collect();
    let text = String::from_utf16_lossy(&characters);
    let digits = text.strip_prefix("HwErrRec").and_then(|rest| rest.strip_suffix('\0'));
    let is_record =
        *key.vendor == RECORDS && digits.is_some_and(|digits| digits.len() == 4 && digits.bytes().all(|c| b"0123456789ABCDEF".contains(&c)));
    *key.vendor == setup.modem.vendor && !is_record && ![PK, KEK, DB, DBX, DBT, PLAT_MODE].contains(&key)
}

/// The bytes of an entry, rounded.
pub fn entry_size(name: usize, data: usize) -> u64 {
    (60 + name + data).next_multiple_of(4) as u64
}

/// The rounded sizes of values: of our side's, of the modem's, and of error records, which are in neither.
#[derive(Clone, Copy, PartialEq, Eq, Default, Debug)]
pub struct Taken {
    pub ours: u64,
    pub modem: u64,
    pub records: u64,
}

impl Taken {
    pub fn by(setup: &Setup, values: &[Value]) -> Taken {
        let mut taken = Taken::default();
        for value in values {
            let size = entry_size(value.name.name.len(), value.data.len());
            match value.attributes & 0x08 {
                0 if is_modems(setup, value.name.key()) => taken.modem += size,
                0 => taken.ours += size,
                _ => taken.records += size,
            }
        }
        taken
    }

    /// Whether it keeps to what a setup gives to each.
    pub fn is_within(&self, setup: &Setup) -> bool {
        self.ours <= setup.share.into() && self.modem <= setup.modem.share.into() && self.records <= setup.records.into()
    }
}

/// What a start-up finds: the spare's values if it is pending, else the region's. None where it would be refused 1 or 2.
pub fn found(image: &[u8]) -> Option<Vec<Value>> {
    let parts = Parts::of(image)?;
    let region = match work::pending(&parts) {
        Some(_) => parts.spare,
        None => parts.region,
    };
    region::sound::<Authenticated>(region).map(|_| Book::in_region::<Authenticated>(region).values)
}

/// For a station without a modem, what admits the values that a start-up finds: just the bytes of its records, and the rest of L for ours.
pub fn admitting(image: &[u8]) -> Setup {
    let alone = Setup::alone(image.len());
    let records = found(image).map_or(0, |values| Taken::by(&alone, &values).records);
    alone.with_records(records as u32)
}

/// "22 when a start-up finds (in the spare if pending) a side above its share, the error records above H, or shares that do not fit": then it would be refused so,
/// unless 1 or 2 comes before.
pub fn is_refused(setup: &Setup, image: &[u8]) -> bool {
    let length = Parts::of(image).map_or(0, |parts| parts.length()) as u64;
    let fit = [setup.share, setup.modem.share, setup.records, 28].map(u64::from).iter().sum::<u64>() <= length;
    found(image).is_some_and(|values| !fit || !Taken::by(setup, &values).is_within(setup))
}
