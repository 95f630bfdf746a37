//! Random names, data, descriptors, sessions and images: mostly well formed, often on a boundary, sometimes damaged. Pools are small, so that
//! calls meet what stands.

use super::book::{Book, Value};
use super::modes::{self, PLAT_MODE};
use super::profiles::{self, Profile};
use super::random::Random;
use super::stored::Call;
use super::tenants::{admitting, found, is_modems, Taken};
use varstore::calls::PAPER;
use varstore::interface::{Answer, Context, Guid, Key, Request, Session, Setting, Setup, Tenant, ITEMS, MODEM, OURS, PLACE, PLACES};
use varstore::paper::image::Parts;
use varstore::paper::layout::{Authenticated, Layout, Plain};
use varstore::paper::records::{self, record_name};
use varstore::paper::region::{self, values};
use varstore::paper::request::{DB, DBT, DBX, KEK, PK};
use varstore::paper::{Store, Stores};

const PLAIN_VENDOR: Guid = [1, 2, 3, 4, 5, 6, 7, 8, 9, 10, 11, 12, 13, 14, 15, 16];
const OTHER_VENDOR: Guid = [1, 2, 3, 4, 5, 6, 7, 8, 9, 10, 11, 12, 13, 14, 15, 17];
const KEYS: [Key; 5] = [PK, KEK, DB, DBX, DBT];
/// PK and PlatMode more often than the others, so that there are all modes.
const FIXED: [Key; 10] = [PK, PK, PK, KEK, DB, DBX, DBT, PLAT_MODE, PLAT_MODE, PLAT_MODE];
const ATTRIBUTES: [u32; 4] = [0x03, 0x07, 0x23, 0x27];
const RECORD: u32 = 0x0F;
pub const CERTIFICATE: Guid = [0x9D, 0xD2, 0xAF, 0x4A, 0xDF, 0x68, 0xEE, 0x49, 0x8A, 0xA9, 0x34, 0x7D, 0x37, 0x56, 0x65, 0xA7];

pub const BLOCK: usize = 4096;

/// A name of characters and a zero character.
fn spelt(characters: &[u16]) -> Vec<u8> {
    characters.iter().chain(&[0]).flat_map(|character| character.to_le_bytes()).collect()
}

/// A well-formed name.
pub fn good_name(r: &mut Random) -> Vec<u8> {
    match r.below(13) {
        0 => spelt(&[0xD800]),
        1 => spelt(&[0x55AA, 0x003F]),
        2 => spelt(&[0x0100, 0xFFFF]),
        3 => spelt(&[u16::from(b'x'); 63]),
        4 => spelt(&[u16::from(b'x'); 62]),
        5 => spelt(&"RATE".encode_utf16().collect::<Vec<_>>()),
        6 => spelt(&[u16::from(b'P'), u16::from(b'K')]),
        7 => PLAT_MODE.name.to_vec(),
        letter => spelt(&[u16::from(b'A') + letter as u16]),
    }
}

/// Empty, odd, too long, with an early zero, without the last zero, or the empty name.
fn bad_name(r: &mut Random) -> Vec<u8> {
    let mut name = good_name(r);
    match r.below(8) {
        0 => vec![],
        1 => vec![0, 0],
        2 => vec![0],
        3 => spelt(&[7; 64]),
        4 => [spelt(&[9]), name].concat(),
        5 => {
            name.pop();
            name
        }
        6 => {
            let last = name.len() - 1;
            name[last - r.below(2)] = 1;
            name
        }
        _ => spelt(&vec![3; 64 + r.below(3000)]),
    }
}

/// A name with its GUID, owned.
#[derive(Clone, PartialEq, Eq, Debug)]
pub struct Name {
    pub name: Vec<u8>,
    pub vendor: Guid,
}

impl Name {
    pub fn key(&self) -> Key<'_> {
        Key { name: &self.name, vendor: &self.vendor }
    }
}

/// 02 (a): a record's name most often; else a digit in lower case or past F, a digit less or more, one character off, or another GUID.
fn near_record(r: &mut Random) -> Name {
    let digits = match r.once_in(4) {
        true => r.pick(&["000a", "f001", "00G0", "000:", "00/1", "@001", "001", "00010", ""]),
        false => r.pick(&["0001", "0001", "0001", "09AF", "FFFF"]),
    };
    let mut characters: Vec<u16> = "HwErrRec".chars().chain(digits.chars()).map(|character| character as u16).collect();
    if r.once_in(12) {
        let length = characters.len();
        characters[r.below(length)] ^= r.pick(&[0x01, 0x08, 0x20, 0x100, 0x8000]);
    }
    let mut vendor = records::VENDOR;
    match r.below(12) {
        0 => vendor = PLAIN_VENDOR,
        1 => vendor[r.below(16)] ^= 1 << r.below(8),
        _ => {}
    }
    Name { name: spelt(&characters), vendor }
}

pub fn name(r: &mut Random) -> Name {
    if r.once_in(4) {
        let key = r.pick(&FIXED);
        return Name { name: key.name.to_vec(), vendor: *key.vendor };
    }
    if r.once_in(4) {
        return near_record(r);
    }
    let name = if r.once_in(16) { bad_name(r) } else { good_name(r) };
    let vendor = r.pick(&[PLAIN_VENDOR, PLAIN_VENDOR, PLAIN_VENDOR, OTHER_VENDOR, OTHER_VENDOR, *PK.vendor, *DB.vendor, records::VENDOR, [0xFF; 16]]);
    Name { name, vendor }
}

/// Data that often look like flash, of boundary sizes up to `most`.
pub fn data(r: &mut Random, most: usize) -> Vec<u8> {
    let sizes = [0, 1, 2, 3, 4, 4, 4, 16, 60, 100, 500, 1000, 1892, 1893, 2047, 2048, 2049, 4096, 100_000];
    let size = if r.once_in(3) { r.below(2100) } else { r.pick(&sizes) }.min(most);
    match r.below(4) {
        0 => vec![0xFF; size],
        1 => [0xAA, 0x55, 0x3F, 0x00].into_iter().cycle().take(size).collect(),
        2 => vec![r.byte() & 3; size],
        _ => r.bytes(size),
    }
}

/// One stamp, and those that differ from it in one field: often equal, earlier or later.
fn stamp(r: &mut Random) -> [u8; 16] {
    let mut stamp = [0; 16];
    stamp[..7].copy_from_slice(&[0xE8, 0x07, 6, 15, 12, 30, 30]);
    match r.below(10) {
        0 => stamp[..2].copy_from_slice(&r.pick(&[0u16, 0x00FF, 2023, 2025, 0x08E7, 0xFFFF]).to_le_bytes()),
        1..=5 => stamp[2 + r.below(5)] = r.pick(&[0, 1, 5, 29, 31, 60, 0xFF]),
        _ => {}
    }
    stamp
}

/// A stamp that stands in an image of another writer: what is not compared of it may be anything.
fn stored_stamp(r: &mut Random) -> [u8; 16] {
    let mut stamp = stamp(r);
    if r.once_in(3) {
        stamp[7..].fill(r.pick(&[0xEE, 0x01, 0xFF]));
    }
    stamp
}

/// Descriptor and data proper; damaged at one field once in some times.
pub fn signed(r: &mut Random, proper: &[u8]) -> Vec<u8> {
    let extra = r.pick(&[0, 0, 1, 100]);
    let mut bytes = stamp(r).to_vec();
    bytes.extend_from_slice(&(24 + extra as u32).to_le_bytes());
    bytes.extend_from_slice(&[0x00, 0x02, 0xF1, 0x0E]);
    bytes.extend_from_slice(&CERTIFICATE);
    bytes.resize(40 + extra, 0x77);
    bytes.extend_from_slice(proper);
    if r.once_in(5) {
        damage_descriptor(r, &mut bytes);
    }
    bytes
}

fn damage_descriptor(r: &mut Random, bytes: &mut Vec<u8>) {
    let length = bytes.len() as u32;
    match r.below(6) {
        0 => bytes[7 + r.below(9)] = 1,
        1 => {
            let lengths = [0, 23, 24, 25, length - 17, length - 16, length - 15, length, u32::MAX, u32::MAX - 15, u32::MAX - 16];
            bytes[16..20].copy_from_slice(&r.pick(&lengths).to_le_bytes());
        }
        2 => bytes[20 + r.below(2)] ^= 1 << r.below(8),
        3 => bytes[22 + r.below(2)] ^= 1 << r.below(8),
        4 => bytes[24 + r.below(16)] ^= 1 << r.below(8),
        _ => bytes.truncate(r.below(41)),
    }
}

/// A set's arguments, owned.
#[derive(Clone)]
pub struct Asked {
    pub name: Name,
    pub attributes: u32,
    pub data: Vec<u8>,
    pub presence: u32,
    pub verdict: u32,
    pub side: u32,
}

impl Asked {
    pub fn request(&self) -> Request<'_> {
        let Asked { name, attributes, data, presence, verdict, .. } = self;
        Request { key: name.key(), attributes: *attributes, data, presence: *presence, verdict: *verdict }
    }
}

/// The data's size and first bytes only: there may be many.
impl std::fmt::Debug for Asked {
    fn fmt(&self, f: &mut std::fmt::Formatter<'_>) -> std::fmt::Result {
        let Asked { name, attributes, data, presence, verdict, side } = self;
        write!(f, "side {side}, {name:X?}, attributes {attributes:#X}, presence {presence}, verdict {verdict}, ")?;
        write!(f, "{} bytes of data {:X?}", data.len(), &data[..data.len().min(48)])
    }
}

/// By our side: who sees the session may choose another.
pub fn asked(r: &mut Random) -> Asked {
    let name = name(r);
    let is_key = KEYS.contains(&name.key());
    let near_record = name.vendor == records::VENDOR || record_name(Key { vendor: &records::VENDOR, ..name.key() });
    let attributes = match r.below(20) {
        0 => r.number() as u32,
        1 if near_record || r.once_in(2) => r.pick(&[0x08, 0x09, 0x0B, 0x0C, 0x0D, 0x0E, 0x0F, 0x1F, 0x2B, 0x2F, 0x48, 0x4B, 0x4F, 0x6F, 0x8F]),
        1 => r.pick(&[0x13, 0x40, 0x01, 0x02, 0x04, 0x05, 0x06, 0x20, 0x60, 0x80, 0x83, 0x8000_0007]),
        2 | 3 => 0,
        4..=16 if near_record => r.pick(&[RECORD, RECORD, RECORD, RECORD | 0x40]),
        4..=6 => r.pick(&ATTRIBUTES) | 0x40,
        7..=15 if is_key => r.pick(&[0x27, 0x27, 0x27, 0x67]),
        _ => r.pick(&ATTRIBUTES),
    };
    let most = if r.once_in(2) { 100 } else { 200_000 };
    let proper = if r.once_in(8) { vec![] } else { data(r, most) };
    let data = if attributes & 0x20 != 0 && !r.once_in(20) { signed(r, &proper) } else { proper };
    let verdict = r.pick(&[0, 1, 1, 2, 3, 3, 4, 4, 5, u32::MAX]);
    Asked { name, attributes, data, presence: r.pick(&[0, 0, 1, 2, 0x100]), verdict, side: OURS }
}

/// A set, append or delete of a value that stands, half of the times where there is one; its attributes and its data often as they are.
pub fn asked_on(r: &mut Random, image: &[u8]) -> Asked {
    let mut asked = asked(r);
    let standing: Vec<_> = match Parts::of(image) {
        Some(parts) if (PAPER.check)(image).answer == Answer::Done(0) => values::<Authenticated>(parts.region).collect(),
        _ => vec![],
    };
    if standing.is_empty() || r.once_in(2) {
        return asked;
    }
    let value = r.pick(&standing);
    let most = r.pick(&[60, 2048]);
    let proper = if r.once_in(8) { value.data().to_vec() } else { data(r, most) };
    asked.name = Name { name: value.name().to_vec(), vendor: *value.vendor() };
    asked.attributes = if r.once_in(8) { 0 } else { value.attributes() | r.pick(&[0, 0, 0x40]) };
    asked.data = if asked.attributes & 0x20 != 0 { signed(r, &proper) } else { proper };
    asked.verdict = r.pick(&[4, 4, 4, 1, 2, 3]);
    asked
}

/// H: none, room for a few records, most of a region, or more than any.
pub fn record_space(r: &mut Random) -> u32 {
    r.pick(&[0, 0, 0, 0, 87, 88, 176, 500, 500, 1000, 1000, 2000, 4068, 4069, 28_644, 70_000, u32::MAX])
}

/// 02 (f): a share: none, around one entry, some, all of a region of one block or of seven, or more than any.
fn share(r: &mut Random) -> u32 {
    r.pick(&[0, 75, 76, 500, 2000, 4068, 4068, 4069, 28_644, 28_644, 70_000, u32::MAX])
}

/// Any numbers of the modem, and one of the GUIDs that names have.
fn modem(r: &mut Random) -> Tenant {
    let vendor = r.pick(&[OTHER_VENDOR, OTHER_VENDOR, OTHER_VENDOR, PLAIN_VENDOR, *PK.vendor, *DB.vendor, records::VENDOR, [0; 16]]);
    Tenant { share: share(r), reserve: r.pick(&[0, 0, 1, 100, 2000, 4095, 4096, 4097, u32::MAX]), vendor }
}

/// Who asks: the side whose the name is most often, else the other one; ours under any number that is not the modem's.
pub fn side(r: &mut Random, setup: &Setup, key: Key) -> u32 {
    match is_modems(setup, key) != r.once_in(8) {
        true => MODEM,
        false => r.pick(&[OURS, OURS, OURS, 2, 0x101, u32::MAX]),
    }
}

/// Another H and other shares in a session with an eye to a set: what stands or would stand with the reserve, a byte less or more; what the others leave of L; or any.
pub fn room_for(r: &mut Random, session: &mut Session, image: &[u8], asked: &Asked) {
    if r.once_in(3) || (PAPER.check)(image).answer != Answer::Done(0) {
        return any_room(r, &mut session.setup);
    }
    let mut values = Book::of(image).values;
    let before = Taken::by(&session.setup, &values);
    let old = values.iter().position(|value| value.name == asked.name).map(|place| values.remove(place));
    let joined = old.filter(|_| asked.attributes & 0x40 != 0).map_or(0, |value| value.data.len());
    let given = if asked.attributes & 0x20 != 0 { asked.data.len().saturating_sub(40) } else { asked.data.len() };
    let stands = Value { name: asked.name.clone(), attributes: asked.attributes & !0x40, stamp: [0; 16], data: vec![0; joined + given] };
    values.push(stands);
    let after = Taken::by(&session.setup, &values);
    room_between(r, session, image, before, after);
}

/// The same with an eye to a profile.
pub fn room_for_items(r: &mut Random, session: &mut Session, image: &[u8], profile: &Profile) {
    let items = profiles::items(&profile.file).unwrap_or_default();
    room_around(r, session, image, |book| items.iter().for_each(|item| book.set(&item.request())));
}

/// The same with an eye to a mode request, or a set of PK whose descriptor is of the form.
pub fn room_after(r: &mut Random, session: &mut Session, image: &[u8], call: &Call) {
    room_around(r, session, image, |book| call.feed(book));
}

fn room_around(r: &mut Random, session: &mut Session, image: &[u8], feed: impl FnOnce(&mut Book)) {
    if r.once_in(3) || (PAPER.check)(image).answer != Answer::Done(0) {
        return any_room(r, &mut session.setup);
    }
    let mut book = Book::of(image);
    let before = Taken::by(&session.setup, &book.values);
    feed(&mut book);
    let after = Taken::by(&session.setup, &book.values);
    room_between(r, session, image, before, after);
}

fn any_room(r: &mut Random, setup: &mut Setup) {
    [setup.share, setup.modem.share, setup.records] = [share(r), share(r), record_space(r)];
}

/// What is taken before or after a call with the reserve, a byte less or more; or what the others leave of L.
fn room_between(r: &mut Random, session: &mut Session, image: &[u8], before: Taken, after: Taken) {
    let setup = &mut session.setup;
    let reserve = |reserve: u32| if session.phase >= 2 { reserve.min(4096).into() } else { 0 };
    let rest = u64::from(Setup::alone(image.len()).share).saturating_sub(after.ours + after.modem + after.records);
    let mut near = |before: u64, after: u64| {
        let bytes = r.pick(&[before, after, after, after, after + rest, after + rest]);
        (bytes as u32).saturating_add_signed(r.pick(&[-1, 0, 0, 0, 1]))
    };
    setup.records = near(before.records, after.records);
    setup.share = near(before.ours, after.ours + reserve(setup.reserve));
    setup.modem.share = near(before.modem, after.modem + reserve(setup.modem.reserve));
}

/// 02 (e): a rule for a name, with an eye to data: they break it in no way, or in one most often.
fn setting(r: &mut Random, key: Key, data: &[u8]) -> Setting {
    let size = data.len() as u32;
    let width = if r.once_in(10) { r.pick(&[0, 3, 5, 8, 0x100, 0x1_0001, 0x1_0004, u32::MAX]) } else { r.pick(&[1, 2, 4]) };
    // where the field ends with the data
    let last = size.saturating_sub(width);
    let at = match r.below(12) {
        0..=4 => 0,
        5..=7 => last,
        8 | 9 => r.below(data.len() + 1) as u32,
        10 => r.pick(&[last + 1, size, size + 1]),
        _ => r.pick(&[width.wrapping_neg(), width.wrapping_neg().wrapping_add(1), u32::MAX, 1 << 31, 0x1_0000]),
    };
    let bytes = data.iter().skip(at as usize).take(width.min(4) as usize);
    let there = bytes.zip(0..).fold(0, |number, (byte, place)| number | u32::from(*byte) << (8 * place));
    let mut setting = Setting::any(key).field(at, width);
    if r.once_in(3) {
        let least = r.pick(&[0, 1, size, size, size, size + 1]);
        setting = setting.sized(least, r.pick(&[u32::MAX, size, size, size, size.saturating_sub(1), 2048]));
    }
    setting = match r.below(3) {
        0 => setting,
        1 => {
            let low = r.pick(&[there, there, there, there.saturating_sub(1), 0, there.saturating_add(1)]);
            setting.between(low, r.pick(&[there, there, there, there.saturating_add(1), u32::MAX, there.saturating_sub(1)]))
        }
        _ => listed(r, setting, there),
    };
    if r.once_in(10) {
        setting.fixed = r.pick(&[1, 2, 0x100, u32::MAX]);
    }
    setting
}

/// A list with a number or without it: in any of its places, behind the eighth, or in a place that does not count.
fn listed(r: &mut Random, setting: Setting, number: u32) -> Setting {
    let count = r.pick(&[0, 1, 2, 3, 7, 8, 9, 10]);
    let mut numbers: Vec<u32> = (1..=count as u32).map(|other| number ^ other).collect();
    if count > 0 && !r.once_in(4) {
        let place = r.below(count);
        numbers[r.pick(&[0, place, place, count - 1])] = number;
    }
    let mut setting = setting.one_of(&numbers);
    if r.once_in(4) {
        setting.numbers[count.min(8)..].fill(number);
    }
    if r.once_in(16) {
        setting.count = r.pick(&[u32::MAX, 0x100, 0x8000_0001]);
    }
    setting
}

/// The rule for another variable or for none: a size, a bit of the name or a bit of the GUID is another one. Or only bytes behind the name, which do not count.
fn misnamed(r: &mut Random, mut setting: Setting) -> Setting {
    let size = (setting.size as usize).min(128);
    match r.below(4) {
        0 => setting.size = r.pick(&[0, 1, 2, 3, setting.size ^ 1, setting.size ^ 2, 128, 129, 0x1_0000 | setting.size, u32::MAX]),
        1 if size > 0 => setting.name[r.below(size)] ^= 1 << r.below(8),
        2 => setting.vendor[r.below(16)] ^= 1 << r.below(8),
        _ => setting.name[size..].fill(r.byte()),
    }
    setting
}

/// Rules for any variables in all places, and any count; none most often.
pub fn rules(r: &mut Random, setup: &mut Setup) {
    setup.rules = r.pick(&[0, 0, 0, 0, 0, 0, 1, 2, 3, 5, 31, 32, 33, 0x100, u32::MAX]);
    if setup.rules == 0 && !r.once_in(4) {
        return;
    }
    for place in &mut setup.settings {
        *place = any_rule(r);
    }
}

fn any_rule(r: &mut Random) -> Setting {
    let (name, data) = (name(r), data(r, 8));
    let rule = setting(r, name.key(), &data);
    if r.once_in(8) {
        misnamed(r, rule)
    } else {
        rule
    }
}

/// Rules with an eye to a set: one or two are for its name and for the data that would stand, in the first place, the last or any.
pub fn rules_for(r: &mut Random, image: &[u8], asked: &Asked) -> Vec<Setting> {
    let data = would_stand(image, asked);
    let count = r.pick(&[1, 1, 1, 2, 2, 3, 4, 31, 32, 33]);
    let mut rules: Vec<Setting> = (0..count).map(|_| any_rule(r)).collect();
    for _ in 0..r.pick(&[1, 1, 2]) {
        let rule = setting(r, asked.name.key(), &data);
        let place = r.below(count);
        rules[r.pick(&[0, place, count - 1])] = if r.once_in(8) { misnamed(r, rule) } else { rule };
    }
    rules
}

/// The data that an accepted set would leave, or a guess.
fn would_stand(image: &[u8], asked: &Asked) -> Vec<u8> {
    let given = if asked.attributes & 0x20 != 0 { asked.data.get(40..).unwrap_or(&[]) } else { &asked.data };
    let old = match Parts::of(image) {
        Some(parts) if asked.attributes & 0x40 != 0 && (PAPER.check)(image).answer == Answer::Done(0) => {
            values::<Authenticated>(parts.region).find(|value| value.key() == asked.name.key()).map_or(&[][..], |value| value.data())
        }
        _ => &[],
    };
    [old, given].concat()
}

/// What a start-up is given, with an eye to what it finds: shares and H that admit it most often, with the rest of L for one of them or for none, or a byte off; or
/// any.
pub fn setup(r: &mut Random, image: &[u8]) -> Setup {
    let mut setup = Setup { custom: r.pick(&[0, 1, 2, u32::MAX]), reserve: r.pick(&[0, 1, 4096, 4097, u32::MAX]), modem: modem(r), ..Setup::NOTHING };
    rules(r, &mut setup);
    let taken = match found(image) {
        Some(values) if !r.once_in(4) => Taken::by(&setup, &values),
        _ => {
            [setup.share, setup.records] = [share(r), record_space(r)];
            return setup;
        }
    };
    let mut numbers = [taken.ours, taken.modem, taken.records].map(|bytes| bytes as u32);
    let rest = Setup::alone(image.len()).share.saturating_sub(numbers.iter().sum());
    numbers[r.below(3)] += r.pick(&[0, rest, rest, rest]);
    if r.once_in(4) {
        let number = &mut numbers[r.below(3)];
        *number = number.saturating_add_signed(r.pick(&[-1, 1]));
    }
    [setup.share, setup.modem.share, setup.records] = numbers;
    setup
}

/// The same on an image of so many bytes where little is to be refused: custom mode, no modem, and room for some records.
pub fn lenient(r: &mut Random, image_len: usize) -> Setup {
    Setup { custom: 1, ..Setup::alone(image_len) }.with_records(r.pick(&[0, 500, 1000]))
}

/// Any session: counts above 16, sizes above 128, phases above 2, reserves above 4,096, any H, shares, modem and rules.
pub fn session(r: &mut Random) -> Session {
    let mut session = (PAPER.session_new)(&Setup::NOTHING);
    session.phase = r.pick(&[0, 0, 0, 1, 1, 2, 2, 3, 0x100, u32::MAX]);
    session.setup.custom = r.pick(&[0, 0, 0, 1, 2, 0x100, u32::MAX]);
    session.setup.reserve = r.pick(&[0, 0, 1, 100, 2000, 4095, 4096, 4097, 0x1_0000, u32::MAX]);
    session.setup.records = record_space(r);
    session.setup.share = share(r);
    session.setup.modem = modem(r);
    rules(r, &mut session.setup);
    session.count = r.pick(&[0, 0, 1, 2, 3, 15, 16, 17, 0x100, 0x1_0000, u32::MAX]);
    for place in 0..PLACES {
        let locked = name(r);
        let size = locked.name.len().min(128);
        session.sizes[place] = locked.name.len() as u32;
        session.locks[place * PLACE..][..size].copy_from_slice(&locked.name[..size]);
        session.locks[place * PLACE + 128..][..16].copy_from_slice(&locked.vendor);
        if r.once_in(16) {
            session.sizes[place] = r.pick(&[0, 1, 2, 4, 127, 128, 129, 144, 145, 0x1_0004, u32::MAX]);
        }
        if r.once_in(16) {
            session.locks[place * PLACE + r.below(PLACE)] = r.byte();
        }
    }
    session
}

/// A name that a side may set by an item of a profile: well formed, its own, no key, no record and not PlatMode.
fn own_name(r: &mut Random, setup: &Setup, side: u32) -> Name {
    loop {
        let vendor = if side == MODEM { setup.modem.vendor } else { r.pick(&[PLAIN_VENDOR, PLAIN_VENDOR, OTHER_VENDOR, [0xFF; 16]]) };
        let name = Name { name: good_name(r), vendor };
        let key = name.key();
        if is_modems(setup, key) == (side == MODEM) && !FIXED.contains(&key) && !record_name(key) {
            return name;
        }
    }
}

/// 02 (l): a profile of a side with an eye to what stands: values that stay, change or go, and new ones. Once in some times one item is wrong, or the file is. No name is
/// under the zero GUID, which is the modem's of a station without one.
pub fn profile(r: &mut Random, setup: &Setup, image: &[u8]) -> Profile {
    let side = r.pick(if setup.modem.vendor == [0; 16] { &[OURS, OURS, 2] } else { &[OURS, OURS, MODEM] });
    let named = r.once_in(6);
    let is_own = |value: &Value| {
        let key = value.name.key();
        is_modems(setup, key) == (side == MODEM) && [3, 7].contains(&value.attributes) && (named || key != PLAT_MODE)
    };
    let mut standing: Vec<Value> = match (PAPER.check)(image).answer {
        Answer::Done(0) => Book::of(image).values.into_iter().filter(is_own).collect(),
        _ => vec![],
    };
    let mut items: Vec<Asked> = vec![];
    let most = r.pick(&[8, 8, 60, 400, 2048]);
    // sometimes all stay as they are
    let same = r.once_in(8) && !standing.is_empty();
    for _ in 0..r.pick(&[0, 1, 1, 2, 2, 3, 4, 5, 6, 7, 8, 8, 8]) {
        let fresh = |r: &mut Random| vec![r.byte(); 1 + r.below(most)];
        if same && standing.is_empty() {
            break;
        }
        let (name, attributes, data) = if standing.is_empty() || (!same && r.once_in(3)) {
            (own_name(r, setup, side), r.pick(&[7, 7, 7, 3]), fresh(r))
        } else {
            let value = standing.swap_remove(r.below(standing.len()));
            let data = match r.below(4) {
                _ if same => value.data,
                0 => value.data,
                1 => vec![],
                _ => fresh(r),
            };
            (value.name, value.attributes, data)
        };
        if items.iter().all(|item| item.name != name) {
            items.push(Asked { name, attributes, data, presence: 0, verdict: 0, side });
        }
    }
    if !items.is_empty() && r.once_in(3) {
        let place = r.below(items.len());
        spoil(r, &mut items, place);
    }
    let file = laid_out(r, &items);
    Profile { file, side }
}

/// A name that is not well formed, any name, that of another item, other attributes, empty data, or too many.
fn spoil(r: &mut Random, items: &mut [Asked], place: usize) {
    let other = items[r.below(items.len())].name.clone();
    let item = &mut items[place];
    match r.below(7) {
        0 => item.name.name = bad_name(r),
        1 | 2 => item.name = name(r),
        3 => item.name = other,
        4 => item.attributes ^= 4,
        5 => item.data.clear(),
        _ => item.data = vec![r.byte(); r.pick(&[2047, 2048, 2049, 5000, 20_000])],
    }
}

/// The file of these items, or once in some times one that is not of the form in one place; a bit that is another may also make another file of the form.
fn laid_out(r: &mut Random, items: &[Asked]) -> Vec<u8> {
    let mut numbers: Vec<Vec<u8>> = vec![profiles::number(items.len())];
    for item in items {
        numbers.extend([item.attributes as usize, item.name.name.len(), item.data.len()].map(profiles::number));
    }
    let wrong = r.once_in(5);
    let (place, kind) = (r.below(numbers.len()), if wrong { r.below(8) } else { usize::MAX });
    match kind {
        0 => {
            let last = numbers[place].len() - 1;
            numbers[place][last] |= 0x80;
            numbers[place].push(0);
        }
        1 => numbers[place] = profiles::number(r.pick(&[0, 1, 2, 3, 7, 8, 9, 0x27, 0x40, 0x47, 0x7F, 0x80, 0x3FFF, 0x4000, 0x1F_FFFF, 0x20_0000])),
        2 => numbers[0] = profiles::number(r.below(ITEMS + 4)),
        _ => {}
    }
    let mut file = numbers[0].clone();
    for (item, numbers) in items.iter().zip(numbers[1..].chunks_exact(3)) {
        file.extend(profiles::sized([numbers[0].clone(), numbers[1].clone(), numbers[2].clone()], item.name.key(), &item.data));
    }
    match kind {
        3 => file.truncate(r.below(file.len())),
        4 => file.push(r.byte()),
        5 | 6 => {
            let at = r.below(file.len());
            file[at] ^= 1 << r.below(8);
        }
        7 => {
            let count = r.below(60);
            file = r.bytes(count);
        }
        _ => {}
    }
    file
}

/// Rules with an eye to a profile: for one of its items.
pub fn rules_for_items(r: &mut Random, image: &[u8], profile: &Profile) -> Vec<Setting> {
    let items = profiles::items(&profile.file).unwrap_or_default();
    let place = r.below(items.len().max(1));
    items.get(place).map_or(vec![], |item| rules_for(r, image, item))
}

/// Dead addresses, sometimes more than count: of stores that a call is to make, anywhere in the image, or outside.
pub fn dead(r: &mut Random, list: Option<&Stores>, length: usize) -> Vec<u32> {
    let count = r.pick(&[0, 1, 1, 1, 2, 3, 15, 16, 17, 40]);
    let address = |_| match list.filter(|list| !list.is_empty()) {
        Some(list) if !r.once_in(4) => stored_address(r, list),
        _ if r.once_in(2) => r.below(length + 1),
        _ => r.pick(&[length, length + 1, 99_999, u32::MAX as usize]),
    };
    (0..count).map(address).map(|address| address as u32).collect()
}

/// A width; sometimes one that counts as 1.
pub fn width(r: &mut Random) -> u32 {
    r.pick(&[1, 1, 2, 4, 8, 16, 16, 0, 3, 5, 17, 32, 0x100, 0x1_0010, u32::MAX])
}

/// Where a list stores: near its ends and around its deciding store more often than elsewhere.
fn stored_address(r: &mut Random, list: &Stores) -> usize {
    let last = list.len() - 1;
    let index = match r.below(6) {
        0 => r.below(3),
        1 => r.below(80),
        2 => list.deciding().unwrap_or(0) + r.below(3),
        3 => last - r.below(3).min(last),
        _ => r.below(last + 1),
    };
    match list.get(index.min(last)).expect("a store of the list") {
        Store::Program(at, page) => at + r.below(page.bytes().len()),
        Store::Erase(block) => block * BLOCK + r.below(BLOCK),
    }
}

/// b: 1 most often, each of 2 to 7 sometimes.
pub fn blocks(r: &mut Random) -> usize {
    if r.once_in(3) {
        1 + r.below(7)
    } else {
        1
    }
}

pub fn empty(blocks: usize) -> Vec<u8> {
    let mut image = vec![0; BLOCK * (2 * blocks + 1)];
    (PAPER.format)(Context::NO_LIMIT, &mut image);
    image
}

/// An image filled by sets, appends, deletes and changes of mode, some of them stopped; sometimes with another writer's byte under PlatMode's name.
pub fn filled(r: &mut Random, blocks: usize) -> Vec<u8> {
    let mut image = empty(blocks);
    for _ in 0..r.below(30 * blocks) {
        let setup = Setup { custom: r.below(2) as u32, ..Setup::alone(image.len()) };
        let session = (PAPER.session_new)(&setup.with_records(r.pick(&[0, 500, 2000])));
        let mut asked = asked(r);
        asked.presence = 1;
        let limit = if r.once_in(10) { r.below(300) as u64 } else { u64::MAX };
        if r.once_in(8) {
            let change = modes::change(r, &image);
            change.by(&PAPER, Context::with(limit), &session, &mut image);
        }
        (PAPER.set)(Context::with(limit), &session, &mut image, &asked.request());
        if r.once_in(10) {
            let setup = admitting(&image);
            (PAPER.start_up)(Context::NO_LIMIT, &mut image, &setup);
        }
    }
    if r.once_in(4) {
        modes::leave_byte(r, &mut image);
    }
    image
}

/// A region of entries in any of the six states, count and key index and byte 3 anything: sound most often. `small` entries fill it up.
fn crafted_region<F: Layout>(r: &mut Random, blocks: usize, small: bool) -> Vec<u8> {
    let mut region = region::header::<F>(BLOCK * blocks).to_vec();
    region.resize(BLOCK * blocks, 0xFF);
    let mut at = 28;
    let many = r.below(if small { 700 } else { 12 * blocks });
    let mut last = name(r);
    for index in 0..many {
        // one name's entries together: a 3E entry beside a 3F entry
        let mut name = if r.once_in(3) { last } else { name(r) };
        if small {
            name.name = spelt(&[1 + index as u16 / 2]);
        }
        let most = if small { 1 + r.below(4) } else { 2048 };
        let bytes = if name.key() == PLAT_MODE && !r.once_in(4) { vec![r.pick(&[2, 3])] } else { data(r, most) };
        let begin = at + F::HEADER;
        let end = begin + name.name.len() + bytes.len();
        if end > region.len() {
            break;
        }
        let state = r.pick(&[0x3F, 0x3F, 0x3F, 0x3E, 0x3E, 0x3D, 0x3C, 0x7F, 0xFF]);
        // sizes of an unfinished header are not to be trusted
        let told = if state == 0xFF && r.once_in(2) { usize::MAX } else { bytes.len() };
        region[at..begin].copy_from_slice(&crafted_header::<F>(r, state, &name, told));
        last = name.clone();
        if state == 0xFF {
            at = begin;
            continue;
        }
        region[begin..end].copy_from_slice(&[&name.name[..], &bytes].concat());
        at = end.next_multiple_of(4);
        // bytes skipped are FF; those of another writer may be anything
        if r.once_in(6) {
            region[end..at].fill(r.byte());
        }
    }
    region
}

/// Count, stamp and key index stand in one form only.
fn crafted_header<F: Layout>(r: &mut Random, state: u8, name: &Name, size: usize) -> Vec<u8> {
    let mut header = vec![0xAA, 0x55, state, r.pick(&[0, 0, 0xFF])];
    let attributes = match record_name(name.key()) {
        true if !r.once_in(4) => RECORD,
        false if r.once_in(if name.vendor == records::VENDOR { 3 } else { 40 }) => RECORD,
        _ if name.key() == PLAT_MODE && !r.once_in(4) => 0x07,
        _ => r.pick(&ATTRIBUTES),
    };
    header.extend_from_slice(&attributes.to_le_bytes());
    if F::STAMP.is_some() {
        header.extend_from_slice(&r.pick(&[0, u64::MAX, 5]).to_le_bytes());
        header.extend_from_slice(&stored_stamp(r));
        header.extend_from_slice(&r.pick(&[0, u32::MAX, 5]).to_le_bytes());
    }
    header.extend_from_slice(&(name.name.len() as u32).to_le_bytes());
    header.extend_from_slice(&(size as u32).to_le_bytes());
    header.extend_from_slice(&name.vendor);
    header
}

/// The crafted region with doubled names, bad names, empty data and records under other names deleted, so that it is sound; sometimes these records stay, or one
/// entry is then doubled in the tail.
fn sound_region<F: Layout>(r: &mut Random, blocks: usize) -> Vec<u8> {
    let (small, any_record) = (r.once_in(4), r.once_in(16));
    let mut region = crafted_region::<F>(r, blocks, small);
    let (mut seen, mut live) = (Vec::new(), Vec::new());
    let mut at = 28;
    while at + F::HEADER <= region.len() && region[at..at + 2] == [0xAA, 0x55] {
        let state = region[at + 2];
        let field = |from: usize| u32::from_le_bytes(region[at + from..][..4].try_into().expect("4 bytes")) as usize;
        let (name_size, data_size) = (field(F::NAME_SIZE), field(F::DATA_SIZE));
        let size = if state == 0xFF { F::HEADER } else { (F::HEADER + name_size + data_size).next_multiple_of(4) };
        if state == 0x3F || state == 0x3E {
            let name = region[at + F::HEADER..][..name_size].to_vec();
            let key: (u8, Vec<u8>, Guid) = (state, name, region[at + F::VENDOR..][..16].try_into().expect("16 bytes"));
            let fits = any_record || region[at + 4] != RECORD as u8 || record_name(Key { name: &key.1, vendor: &key.2 });
            let named = varstore::paper::entry::well_formed(&key.1) && fits;
            if seen.contains(&key) || !named || data_size == 0 {
                region[at + 2] = 0x3C;
            } else {
                seen.push(key);
                live.push(at..at + size);
            }
        }
        at += size;
    }
    if !live.is_empty() && r.once_in(8) {
        let entry = live[r.below(live.len())].clone();
        if at + entry.len() <= region.len() {
            region.copy_within(entry, at);
        }
    }
    region
}

fn crafted_work(r: &mut Random) -> Vec<u8> {
    let mut work = vec![0xFF; BLOCK];
    let used = r.pick(&[0, 0, 1, 2, 5, 62, 63, 64]);
    for record in &mut work[..used] {
        *record = r.pick(&[0xF8, 0xF8, 0xFE]);
    }
    if used > 0 && r.once_in(2) {
        work[used - 1] = 0xFC;
    }
    work
}

/// An image whose three parts are made one by one; the spare is blank most often, or a region of its own, or the same region.
pub fn crafted<F: Layout>(r: &mut Random, blocks: usize) -> Vec<u8> {
    let region = if r.once_in(8) { crafted_region::<F>(r, blocks, false) } else { sound_region::<F>(r, blocks) };
    let work = if r.once_in(2) { vec![0xFF; BLOCK] } else { crafted_work(r) };
    let spare = match r.below(6) {
        0 => sound_region::<F>(r, blocks),
        1 => region.clone(),
        2 => r.bytes(BLOCK * blocks),
        _ => vec![0xFF; BLOCK * blocks],
    };
    [region, work, spare].concat()
}

/// Where the entries of the walk begin.
fn entry_places<F: Layout>(image: &[u8], length: usize) -> Vec<usize> {
    region::walk::<F>(&image[..length]).map(|entry| entry.at).collect()
}

/// Damages one place: header, an entry's field, the tail, the work block or the spare.
pub fn damage<F: Layout>(r: &mut Random, image: &mut [u8], blocks: usize) {
    let length = BLOCK * blocks;
    let base = if r.once_in(5) { length + BLOCK } else { 0 };
    let places = entry_places::<F>(&image[base..], length);
    let at = base + if places.is_empty() { 28 } else { r.pick(&places) };
    match r.below(12) {
        0 => image[base + r.below(28)] ^= 1 << r.below(8),
        1 => image[at + 2] = r.pick(&[0xFF, 0x7F, 0x3F, 0x3E, 0x3D, 0x3C, 0x00, 0xFE, 0x3B, 0xBF]),
        2 => image[at + 2] ^= 1 << r.below(8),
        3 => {
            let field = at + r.pick(&[F::NAME_SIZE, F::DATA_SIZE]);
            let old = u32::from_le_bytes(image[field..field + 4].try_into().expect("4 bytes"));
            let sizes =
                [0, 1, 2048, 2049, old ^ 1, old.wrapping_add(4), (length - F::HEADER) as u32, u32::MAX, u32::MAX - F::HEADER as u32 + 1, 1 << 31];
            image[field..field + 4].copy_from_slice(&r.pick(&sizes).to_le_bytes());
        }
        4 if r.once_in(2) => image[at + 4] = r.pick(&[RECORD as u8, RECORD as u8, 0x07, 0x0B, 0x2F]),
        4 => image[at + 4 + r.below(4)] = r.byte(),
        5 => image[(at + F::VENDOR + r.below(40)).min(base + length - 1)] ^= 1 << r.below(8),
        6 => image[at + r.below(2)] ^= 1 << r.below(8),
        7 => image[base + length - 1 - r.below(100)] = r.byte(),
        8 => image[length + r.below(64)] = r.pick(&[0xFF, 0xFE, 0xFC, 0xF8, 0xF0, 0x00]),
        9 => image[length + r.below(BLOCK)] ^= 1 << r.below(8),
        10 => image[length + BLOCK + r.below(length)] ^= 1 << r.below(8),
        _ => image[base + r.below(length)] = r.byte(),
    }
}

/// An image and its b.
pub fn image(r: &mut Random) -> (Vec<u8>, usize) {
    let blocks = blocks(r);
    let mut image = match r.below(6) {
        0 => empty(blocks),
        1 | 2 => filled(r, blocks),
        _ => crafted::<Authenticated>(r, blocks),
    };
    if r.once_in(3) {
        for _ in 0..1 + r.below(3) {
            damage::<Authenticated>(r, &mut image, blocks);
        }
    }
    (image, blocks)
}

/// An image in a form, fit for a move most often: work block and spare as they came, or idle and blank; time-based values or none; damaged or not.
pub fn image_of<F: Layout>(r: &mut Random) -> Vec<u8> {
    let blocks = blocks(r);
    let mut image = crafted::<F>(r, blocks);
    if !r.once_in(3) {
        image[BLOCK * blocks..].fill(0xFF);
        image[BLOCK * blocks..][..r.pick(&[0, 0, 1, 63, 64])].fill(0xF8);
    }
    if r.once_in(2) {
        for at in entry_places::<F>(&image, BLOCK * blocks) {
            image[at + 4] &= !0x20;
        }
    }
    if r.once_in(5) {
        damage::<F>(r, &mut image, blocks);
    }
    image
}

/// An image that a move from the plain form has left.
pub fn moved(r: &mut Random) -> Vec<u8> {
    loop {
        let source = image_of::<Plain>(r);
        let length = BLOCK * (2 * blocks(r) + 1);
        let mut target = r.bytes(length);
        if (PAPER.from_plain)(&source, &mut target) == Answer::Done(0) {
            return target;
        }
    }
}
