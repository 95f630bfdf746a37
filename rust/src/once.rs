//! 02 (g)'s yardstick: "a Rust program that checks once and walks for every name". It takes what the library's call takes and gives what that gives, and is written for
//! speed: names that are doubled are found by a table of offsets, and a name is compared by its last word first. It uses nothing of the engine.

use crate::engine::{Item, Told, KEY};
use crate::interface::{Answer, Context, Key, Rule, Session, NAMES};
use crate::paper::entry::{u32_at, well_formed, ADDED, DELETED, GONE, HEADER_VALID, MOST_DATA, REPLACED, RT, START_ID, STATE, STORABLE, UNFINISHED};
use crate::paper::image::{blank, Parts};
use crate::paper::layout::Authenticated;
use crate::paper::records::{is_record, record_name};
use crate::paper::region::{header, REGION_HEADER};
use crate::paper::session::is_runtime;
use crate::paper::tenants::Side;
use crate::paper::work;

/// An entry's header, and the offsets of its fields.
const HEADER: usize = 60;
const ATTRIBUTES: usize = 4;
const NAME_SIZE: usize = 36;
const DATA_SIZE: usize = 40;
const VENDOR: usize = 44;

/// Places of the table; a region of seven blocks has room for 447 live entries.
const PLACES: usize = 1024;

fn word_at(bytes: &[u8], at: usize) -> Option<u64> {
    bytes.get(at..)?.first_chunk().map(|word| u64::from_le_bytes(*word))
}

/// An entry: where it begins, and its header.
#[derive(Clone, Copy)]
struct Entry<'a> {
    at: usize,
    header: &'a [u8; HEADER],
}

impl Entry<'_> {
    fn read(region: &[u8], at: usize) -> Option<Entry<'_>> {
        let header = region.get(at..)?.first_chunk()?;
        (header[..2] == START_ID).then_some(Entry { at, header })
    }

    fn state(&self) -> u8 {
        self.header[STATE]
    }

    fn attributes(&self) -> u32 {
        u32_at(self.header, ATTRIBUTES)
    }

    fn name_size(&self) -> usize {
        u32_at(self.header, NAME_SIZE) as usize
    }

    fn data_size(&self) -> usize {
        u32_at(self.header, DATA_SIZE) as usize
    }

    /// An unfinished one is its header alone.
    fn end(&self) -> usize {
        match self.state() {
            UNFINISHED => self.at + HEADER,
            _ => self.at + ((HEADER + self.name_size() + self.data_size() + 3) & !3),
        }
    }

    /// GUID and name, and the data, of an entry that ends within the region.
    fn key<'a>(&self, region: &'a [u8]) -> &'a [u8] {
        &region[self.at + VENDOR..][..HEADER - VENDOR + self.name_size()]
    }

    fn data<'a>(&self, region: &'a [u8]) -> &'a [u8] {
        &region[self.at + HEADER + self.name_size()..][..self.data_size()]
    }
}

/// A place by the words of a key.
fn place(key: &[u8]) -> usize {
    let mixed = |hash: u64, word: &[u8; 8]| (hash.rotate_left(5) ^ u64::from_le_bytes(*word)).wrapping_mul(0x517C_C1B7_2722_0A95);
    let (words, _) = key.as_chunks();
    let last = key.last_chunk().expect("a GUID at least");
    (mixed(words.iter().fold(0, mixed), last) >> 54) as usize
}

/// Rules 1 and 2: the region, if a call may use the image.
fn checked(image: &[u8]) -> Result<&[u8], Rule> {
    let Parts { region, work, spare, .. } = Parts::of(image).ok_or(Rule::Length)?;
    let idle = work::read(work).is_some_and(|records| !records.ends_in_spare_complete);
    let ready = idle && blank(spare) && region[..REGION_HEADER] == header::<Authenticated>(region.len()) && is_clean(region);
    ready.then_some(region).ok_or(Rule::Unready)
}

/// Each entry is looked at once; a live one is compared with those before it of one place.
fn is_clean(region: &[u8]) -> bool {
    let (mut table, mut at) = ([0u16; PLACES], REGION_HEADER);
    while let Some(entry) = Entry::read(region, at) {
        let within = entry.state() == UNFINISHED || at + HEADER + entry.name_size() + entry.data_size() <= region.len();
        let fits = match entry.state() {
            ADDED | REPLACED => within && is_live(region, &entry) && is_new(&mut table, region, &entry),
            UNFINISHED | HEADER_VALID | DELETED | GONE => within,
            _ => false,
        };
        if !fits {
            return false;
        }
        at = entry.end();
    }
    blank(&region[at..])
}

fn is_live(region: &[u8], entry: &Entry) -> bool {
    let (vendor, name) = entry.key(region).split_first_chunk().expect("a GUID");
    let attributes = entry.attributes();
    let storable = STORABLE.contains(&attributes) && (!is_record(attributes) || record_name(Key { name, vendor }));
    storable && (1..=MOST_DATA).contains(&entry.data_size()) && well_formed(name)
}

/// Notes a live entry, unless it doubles one before.
fn is_new(table: &mut [u16; PLACES], region: &[u8], entry: &Entry) -> bool {
    let key = entry.key(region);
    let mut place = place(key);
    while table[place] != 0 {
        let other = Entry::read(region, table[place] as usize).expect("an entry that was noted");
        if other.state() == entry.state() && other.key(region) == key {
            return false;
        }
        place = (place + 1) % PLACES;
    }
    table[place] = entry.at as u16;
    true
}

/// A walk for one key of a region that was checked: its 3F entry, else its 3E. Keys of one length are compared by their last words first.
fn find<'a>(region: &'a [u8], key: &[u8]) -> Option<Entry<'a>> {
    let (mut at, mut replaced) = (REGION_HEADER, None);
    let (size, last) = (key.len() - 16, word_at(key, key.len() - 8));
    while let Some(entry) = Entry::read(region, at) {
        if entry.name_size() == size && word_at(region, at + HEADER + size - 8) == last && entry.state() != UNFINISHED && entry.key(region) == key {
            match entry.state() {
                ADDED => return Some(entry),
                REPLACED => replaced = Some(entry),
                _ => {}
            }
        }
        at = entry.end();
    }
    replaced
}

/// What is in a place, if it is wholly there: GUID and name.
fn key_at(keys: &[u8], index: usize, size: u32) -> Option<&[u8]> {
    let size = Some(size as usize).filter(|size| (16..=KEY).contains(size))?;
    keys.get(index * KEY..)?.get(..size)
}

fn value<'a>(side: Side, session: &Session, region: &'a [u8], key: Option<&[u8]>) -> Result<Entry<'a>, Rule> {
    let key = key.filter(|key| well_formed(&key[16..])).ok_or(Rule::Name)?;
    let (vendor, name) = key.split_first_chunk().expect("a GUID");
    if Side::owning(&session.setup, Key { name, vendor }) != side {
        return Err(Rule::Tenant);
    }
    find(region, key).filter(|entry| !is_runtime(session) || entry.attributes() & RT != 0).ok_or(Rule::Absent)
}

pub fn get_placed(context: Context, session: &Session, image: &[u8], keys: &[u8], sizes: &[u32], told: &mut Told, buffer: &mut [u8]) -> Answer {
    let region = match checked(image) {
        Ok(_) if sizes.len() > NAMES => return Answer::Refused(Rule::Name),
        Ok(region) => region,
        Err(rule) => return Answer::Refused(rule),
    };
    let (side, mut used) = (Side::of(context.side), 0);
    for (index, (size, item)) in sizes.iter().zip(told).enumerate() {
        let refused = |rule: Rule, needed| Item { rule: rule.number(), size: 0, attributes: 0, needed };
        *item = match value(side, session, region, key_at(keys, index, *size)) {
            Err(rule) => refused(rule, 0),
            Ok(entry) => {
                let data = entry.data(region);
                match buffer[used..].get_mut(..data.len()) {
                    None => refused(Rule::Buffer, data.len() as u32),
                    Some(front) => {
                        front.copy_from_slice(data);
                        used += data.len();
                        Item { rule: 0, size: data.len() as u32, attributes: entry.attributes(), needed: 0 }
                    }
                }
            }
        };
    }
    Answer::Done(0)
}
