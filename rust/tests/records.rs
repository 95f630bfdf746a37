//! 02 (a): hardware error records. Which names and attributes make one (17, and what is sound); how their sizes and those of the other values are counted against
//! H and L (18 and 13); what deletes and sets that store nothing are spared. Sizes are worked out by hand, and every case is tried on both implementations.

mod common;

use common::book::Book;
use common::station::{with_space, Station};
use common::tenants::is_refused;
use common::{A, B, NEW, OLD, RATE, RECORD, RECORDS, VENDOR};
use varstore::calls::{Calls, BOTH, ENGINE};
use varstore::interface::{Answer, Context, Guid, Key, Request, Rule, Setup, AFTER_END_OF_DXE, OURS, RUNTIME};
use varstore::paper::entry::{self, Contents};
use varstore::paper::layout::{Authenticated, Layout, Plain};
use varstore::paper::{region, request};

const BLOCK: usize = 4096;
/// Where the first entry's state stands.
const STATE: usize = 28 + 2;

const fn refused(rule: Rule) -> Answer {
    Answer::Refused(rule)
}

/// An entry of a record has 60 + 26 bytes beside its data: with one byte or two it is 88 bytes, rounded. RATE's with four is 76; A's and B's have 64 beside theirs.
const SMALLEST: u32 = 88;

impl Station {
    /// A record under the name of a number.
    fn record(&mut self, number: u32, data: &[u8]) -> Answer {
        self.set(numbered(number).key(), 0x0F, data)
    }
}

/// A name and its GUID, owned.
#[derive(Clone)]
struct Named(Vec<u8>, Guid);

impl Named {
    fn key(&self) -> Key<'_> {
        Key { name: &self.0, vendor: &self.1 }
    }
}

fn spelt(characters: &[u16]) -> Vec<u8> {
    characters.iter().chain(&[0]).flat_map(|character| character.to_le_bytes()).collect()
}

/// A text under the records' GUID.
fn named(text: &str) -> Named {
    Named(spelt(&text.encode_utf16().collect::<Vec<_>>()), RECORDS)
}

fn numbered(number: u32) -> Named {
    named(&format!("HwErrRec{number:04X}"))
}

/// A record may stand under the name, and nothing else.
fn is_form(station: &Station, name: &Named) {
    let key = name.key();
    assert_eq!(station.would_store(key, 0x0F, &[1]), Ok(()), "a record under {key:X?}");
    assert_eq!(station.would_store(key, 0x4F, &[1]), Ok(()), "a record appended under {key:X?}");
    for attributes in [0x03, 0x07, 0x43, 0x47] {
        assert_eq!(station.would_store(key, attributes, &[1]), Err(Rule::Record), "{attributes:#X} under {key:X?}");
    }
}

/// No record may stand under the name, and anything else may.
fn is_no_form(station: &Station, name: &Named) {
    let key = name.key();
    assert_eq!(station.would_store(key, 0x07, &[1]), Ok(()), "a value under {key:X?}");
    for attributes in [0x0F, 0x4F] {
        assert_eq!(station.would_store(key, attributes, &[1]), Err(Rule::Record), "{attributes:#X} under {key:X?}");
    }
}

#[test]
fn the_name_here_is_the_first_record() {
    assert_eq!(numbered(1).key(), RECORD);
    assert_eq!(RECORD.name.len(), 26);
}

/// "the name HwErrRec and four digits 0 to F in upper case": of all characters of one byte, and of those with a high byte, at each place.
#[test]
fn digits() {
    with_space(500, |station| {
        for place in 0..4 {
            for character in (1..0x100).chain([0x130, 0x141, 0x3000, 0x3030, 0xFF10, 0xFF21, 0x4100]) {
                let mut characters: Vec<u16> = "HwErrRec0AF9".encode_utf16().collect();
                characters[8 + place] = character;
                let name = Named(spelt(&characters), RECORDS);
                match char::from_u32(character.into()) {
                    Some('0'..='9' | 'A'..='F') => is_form(&station, &name),
                    _ => is_no_form(&station, &name),
                }
            }
        }
        for text in ["HwErrRec0000", "HwErrRec9999", "HwErrRecABCD", "HwErrRecFFFF"] {
            is_form(&station, &named(text));
        }
        for text in ["HwErrRec00ab", "HwErrRec000a", "HwErrRecabcd", "HwErrReca000", "HwErrRec000f", "HwErrRec000G", "HwErrRecG000", "HwErrRec 001"] {
            is_no_form(&station, &named(text));
        }
    });
}

/// One bit off at each place of "HwErrRec", and characters less or more.
#[test]
fn names_one_character_off() {
    with_space(500, |station| {
        let right: Vec<u16> = "HwErrRec0001".encode_utf16().collect();
        for (place, bit) in (0..8).flat_map(|place| (0..16).map(move |bit| (place, bit))) {
            let mut characters = right.clone();
            characters[place] ^= 1 << bit;
            is_no_form(&station, &Named(spelt(&characters), RECORDS));
        }
        for place in 0..right.len() {
            let (mut less, mut more) = (right.clone(), right.clone());
            less.remove(place);
            more.insert(place, right[place]);
            [less, more].iter().for_each(|characters| is_no_form(&station, &Named(spelt(characters), RECORDS)));
        }
        for text in
            ["HwErrRec", "HwErrRec0", "HwErrRec001", "HwErrRec00001", "HWERRREC0001", "hwerrrec0001", "HwErrRec00010001", "0001", "0001HwErrRec"]
        {
            is_no_form(&station, &named(text));
        }
        // a zero before the end is no name
        let ill = Named(spelt(&[&right[..], &[0, 1]].concat()), RECORDS);
        assert_eq!(station.would_store(ill.key(), 0x0F, &[1]), Err(Rule::Name));
    });
}

/// "under GUID .. only": each bit of the GUID; and other names under it are as any.
#[test]
fn vendors() {
    with_space(500, |mut station| {
        for bit in 0..128 {
            let mut vendor = RECORDS;
            vendor[bit / 8] ^= 1 << (bit % 8);
            is_no_form(&station, &Named(RECORD.name.to_vec(), vendor));
        }
        is_no_form(&station, &Named(RECORD.name.to_vec(), VENDOR));
        is_no_form(&station, &Named(RATE.name.to_vec(), RECORDS));
        is_no_form(&station, &Named(RATE.name.to_vec(), VENDOR));
        // one name under two GUIDs: a record, and another value
        assert_eq!(station.set(RECORD, 0x0F, OLD), Answer::Done(91));
        assert_eq!(station.set(Key { vendor: &VENDOR, ..RECORD }, 0x07, NEW), Answer::Done(91));
        assert_eq!(Book::of(&station.image).values.iter().map(|value| value.attributes).collect::<Vec<_>>(), [0x0F, 0x07]);
    });
}

/// What a set answers on an empty store: "Attribute 0x0F becomes legal in rule 4", and so 0x4F; 17 is tried after it.
fn of_attributes(attributes: u32, is_record_name: bool, at_runtime: bool) -> Result<(), Rule> {
    let without_append = attributes & !0x40;
    match without_append {
        0 if attributes == 0 => Err(Rule::Absent),
        0x03 | 0x23 if at_runtime => Err(Rule::Attributes),
        0x0F if is_record_name => Ok(()),
        0x0F => Err(Rule::Record),
        0x03 | 0x07 | 0x23 | 0x27 if is_record_name => Err(Rule::Record),
        0x03 | 0x07 => Ok(()),
        0x23 | 0x27 => Err(Rule::Descriptor),
        _ => Err(Rule::Attributes),
    }
}

#[test]
fn attributes() {
    with_space(500, |station| {
        for (station, at_runtime) in [(station.clone(), false), (station.at_runtime(0), true)] {
            for attributes in (0..0x200).chain((8..32).map(|bit| 1 << bit | 0x0F)).chain([u32::MAX]) {
                for (key, is_record_name) in [(RECORD, true), (RATE, false), (Key { vendor: &VENDOR, ..RECORD }, false)] {
                    let expected = of_attributes(attributes, is_record_name, at_runtime);
                    assert_eq!(station.would_store(key, attributes, OLD), expected, "{attributes:#X} under {key:X?}, at runtime: {at_runtime}");
                }
            }
        }
    });
}

/// "17 .. after 5", and before 6 and all that follows; 1, 2 and 3 come first.
#[test]
fn place_of_17() {
    with_space(500, |mut station| {
        let short: &mut [u8] = &mut vec![0xFF; 3 * BLOCK - 1];
        let request = Request { key: RATE, attributes: 0x0F, data: OLD, presence: 0, verdict: 0 };
        assert_eq!((station.calls.set)(Context::NO_LIMIT, &station.session, short, &request), refused(Rule::Length));
        assert_eq!((station.calls.set)(Context::NO_LIMIT, &station.session, &mut [0xFF; 3 * BLOCK], &request), refused(Rule::Unready));
        assert_eq!(station.set(Key { name: &[0, 0], ..RATE }, 0x0F, OLD), refused(Rule::Name));
        for key in [request::PK, request::KEK, request::DB, request::DBX, request::DBT] {
            assert_eq!(station.set(key, 0x0F, OLD), refused(Rule::KeyAttributes));
            assert_eq!(station.set(key, 0x4F, OLD), refused(Rule::KeyAttributes));
        }
        // both names are locked, and hold values
        assert_eq!((station.record(1, OLD), station.set(RATE, 0x07, OLD)), (Answer::Done(91), Answer::Done(75)));
        for key in [RECORD, RATE] {
            assert_eq!(station.lock(key), Answer::Done(0));
        }
        station.session = (station.calls.phase)(station.session, AFTER_END_OF_DXE);
        assert_eq!(station.set(RECORD, 0x0F, NEW), refused(Rule::Locked));
        assert_eq!(station.set(RECORD, 0x07, NEW), refused(Rule::Record));
        assert_eq!(station.set(RATE, 0x0F, NEW), refused(Rule::Record));
        assert_eq!(station.set(RATE, 0x07, NEW), refused(Rule::Locked));
        assert_eq!(station.delete(RECORD), refused(Rule::Locked));
        // before 7, 8, 11 and 12
        assert_eq!(station.set(RECORD, 0x27, NEW), refused(Rule::Record));
        assert_eq!(station.set(numbered(2).key(), 0x27, NEW), refused(Rule::Record));
        assert_eq!(station.set(numbered(2).key(), 0x07, &[]), refused(Rule::Record));
        assert_eq!(station.set(B, 0x0F, &[]), refused(Rule::Record));
        assert_eq!(station.set(B, 0x0F, &[1; 2049]), refused(Rule::Record));
    });
}

/// 17 looks at the call's attributes: not where they are 0; also where nothing would change.
#[test]
fn seventeen_without_a_change() {
    with_space(500, |mut station| {
        assert_eq!(station.delete(RECORD), refused(Rule::Absent));
        assert_eq!(station.set(RECORD, 0x0F, &[]), refused(Rule::Absent));
        assert_eq!(station.set(RECORD, 0x4F, &[]), Answer::Done(0));
        for attributes in [0x03, 0x07, 0x47] {
            assert_eq!(station.set(RECORD, attributes, &[]), refused(Rule::Record));
            assert_eq!(
                station.set(Key { vendor: &VENDOR, ..RECORD }, attributes | 0x08, &[]),
                refused(if attributes == 0x03 { Rule::Attributes } else { Rule::Record })
            );
        }
        assert_eq!(station.record(1, OLD), Answer::Done(91));
        assert_eq!(station.set(RECORD, 0x07, OLD), refused(Rule::Record));
        assert_eq!(station.set(RECORD, 0x07, &[]), refused(Rule::Record));
        assert_eq!(station.set(RECORD, 0x47, &[]), refused(Rule::Record));
        assert_eq!(station.set(RECORD, 0x0F, &[]), Answer::Done(1));
        assert_eq!(station.record(1, OLD), Answer::Done(91));
        assert_eq!(station.delete(RECORD), Answer::Done(1));
    });
}

/// "their rounded sizes exceed H": up to H exactly, and one rounded entry or one byte more.
#[test]
fn records_up_to_their_space() {
    for (space, fits) in [(0, 0), (1, 0), (87, 0), (88, 1), (89, 1), (175, 1), (176, 2), (177, 2), (880, 10), (967, 10), (968, 11)] {
        with_space(space, |mut station| {
            for number in 0..fits {
                assert_eq!(station.record(number, &[1]), Answer::Done(88), "record {number} of {space} bytes");
            }
            assert_eq!(station.record(fits, &[1]), refused(Rule::RecordRoom), "record {fits} of {space} bytes");
            // there is room for other values
            assert_eq!(station.set(RATE, 0x07, OLD), Answer::Done(75));
        });
    }
    // rounded: 60 + 26 + 1 and + 2 are 88, + 3 to + 6 are 92
    for (space, longest) in [(87, 0), (88, 2), (91, 2), (92, 6), (95, 6), (96, 10), (2135, 2046), (2136, 2048)] {
        with_space(space, |station| {
            for length in 1..longest + 3 {
                let expected = match length {
                    _ if length <= longest => Ok(()),
                    2049.. => Err(Rule::DataSize),
                    _ => Err(Rule::RecordRoom),
                };
                assert_eq!(station.would_store(RECORD, 0x0F, &vec![7; length]), expected, "{length} bytes with {space}");
                assert_eq!(station.would_store(RECORD, 0x4F, &vec![7; length]), expected, "{length} bytes appended with {space}");
            }
        });
    }
}

/// A record that is replaced counts as it would stand, its old entry does not; deleted ones do not count.
#[test]
fn records_replaced_at_their_space() {
    with_space(2 * SMALLEST, |mut station| {
        assert_eq!((station.record(1, &[1]), station.record(2, &[1])), (Answer::Done(88), Answer::Done(88)));
        assert_eq!(station.record(1, &[2, 2]), Answer::Done(91));
        assert_eq!(station.record(1, &[3; 3]), refused(Rule::RecordRoom));
        assert_eq!(station.set(RECORD, 0x4F, &[3]), refused(Rule::RecordRoom));
        assert_eq!(station.set(numbered(2).key(), 0x4F, &[3]), Answer::Done(91));
        assert_eq!(station.record(3, &[1]), refused(Rule::RecordRoom));
        assert_eq!(station.delete(RECORD), Answer::Done(1));
        assert_eq!(station.record(3, &[1]), Answer::Done(88));
        assert_eq!(station.record(1, &[1]), refused(Rule::RecordRoom));
        let stands: Vec<_> = Book::of(&station.image).values.into_iter().map(|value| (value.name.name, value.data)).collect();
        assert_eq!(stands, [(numbered(2).0, vec![1, 3]), (numbered(3).0, vec![1])]);
    });
}

/// A stopped set has left a record in state 3E, which is its value: it counts, and is replaced.
#[test]
fn a_record_being_replaced() {
    with_space(SMALLEST, |mut station| {
        assert_eq!(station.record(1, &[1]), Answer::Done(88));
        assert_eq!(station.set_in(Context::with(1), RECORD, 0x0F, &[2]), Answer::Stopped);
        assert_eq!(station.image[STATE], 0x3E);
        assert_eq!(station.record(2, &[1]), refused(Rule::RecordRoom));
        assert_eq!(station.with_h(0).record(1, &[1]), Answer::Done(0));
        assert_eq!(station.with_h(0).delete(RECORD), Answer::Done(1));
        assert_eq!(station.record(1, &[3, 3]), Answer::Done(90));
        assert_eq!(station.record(1, &[3; 3]), refused(Rule::RecordRoom));
    });
}

/// Two records of 1,000 bytes stand, 1,088 each, and H is lowered: "18 .. with its exemptions".
#[test]
fn space_lowered() {
    with_space(2176, |mut station| {
        assert_eq!((station.record(1, &[1; 1000]), station.record(2, &[2; 1000])), (Answer::Done(1087), Answer::Done(1087)));
        for space in [0, 1500, 2175] {
            let lowered = station.with_h(space);
            // an equal set, an empty append and a delete never meet it
            assert_eq!(lowered.clone().record(1, &[1; 1000]), Answer::Done(0));
            assert_eq!(lowered.clone().set(RECORD, 0x4F, &[]), Answer::Done(0));
            assert_eq!(lowered.clone().delete(RECORD), Answer::Done(1));
            assert_eq!(lowered.clone().set(RECORD, 0x0F, &[]), Answer::Done(1));
            // a set of another value does not ask for it
            assert_eq!(lowered.clone().set(RATE, 0x07, OLD), Answer::Done(75));
            assert_eq!(lowered.clone().record(1, &[3; 1000]), refused(Rule::RecordRoom));
            assert_eq!(lowered.clone().record(3, &[1]), refused(Rule::RecordRoom));
        }
        // the shorter one may still be too long: 1,088 and 60 + 26 + 326
        let lowered = station.with_h(1500);
        assert_eq!(lowered.would_store(RECORD, 0x0F, &[3; 327]), Err(Rule::RecordRoom));
        assert_eq!(lowered.would_store(RECORD, 0x0F, &[3; 326]), Ok(()));
        assert_eq!(station.with_h(1175).would_store(RECORD, 0x0F, &[3]), Err(Rule::RecordRoom));
        assert_eq!(station.with_h(1176).would_store(RECORD, 0x0F, &[3]), Ok(()));
        // deletes make room
        let mut emptied = station.with_h(0);
        assert_eq!((emptied.delete(RECORD), emptied.delete(numbered(2).key())), (Answer::Done(1), Answer::Done(1)));
        assert_eq!(emptied.record(1, &[1]), refused(Rule::RecordRoom));
    });
}

/// 02 (f): "a side's sum without error records .. against its share", whether records stand or not: H = 1,000 leaves 3,068 bytes of L for ours.
#[test]
fn other_values_beside_the_records_space() {
    with_space(1000, |mut empty| {
        assert_eq!(empty.would_store(A, 0x07, &[1; 2048]), Ok(()));
        let mut full = empty.clone();
        assert_eq!(full.record(1, &[1; 914]), Answer::Done(1001));
        for station in [&mut empty, &mut full] {
            // 64 + 1,500, and 64 + 1,440
            assert_eq!(station.set(A, 0x07, &[1; 1500]), Answer::Done(1565));
            assert_eq!(station.would_store(B, 0x07, &[2; 1441]), Err(Rule::Room));
            assert_eq!(station.would_store(B, 0x07, &[2; 1440]), Ok(()));
            // one byte of H more
            assert_eq!(station.with_h(1001).would_store(B, 0x07, &[2; 1440]), Err(Rule::Room));
            assert_eq!(station.set(B, 0x07, &[2; 1440]), Answer::Done(1505));
            assert_eq!(station.set(RATE, 0x07, OLD), refused(Rule::Room));
            // the same length again, also where the tail has no room for it
            assert!(matches!(station.set(A, 0x07, &[3; 1500]), Answer::Done(1..)));
            assert_eq!(station.set(A, 0x07, &[3; 1501]), refused(Rule::Room));
            assert_eq!(station.set(A, 0x47, &[3]), refused(Rule::Room));
        }
        // the records' bytes are theirs still, and the rest of the region
        assert_eq!(empty.record(1, &[1; 914]), Answer::Done(1001));
        assert_eq!(empty.record(2, &[1]), refused(Rule::RecordRoom));
    });
}

/// Nothing caps H: it may be above L, and then leaves no share for other values. A record is set as far as all values fit. No sum wraps.
#[test]
fn space_above_the_region() {
    // RATE's entry is 76 bytes
    with_space(4096 - 28 - 76, |station| assert_eq!(station.would_store(RATE, 0x07, OLD), Ok(())));
    with_space(0, |mut before| {
        assert_eq!(before.set(RATE, 0x07, OLD), Answer::Done(75));
        assert_eq!(before.with_h(4096 - 28 - 76).would_store(RATE, 0x07, NEW), Ok(()));
        for space in
            [4096 - 28 - 75, 4068, 4069, 4096, 4097, 70_000, 0x8000_0000, u32::MAX - 4096, u32::MAX - 4095, u32::MAX - 104, u32::MAX - 27, u32::MAX]
        {
            let mut station = before.with_h(space);
            assert_eq!(station.would_store(A, 0x07, &[1]), Err(Rule::Room), "H = {space}");
            assert_eq!(station.would_store(RATE, 0x07, NEW), Err(Rule::Room), "H = {space}");
            assert_eq!(station.would_store(RATE, 0x47, NEW), Err(Rule::Room), "H = {space}");
            assert_eq!(station.at_runtime(u32::MAX).would_store(RATE, 0x07, NEW), Err(Rule::Room), "H = {space}");
            // what stores nothing, and a delete, never meet 13
            assert_eq!(station.set(RATE, 0x07, OLD), Answer::Done(0));
            assert_eq!(station.set(RATE, 0x47, &[]), Answer::Done(0));
            assert_eq!(station.clone().delete(RATE), Answer::Done(1));
            // 28 + 76 + 2,136 + 1,856
            assert_eq!(station.record(1, &[1; 2048]), Answer::Done(2135));
            assert_eq!(station.record(2, &[1; 1771]), refused(if space < 2136 + 1860 { Rule::RecordRoom } else { Rule::Room }));
            assert_eq!(station.record(2, &[1; 1770]), Answer::Done(1857));
            assert_eq!(station.record(3, &[1]), refused(if space < 3992 + SMALLEST { Rule::RecordRoom } else { Rule::Room }));
            assert_eq!(station.record(3, &[1; 2048]), refused(if space < 3992 + 2136 { Rule::RecordRoom } else { Rule::Room }));
        }
    });
}

/// "every set, if 28 and all values do": records stand beyond an H that was lowered, and the other values have what is left.
#[test]
fn all_values_count() {
    with_space(2136, |mut station| {
        assert_eq!(station.record(1, &[1; 2048]), Answer::Done(2135));
        station = station.with_h(0);
        // 28 + 2,136 + 64 + 1,868
        assert_eq!(station.would_store(A, 0x07, &[2; 1869]), Err(Rule::Room));
        assert_eq!(station.set(A, 0x07, &[2; 1868]), Answer::Done(1933));
        assert_eq!(station.set(B, 0x07, &[1]), refused(Rule::Room));
        // the region is exactly full: the old value makes room for the new one
        assert_eq!(station.set(A, 0x07, &[3; 1868]), Answer::Done(8197));
        assert_eq!(station.set(A, 0x07, &[3; 1869]), refused(Rule::Room));
        assert_eq!(station.delete(RECORD), Answer::Done(1));
        assert_eq!(station.set(B, 0x07, &[1; 2048]), Answer::Done(8197));
    });
}

/// "18 .. before 13", and after 12.
#[test]
fn eighteen_before_thirteen() {
    with_space(100, |mut station| {
        assert_eq!(station.set(A, 0x07, &[1; 2048]), Answer::Done(2113));
        assert_eq!(station.set(B, 0x07, &[1; 1728]), Answer::Done(1793));
        // 28 + 2,112 + 1,792 + 164 are L: a record of 78 bytes fills it, and one of 79 exceeds it
        for (data, space, expected) in [
            (78, 163, Err(Rule::RecordRoom)),
            (78, 164, Ok(())),
            (79, 167, Err(Rule::RecordRoom)),
            (79, 168, Err(Rule::Room)),
            (79, u32::MAX, Err(Rule::Room)),
            (2048, 2135, Err(Rule::RecordRoom)),
            (2048, 2136, Err(Rule::Room)),
            (2049, 0, Err(Rule::DataSize)),
            (2049, u32::MAX, Err(Rule::DataSize)),
        ] {
            let given = station.with_h(space);
            assert_eq!(given.would_store(RECORD, 0x0F, &vec![7; data]), expected, "{data} bytes, H = {space}");
            assert_eq!(given.would_store(RECORD, 0x4F, &vec![7; data]), expected, "{data} bytes appended, H = {space}");
        }
        // 12 of an append counts what stands
        let mut appended = station.with_h(164);
        assert_eq!(appended.record(1, &[7; 78]), Answer::Done(165));
        assert_eq!(appended.set(RECORD, 0x4F, &[7; 1971]), refused(Rule::DataSize));
        assert_eq!(appended.set(RECORD, 0x4F, &[7; 1970]), refused(Rule::RecordRoom));
        assert_eq!(appended.with_h(u32::MAX).set(RECORD, 0x4F, &[7; 1970]), refused(Rule::Room));
    });
}

/// R counts at runtime, for values that are no records.
#[test]
fn reserve() {
    with_space(500, |mut station| {
        assert_eq!(station.set(A, 0x07, &[1; 2048]), Answer::Done(2113));
        // 28 + 2,112 + 500 + 100 leave 1,356: 64 + 1,292
        let (boot, runtime) = (station.clone(), station.at_runtime(100));
        assert_eq!(runtime.would_store(B, 0x07, &[1; 1292]), Ok(()));
        assert_eq!(runtime.would_store(B, 0x07, &[1; 1293]), Err(Rule::Room));
        assert_eq!(boot.would_store(B, 0x07, &[1; 1392]), Ok(()));
        assert_eq!(boot.would_store(B, 0x07, &[1; 1393]), Err(Rule::Room));
        // with R = 4,096 and more no other value is set, and a record is up to H
        for reserve in [4096, 4097, u32::MAX] {
            let runtime = station.at_runtime(reserve);
            assert_eq!(runtime.would_store(RATE, 0x07, OLD), Err(Rule::Room));
            assert_eq!(runtime.would_store(A, 0x07, &[2]), Err(Rule::Room));
            assert_eq!(runtime.would_store(RECORD, 0x0F, &[1; 414]), Ok(()));
            assert_eq!(runtime.would_store(RECORD, 0x0F, &[1; 415]), Err(Rule::RecordRoom));
        }
        // nor is R left free by a record that fills the region: 28 + 2,112 + 1,956
        let mut full = station.with_h(1956).at_runtime(4096);
        assert_eq!(full.would_store(RECORD, 0x0F, &[1; 1871]), Err(Rule::RecordRoom));
        assert_eq!(full.record(1, &[1; 1870]), Answer::Done(1957));
        assert_eq!(full.record(1, &[2; 1870]), Answer::Done(8197));
    });
}

/// A record has runtime access: get, next-name and a set see it in every phase.
#[test]
fn records_at_runtime() {
    with_space(500, |mut station| {
        assert_eq!(station.set(RATE, 0x03, OLD), Answer::Done(75));
        station = station.at_runtime(4096);
        assert_eq!(station.record(1, OLD), Answer::Done(91));
        let mut buffer = [0; 144];
        let got = (station.calls.get)(Context::NO_LIMIT, &station.session, &station.image, RECORD, &mut buffer);
        assert_eq!((got.answer, got.attributes, &buffer[..got.size as usize]), (Answer::Done(0), 0x0F, OLD));
        let first =
            (station.calls.next_name)(Context::NO_LIMIT, &station.session, &station.image, Key { name: &[0, 0], vendor: &VENDOR }, &mut buffer);
        assert_eq!((first.answer, &buffer[..first.size as usize]), (Answer::Done(0), &[&RECORDS[..], RECORD.name].concat()[..]));
        assert_eq!(station.record(1, NEW), Answer::Done(93));
        assert_eq!(station.delete(RECORD), Answer::Done(1));
    });
}

/// An image of b = 1 in a form, whose region has one entry; work block and spare are blank.
fn with_entry<F: Layout>(key: Key, attributes: u32, state: u8) -> Vec<u8> {
    let mut image = region::header::<F>(BLOCK).to_vec();
    entry::write::<F>(&mut image, key, &Contents { attributes, stamp: &[0; 16], old: OLD, new: &[] });
    image[STATE] = state;
    image.resize(3 * BLOCK, 0xFF);
    image
}

/// "legal .. in a sound region under GUID .. only, with the name": an entry's state, attributes and name, and whether a call may use the region.
#[test]
fn sound_regions() {
    let wrong = ["HwErrRec000a", "HwErrRec000G", "HwErrRec:000", "HwErrRec001", "HwErrRec00001", "hwErrRec0001"].map(named);
    let keys = [RECORD, RATE, Key { vendor: &VENDOR, ..RECORD }, Key { vendor: &RECORDS, ..RATE }, request::PK];
    for key in keys.into_iter().chain(wrong.iter().map(Named::key)) {
        for attributes in [0x03, 0x07, 0x23, 0x27, 0x0F, 0, 0x08, 0x09, 0x0B, 0x0D, 0x0E, 0x1F, 0x2B, 0x2F, 0x4F, 0x8F, 0x10F, 0x0F00_000F] {
            let storable = [0x03, 0x07, 0x23, 0x27].contains(&attributes) || (attributes == 0x0F && key == RECORD);
            for state in [0x3F, 0x3E, 0x3D, 0x3C, 0x7F, 0xFF] {
                let sound = storable || (state != 0x3F && state != 0x3E);
                for calls in BOTH {
                    println!("{}: {state:X} with {attributes:#X} under {key:X?}", calls.who);
                    check_entry(&calls, key, attributes, state, sound);
                }
            }
        }
    }
}

/// One entry in the region, in a spare that was to be copied, and in the plain form.
fn check_entry(calls: &Calls, key: Key, attributes: u32, state: u8, sound: bool) {
    // of an unfinished entry the walk sees the header alone, and its name stands in the tail
    let clean = sound && state != 0xFF;
    let image = with_entry::<Authenticated>(key, attributes, state);
    assert_eq!((calls.check)(&image).answer, if clean { Answer::Done(0) } else { refused(Rule::Unready) });
    let expected = match (sound, clean) {
        (_, true) => Answer::Done(0),
        (true, false) => Answer::Done(8197),
        (false, false) => refused(Rule::Unready),
    };
    let given = Setup::PLAIN.with_records(500);
    assert_eq!((calls.start_up)(Context::NO_LIMIT, &mut image.clone(), &given).answer, expected);
    // a clean spare is copied; else it is erased, and the work block too
    let rate = with_entry::<Authenticated>(RATE, 0x07, 0x3F);
    let mut pending = rate.clone();
    pending[BLOCK] = 0xFC;
    pending[2 * BLOCK..].copy_from_slice(&image[..BLOCK]);
    let resumed = (calls.start_up)(Context::NO_LIMIT, &mut pending, &given).answer;
    assert_eq!(resumed, Answer::Done(if clean { 4096 + 3 } else { 2 }), "from the spare");
    assert!(pending[..BLOCK] == if clean { image } else { rate }[..BLOCK], "the region after the start-up");
    let moved = (calls.from_plain)(&with_entry::<Plain>(key, attributes, state), &mut [0; 3 * BLOCK]);
    assert_eq!(moved, if clean { Answer::Done(0) } else { refused(Rule::Source) }, "from the plain form");
}

/// An entry of another writer under a record's name, with a record's attributes as 3E and others as 3F: the value is the 3F one, and no record.
#[test]
fn a_leftover_of_a_record() {
    let mut image = with_entry::<Authenticated>(RECORD, 0x0F, 0x3E);
    let foreign = with_entry::<Authenticated>(RECORD, 0x07, 0x3F);
    image[120..212].copy_from_slice(&foreign[28..120]);
    for calls in BOTH {
        let mut station = Station::new(calls, &Setup::PLAIN.with_records(500), image.clone());
        assert_eq!((calls.check)(&station.image).answer, Answer::Done(0));
        assert_eq!(station.record(1, NEW), refused(Rule::Standing));
        assert_eq!(station.with_h(SMALLEST).record(2, &[1]), Answer::Done(88), "only the new one is a record");
        assert_eq!(station.delete(RECORD), Answer::Done(2));
        assert_eq!(station.record(1, NEW), Answer::Done(91));
    }
}

/// A value of another writer under a record's name is sound, and no record: set with its own attributes it meets 17, with 0x0F 7, and attributes 0 delete it. It counts
/// among the other values.
#[test]
fn foreign_values() {
    for attributes in [0x03, 0x07, 0x23, 0x27] {
        let image = with_entry::<Authenticated>(RECORD, attributes, 0x3F);
        for calls in BOTH {
            let mut station = Station::new(calls, &Setup::PLAIN.with_records(500), image.clone());
            assert_eq!((calls.check)(&station.image).answer, Answer::Done(0), "{}: {attributes:#X}", calls.who);
            for data in [OLD, NEW, &[]] {
                assert_eq!(station.set(RECORD, attributes, data), refused(Rule::Record), "{}: {attributes:#X}", calls.who);
                assert_eq!(station.set(RECORD, attributes | 0x40, data), refused(Rule::Record), "{}: {attributes:#X}", calls.who);
                assert_eq!(station.set(RECORD, 0x0F, data), refused(Rule::Standing), "{}: {attributes:#X}", calls.who);
                assert_eq!(station.set(RECORD, 0x4F, data), refused(Rule::Standing), "{}: {attributes:#X}", calls.who);
            }
            // H has room for one record of 88 bytes, whatever the value of 92 is
            assert_eq!(station.with_h(SMALLEST).record(2, &[1]), Answer::Done(88));
            // 28 + 92 + 76 + 3,900
            assert_eq!(station.with_h(3900).would_store(RATE, 0x07, OLD), Ok(()));
            assert_eq!(station.with_h(3901).would_store(RATE, 0x07, OLD), Err(Rule::Room));
            let deleted = if attributes & 0x20 != 0 { refused(Rule::Standing) } else { Answer::Done(1) };
            assert_eq!(station.delete(RECORD), deleted, "{}: {attributes:#X}", calls.who);
            if deleted == Answer::Done(1) {
                assert_eq!(station.record(1, OLD), Answer::Done(91));
            }
        }
    }
}

/// A record in both forms: it is moved out and home as it is, with no session and no H; so is another value under its name.
#[test]
fn moves() {
    for (attributes, state) in [(0x0F, 0x3F), (0x0F, 0x3E), (0x07, 0x3F), (0x03, 0x3E)] {
        let (plain, new) = (with_entry::<Plain>(RECORD, attributes, state), with_entry::<Authenticated>(RECORD, attributes, state));
        for calls in BOTH {
            let (mut there, mut back) = (vec![0; 3 * BLOCK], vec![0; 5 * BLOCK]);
            assert_eq!((calls.from_plain)(&plain, &mut there), Answer::Done(0), "{}", calls.who);
            assert!(there == with_entry::<Authenticated>(RECORD, attributes, 0x3F), "{}: to the new form", calls.who);
            assert_eq!((calls.to_plain)(&new, &mut there), Answer::Done(0), "{}", calls.who);
            assert!(there == with_entry::<Plain>(RECORD, attributes, 0x3F), "{}: to the plain form", calls.who);
            assert_eq!((calls.from_plain)(&there, &mut back), Answer::Done(0), "{}", calls.who);
            assert_eq!(Book::of(&back), Book::of(&new), "{}: out and home", calls.who);
        }
    }
}

/// "given at start-up and kept in the session": as it is, by a refused, stopped or failed start-up too; phases and locks leave it.
#[test]
fn kept_in_the_session() {
    for records in [0, 1, 500, 4068, 4096, 4097, 70_000, 0x8000_0000, u32::MAX] {
        let given = Setup { custom: 1, reserve: 100, ..Setup::PLAIN }.with_records(records);
        for calls in BOTH {
            assert_eq!((calls.session_new)(&given).setup, given, "{}", calls.who);
            let dirty = [&with_entry::<Authenticated>(RATE, 0x07, 0x3F)[..200], &[0], &[0xFF; 3 * BLOCK - 201]].concat();
            let unsound = with_entry::<Authenticated>(RATE, 0x0F, 0x3F);
            for (image, context, expected) in [
                (with_entry::<Authenticated>(RECORD, 0x0F, 0x3F), Context::NO_LIMIT, Answer::Done(0)),
                (dirty.clone(), Context::NO_LIMIT, Answer::Done(8197)),
                (dirty.clone(), Context::with(100), Answer::Stopped),
                (dirty, Context::worn(u64::MAX, &[BLOCK as u32]), refused(Rule::Worn)),
                (unsound, Context::NO_LIMIT, refused(Rule::Unready)),
                (vec![0xFF; 100], Context::NO_LIMIT, refused(Rule::Length)),
            ] {
                let expected = if is_refused(&given, &image) { refused(Rule::Tenant) } else { expected };
                let started = (calls.start_up)(context, &mut image.clone(), &given);
                assert_eq!((started.answer, started.session.setup), (expected, given), "{}", calls.who);
                assert_eq!(started.session, (calls.session_new)(&given), "{}", calls.who);
            }
            let locked = (calls.lock)((calls.session_new)(&given), OURS, RECORD).session;
            assert_eq!((calls.phase)(locked, RUNTIME).setup, given, "{}", calls.who);
        }
    }
}

/// 02 (f): "22 when a start-up finds .. the error records above H": it changes nothing; the next one, which is given as many bytes, carries them by its compaction.
#[test]
fn start_up_beyond_the_space() {
    with_space(2136, |mut station| {
        assert_eq!(station.record(1, &[1; 2048]), Answer::Done(2135));
        let book = Book::of(&station.image);
        station.image[BLOCK - 1] = 0;
        let before = station.image.clone();
        for records in [0, 88, 2135] {
            assert_eq!(station.start_up(&Setup::PLAIN.with_records(records)), refused(Rule::Tenant));
            assert!(station.image == before, "a start-up that is given {records}");
        }
        assert_eq!(station.start_up(&Setup::PLAIN.with_records(2136)), Answer::Done(8197));
        assert_eq!(Book::of(&station.image), book);
        assert_eq!(station.record(2, &[2]), refused(Rule::RecordRoom));
        assert_eq!(station.record(1, &[1; 2048]), Answer::Done(0));
        assert_eq!(station.delete(RECORD), Answer::Done(1));
    });
}

/// In seven blocks: records of 2,136 bytes up to H, and other values beside them.
#[test]
fn seven_blocks() {
    for calls in BOTH {
        let mut station = Station::formatted(calls, &Setup::alone(15 * BLOCK).with_records(5 * 2136), 7);
        for number in 0..5 {
            assert_eq!(station.record(number, &[1; 2048]), Answer::Done(2135));
        }
        assert_eq!(station.record(5, &[1]), refused(Rule::RecordRoom));
        // 28,672 - 28 - 10,680 are eight of 2,112 and 1,068
        for character in 0..8 {
            let name = spelt(&[0x100 + character]);
            assert_eq!(station.set(Key { name: &name, vendor: &VENDOR }, 0x07, &[2; 2048]), Answer::Done(2113));
        }
        assert_eq!(station.set(A, 0x07, &[3; 1005]), refused(Rule::Room));
        assert_eq!(station.set(A, 0x07, &[3; 1004]), Answer::Done(1069));
        assert_eq!(station.set(B, 0x07, &[3]), refused(Rule::Room));
        assert_eq!(station.record(4, &[4; 2048]), Answer::Done(57361));
        Book::of(&station.image).check_listed(&ENGINE, &station.image);
        // 18 and 13 where the records alone exceed L: thirteen stand, and a fourteenth makes 29,904 bytes
        let mut full = Station::formatted(calls, &Setup::alone(15 * BLOCK).with_records(u32::MAX), 7);
        for number in 0..13 {
            assert_eq!(full.record(number, &[1; 2048]), Answer::Done(2135));
        }
        for (records, rule) in [(29_903, Rule::RecordRoom), (29_904, Rule::Room), (0x8000_0000, Rule::Room), (u32::MAX, Rule::Room)] {
            assert_eq!(full.with_h(records).record(13, &[1; 2048]), refused(rule), "H = {records}");
        }
    }
}
