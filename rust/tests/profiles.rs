//! 02 (l): up to eight settings in a file as one change. The file's form (25), and every form of its numbers; twin names (26); each item's rules, in file order, and the
//! order of all rules; room to the byte (13), and what never meets it; one compaction or no stores, and what it leaves. Worked out by hand, and every case is tried on both
//! implementations, with the session by value and lent, and as planned. Then profiles by chance beside their items as sets.

mod common;

use std::collections::BTreeMap;

use common::book::{Book, Value};
use common::generate::{self, Asked, Name, BLOCK};
use common::profiles::{file, item, items, number, settings, sized, Profile};
use common::random::Random;
use common::rounds::rounds;
use common::station::{image, Station};
use common::{same_bytes, A, B, NEW, OLD, RATE, RECORD, RECORDS, VENDOR};
use varstore::calls::{lent, Calls, ENGINE, LENT, PAPER};
use varstore::engine;
use varstore::interface::{Answer, Context, Guid, Key, Rule, Session, Setting, Setup, Tenant, AFTER_END_OF_DXE, MODEM, OURS, RUNTIME};
use varstore::paper::entry::REPLACED;
use varstore::paper::request::{DB, KEK, PK};

const TRIGGER: Key = Key { name: b"T\0R\0I\0G\0\0\0", ..RATE };
const GAIN: Key = Key { name: b"G\0A\0I\0N\0\0\0", ..RATE };
const MODEMS: Guid = [0x4D; 16];
const APN: Key = Key { name: b"a\0p\0n\0\0\0", vendor: &MODEMS };
/// The stores of a compaction of one block, and those up to its FC.
const COMPACTED: Answer = Answer::Done(8197);
const DECIDED: u64 = 4098;
const NOTHING: Answer = Answer::Done(0);

const fn refused(rule: Rule) -> Answer {
    Answer::Refused(rule)
}

const NO_FILE: Answer = refused(Rule::File);
const NO_ROOM: Answer = refused(Rule::Room);

/// Both implementations, and the engine with its session lent.
const ALL: [Calls; 3] = [PAPER, ENGINE, LENT];

/// Runs a case on an empty store of b = 1 in the session of a setup.
fn with(setup: &Setup, case: impl Fn(Station)) {
    for calls in ALL {
        println!("implementation: {}", calls.who);
        case(Station::formatted(calls, setup, 1));
    }
}

/// RATE, TRIG, A and B stand, in this order, with four bytes each: entries of 76, 76, 68 and 68 bytes.
fn stocked(setup: &Setup, case: impl Fn(Station)) {
    with(setup, |mut station| {
        for key in [RATE, TRIGGER, A, B] {
            assert!(matches!(station.set(key, 0x07, OLD), Answer::Done(1..)));
        }
        case(station);
    });
}

/// A name of one character.
fn letter(number: usize) -> Name {
    Name { name: vec![0x61 + number as u8, 0, 0, 0], vendor: VENDOR }
}

/// "A station with the new rate and the old trigger records rubbish": both change in one compaction, and stand last in file order.
#[test]
fn a_rate_and_its_trigger() {
    stocked(&Setup::PLAIN, |station| {
        let mut one = station.clone();
        assert_eq!(one.profile(&settings(&[(RATE, NEW), (TRIGGER, &[9; 6])])), COMPACTED);
        assert!(one.holds(&[(A, OLD), (B, OLD), (RATE, NEW), (TRIGGER, &[9; 6])]));
        let mut other = station.clone();
        assert_eq!(other.profile(&settings(&[(TRIGGER, &[9; 6]), (RATE, NEW)])), COMPACTED);
        assert!(other.holds(&[(A, OLD), (B, OLD), (TRIGGER, &[9; 6]), (RATE, NEW)]));
        // the same once more differs in nothing
        assert_eq!(other.profile(&settings(&[(TRIGGER, &[9; 6]), (RATE, NEW)])), NOTHING);
    });
}

/// What is kept of a file whose bytes are worked out by hand: 28 + 68 of A, then RATE with attributes 0x03 and stamp zero, rest FF; and the work block's F8.
#[test]
fn what_it_leaves() {
    for calls in ALL {
        let region = [(A, 0x07, &[5; 16]), (RATE, 0x03, &[7; 16])];
        let mut station = Station::new(calls, &Setup::PLAIN, image(&region.map(|(key, attributes, stamp)| (key, 0x3F, attributes, stamp, OLD))));
        let file = [1, 3, 10, 4, 1, 2, 3, 4, 5, 6, 7, 8, 9, 10, 11, 12, 13, 14, 15, 16, b'R', 0, b'A', 0, b'T', 0, b'E', 0, 0, 0, 0x65, 0, 0, 0];
        assert_eq!(station.profile(&file), COMPACTED);
        // the changed value's stamp is zeros, the other's stays
        let mut expected = image(&[(A, 0x3F, 0x07, &[5; 16], OLD), (RATE, 0x3F, 0x03, &[0; 16], NEW)]);
        expected[BLOCK] = 0xF8;
        same_bytes("image", &expected, &station.image);
    }
}

/// "up to eight settings": none is done without stores, nine are not of the form.
#[test]
fn numbers_of_items() {
    with(&Setup::PLAIN, |station| {
        let laid: Vec<Vec<u8>> = (0..12).map(|number| item(letter(number).key(), 0x07, &[number as u8 + 1])).collect();
        assert_eq!(station.profiled(&[0]), NOTHING);
        for count in 1..=12 {
            let mut station = station.clone();
            assert_eq!(station.profile(&file(&laid[..count])), if count <= 8 { COMPACTED } else { NO_FILE }, "{count} items");
            let wanted: Vec<_> = (0..count).map(|number| (letter(number), vec![number as u8 + 1])).collect();
            assert_eq!(station.list(), if count <= 8 { wanted } else { vec![] });
            // one item more or less than the number says
            for told in [count - 1, count + 1] {
                assert_eq!(station.profiled(&[number(told), laid[..count].concat()].concat()), NO_FILE, "{told} told, {count} items");
            }
        }
    });
}

/// "Numbers are groups of seven bits, low group first, top bit set where another follows, shortest form, three at most." Forms of one number, and what it is.
const FORMS: [(&[u8], Option<usize>); 24] = [
    (&[0x00], Some(0)),
    (&[0x01], Some(1)),
    (&[0x7F], Some(127)),
    (&[0x80, 0x01], Some(128)),
    (&[0x81, 0x01], Some(129)),
    (&[0xFF, 0x01], Some(255)),
    (&[0x80, 0x10], Some(2048)),
    (&[0xFF, 0x7F], Some(16_383)),
    (&[0x80, 0x80, 0x01], Some(16_384)),
    (&[0x81, 0x80, 0x01], Some(16_385)),
    (&[0xFF, 0xFF, 0x7F], Some(2_097_151)),
    (&[0x80, 0x00], None),
    (&[0x81, 0x00], None),
    (&[0x83, 0x00], None),
    (&[0x87, 0x00], None),
    (&[0x80, 0x80, 0x00], None),
    (&[0x83, 0x80, 0x00], None),
    (&[0xFF, 0xFF, 0x00], None),
    (&[0x80, 0x80, 0x80, 0x00], None),
    (&[0x80, 0x80, 0x80, 0x01], None),
    (&[0x83, 0x80, 0x80, 0x00], None),
    (&[0xFF, 0xFF, 0xFF, 0x7F], None),
    (&[0xFF, 0xFF, 0xFF, 0xFF, 0x01], None),
    (&[0x80, 0x80, 0x80, 0x80, 0x80, 0x80, 0x80, 0x80, 0x80, 0x80, 0x00], None),
];

/// Each form in the place of each number, with as many bytes after it as it tells, or would tell. What is of the form breaks the item's rules: a name of another size than
/// 4 to 128 is none, and more than 2,048 bytes of data are too many.
#[test]
fn forms_of_numbers() {
    with(&Setup::PLAIN, |station| {
        for (form, is) in FORMS {
            // a number of four groups whose bytes a file can have is laid out with them
            let told = form.iter().rev().fold(0, |value: usize, byte| value.saturating_mul(0x80) | usize::from(byte & 0x7F));
            let told = if told < 3_000_000 { told } else { 0 };
            let name = [vec![0x41; told.saturating_sub(2)], vec![0; told.min(2)]].concat();
            let data = vec![0x5A; told];
            let of_name = sized([number(7), form.to_vec(), number(1)], Key { name: &name, ..A }, &[1]);
            let wanted = match is {
                None => NO_FILE,
                Some(4..=128) if told % 2 == 0 => COMPACTED,
                Some(_) => refused(Rule::Name),
            };
            assert_eq!(station.profiled(&file(&[of_name])), wanted, "name size {form:02X?}");
            let of_data = sized([number(7), number(4), form.to_vec()], A, &data);
            let wanted = match is {
                None => NO_FILE,
                Some(0) => refused(Rule::Absent),
                Some(1..=2048) => COMPACTED,
                Some(_) => refused(Rule::DataSize),
            };
            assert_eq!(station.profiled(&file(&[of_data.clone()])), wanted, "data size {form:02X?}");
            // after another item, whose rules it does not reach
            let second = file(&[item(Key { name: b"A\0", ..A }, 0x07, &[1]), of_data]);
            assert_eq!(station.profiled(&second), if is.is_some() { refused(Rule::Name) } else { NO_FILE }, "data size {form:02X?}");
            let of_attributes = sized([form.to_vec(), number(4), number(1)], A, &[1]);
            assert_eq!(station.profiled(&file(&[of_attributes])), NO_FILE, "attributes {form:02X?}");
            // the number of items: as many as it tells, if these are few
            let many: Vec<u8> = (0..told.min(16)).flat_map(|number| item(letter(number).key(), 0x07, &[1])).collect();
            let wanted = match is {
                Some(0) => NOTHING,
                Some(1..=8) => COMPACTED,
                _ => NO_FILE,
            };
            assert_eq!(station.profiled(&[form, &many].concat()), wanted, "number of items {form:02X?}");
            assert_eq!(station.profiled(form), if is == Some(0) { NOTHING } else { NO_FILE }, "{form:02X?} alone");
        }
    });
}

/// Every number of up to four groups out of the bytes at the turning points, in each place: it is not of the form exactly where the tests' own reader says so.
#[test]
fn groups_in_every_place() {
    let turning = [0x00, 0x01, 0x03, 0x07, 0x08, 0x09, 0x7F, 0x80, 0x81, 0x83, 0x87, 0xFF];
    let mut forms: Vec<Vec<u8>> = vec![vec![]];
    let mut all: Vec<Vec<u8>> = vec![];
    for _ in 0..4 {
        forms = forms.iter().flat_map(|front| turning.map(|byte| [&front[..], &[byte]].concat())).collect();
        all.extend(forms.iter().cloned());
        // a byte below 0x80 ends a number
        forms.retain(|form| form.last().is_some_and(|byte| *byte >= 0x80));
    }
    let mut seen = [[0; 2]; 4];
    for calls in [PAPER, ENGINE] {
        let station = Station::formatted(calls, &Setup::PLAIN, 1);
        for (form, place) in all.iter().flat_map(|form| (0..4).map(move |place| (form, place))) {
            // as many bytes as the first three groups tell, if these are few
            let told = form.iter().take(3).rev().fold(0, |value, byte| value << 7 | usize::from(byte & 0x7F));
            let told = if told > 40_000 { 3 } else { told };
            let mut numbers = [number(1), number(7), number(4), number(3)];
            numbers[place] = form.clone();
            let [name, data] = [if place == 2 { told } else { 4 }, if place == 3 { told } else { 3 }].map(|size| vec![0x41; size]);
            let more = if place == 0 { told.clamp(1, 12) - 1 } else { 0 };
            let others: Vec<u8> = (0..more).flat_map(|number| item(letter(number).key(), 0x07, &[1])).collect();
            let file = [&numbers.concat()[..], &VENDOR, &name, &data, &others].concat();
            let answer = (calls.profile)(Context::NO_LIMIT, &station.session, &mut station.image.clone(), &file);
            assert_eq!(answer == NO_FILE, items(&file).is_none(), "{}: {form:02X?} in place {place}", calls.who);
            seen[place][usize::from(answer == NO_FILE)] += 1;
        }
    }
    // by both: 1, 3, 7 and 8 items; attributes 3 and 7; and of the sizes every shortest form up to 40,000
    assert_eq!(seen[..2].iter().map(|[good, _]| *good).collect::<Vec<_>>(), [2 * 4, 2 * 2], "{seen:?}");
    assert!(seen[2..].iter().all(|[good, bad]| *good > 80 && *bad > 3000), "{seen:?}");
}

/// "25 when the file is not of this form or leaves bytes over": each front of a file but the whole, which cuts every number, GUID, name and data; and a byte over.
#[test]
fn bytes_short_and_over() {
    stocked(&Setup::PLAIN, |station| {
        let long = Key { name: &[0x42, 0].repeat(63).into_iter().chain([0, 0]).collect::<Vec<u8>>(), ..A };
        let whole = file(&[item(RATE, 0x07, NEW), item(long, 0x03, &[1; 300]), item(TRIGGER, 0x07, &[]), item(GAIN, 0x07, &[7])]);
        assert_eq!(station.profiled(&whole), COMPACTED);
        for length in 0..whole.len() {
            assert_eq!(station.profiled(&whole[..length]), NO_FILE, "the first {length} bytes");
        }
        for over in [&[0][..], &[0xFF], &[0x80], &[7, 4, 1], &[0; 4096]] {
            assert_eq!(station.profiled(&[&whole[..], over].concat()), NO_FILE, "{} bytes over", over.len());
            assert_eq!(station.profiled(&[&[0], over].concat()), NO_FILE, "{} bytes over no items", over.len());
        }
        assert_eq!(station.profiled(&[]), NO_FILE);
        // sizes beyond any file, whose sums do not wrap
        for [name, data] in [[2_097_151, 2_097_151], [2_097_151, 0], [4, 2_097_151], [2_097_151, 1]] {
            let short = sized([number(7), number(name), number(data)], A, &[1; 100]);
            assert_eq!(station.profiled(&file(&[short])), NO_FILE, "{name} and {data} bytes");
        }
    });
}

/// "Attributes are 0x03 or 0x07".
#[test]
fn attributes() {
    with(&Setup::PLAIN, |station| {
        for attributes in (0..=0x200).chain([0x3FFF, 0x4003, 0x4007, 0x1F_FFFF]) {
            let wanted = if attributes == 3 || attributes == 7 { COMPACTED } else { NO_FILE };
            assert_eq!(station.profiled(&file(&[item(A, attributes, &[1])])), wanted, "{attributes:#X}");
            // of empty data too, and after a good item
            let wanted = if attributes == 3 || attributes == 7 { refused(Rule::Absent) } else { NO_FILE };
            assert_eq!(station.profiled(&file(&[item(B, 0x07, &[1]), item(A, attributes, &[])])), wanted, "{attributes:#X}");
        }
    });
}

/// Names that are not well formed are of the form: 3, by the item. "26 when two items share name and GUID": such names too, before any item's rules.
#[test]
fn names() {
    let odd = [0x41; 5];
    let long: Vec<u8> = [0x41, 0].repeat(64).into_iter().chain([0, 0]).collect();
    let ill: [&[u8]; 11] = [
        &[],
        &[0],
        &[0, 0],
        &[0x41, 0],
        &[0x41, 0, 0],
        &odd,
        &[0x41, 0, 0x42, 0],
        &[0, 0, 0, 0],
        &[0x41, 0, 0, 0, 0x42, 0, 0, 0],
        &[0x41, 0, 0, 1],
        &long,
    ];
    with(&Setup::PLAIN, |station| {
        for name in ill {
            let key = Key { name, ..A };
            let one = item(key, 0x07, &[1]);
            assert_eq!(station.profiled(&file(&[one.clone()])), refused(Rule::Name), "{name:02X?}");
            assert_eq!(station.profiled(&file(&[item(A, 0x07, &[1]), item(key, 0x07, &[])])), refused(Rule::Name), "{name:02X?}");
            let twins = file(&[one, item(B, 0x07, &[1]), item(key, 0x03, &[2; 3000])]);
            assert_eq!(station.profiled(&twins), refused(Rule::Twice), "{name:02X?}");
            // under another GUID it is another name
            let apart = file(&[item(key, 0x07, &[1]), item(Key { name, vendor: &[9; 16] }, 0x07, &[1])]);
            assert_eq!(station.profiled(&apart), refused(Rule::Name), "{name:02X?}");
        }
        // the shortest and the longest
        let longest: Vec<u8> = [0x41, 0].repeat(63).into_iter().chain([0, 0]).collect();
        let both = file(&[item(A, 0x07, &[1]), item(Key { name: &longest, ..A }, 0x07, &[1])]);
        assert_eq!(station.profiled(&both), COMPACTED);
    });
}

/// Twins in any two of eight places; names and GUIDs that differ in one bit are none.
#[test]
fn twins() {
    with(&Setup::PLAIN, |station| {
        for (first, second) in (0..8).flat_map(|second| (0..second).map(move |first| (first, second))) {
            let mut names: Vec<Name> = (0..8).map(letter).collect();
            names[second] = names[first].clone();
            let laid: Vec<Vec<u8>> = names.iter().enumerate().map(|(place, name)| item(name.key(), 0x07, &[place as u8])).collect();
            assert_eq!(station.profiled(&file(&laid)), refused(Rule::Twice), "{first} and {second}");
        }
        for bit in 0..128 {
            let mut vendor = VENDOR;
            vendor[bit / 8] ^= 1 << (bit % 8);
            let apart = file(&[item(RATE, 0x07, &[1]), item(Key { vendor: &vendor, ..RATE }, 0x07, &[2])]);
            assert_eq!(station.profiled(&apart), COMPACTED, "bit {bit} of the GUID");
        }
        for bit in 0..64 {
            let mut name = RATE.name.to_vec();
            name[bit / 8] ^= 1 << (bit % 8);
            assert_eq!(station.profiled(&file(&[item(RATE, 0x07, &[1]), item(Key { name: &name, ..RATE }, 0x07, &[2])])), COMPACTED, "bit {bit}");
        }
        // a name and its front
        let front = Key { name: b"R\0A\0\0\0", ..RATE };
        assert_eq!(station.profiled(&file(&[item(front, 0x07, &[1]), item(RATE, 0x07, &[2])])), COMPACTED);
        // equal data and attributes, deletes and other attributes do not make them less twins
        assert_eq!(station.profiled(&file(&[item(A, 0x07, &[1]), item(A, 0x07, &[1])])), refused(Rule::Twice));
        assert_eq!(station.profiled(&file(&[item(A, 0x07, &[]), item(A, 0x07, &[1])])), refused(Rule::Twice));
    });
}

/// A setup with a modem, H, and a rule: A is up to 100. Locks are added after.
fn shared() -> Setup {
    let modem = Tenant { share: 500, reserve: 0, vendor: MODEMS };
    Setup { records: 500, share: 2400, modem, ..Setup::NOTHING }.ruled(&[Setting::any(A).between(0, 100), Setting::any(GAIN).read_only()])
}

/// RATE with 0x07, B with 0x03, TRIG locked, GAIN read-only, a time-based value S, the modem's APN, a record: after EndOfDxe.
fn guarded(case: impl Fn(Station)) {
    let time_based = Key { name: b"S\0\0\0", ..A };
    let entries = [(RATE, 0x07), (B, 0x03), (TRIGGER, 0x07), (GAIN, 0x07), (time_based, 0x27), (APN, 0x07), (RECORD, 0x0F), (PK, 0x27)];
    let image = image(&entries.map(|(key, attributes)| (key, 0x3F, attributes, &[1; 16], OLD)));
    for calls in ALL {
        let mut station = Station::new(calls, &shared(), image.clone());
        assert_eq!(station.lock(TRIGGER), Answer::Done(0));
        case(station.in_phase(AFTER_END_OF_DXE));
    }
}

/// An item for each rule that an item can break, and the rule; of the last at runtime alone.
fn breaking() -> Vec<(Vec<u8>, Rule)> {
    let near = Key { name: b"H\0w\0E\0r\0r\0R\0e\0c\x000\x000\x000\x002\0\0\0", vendor: &RECORDS };
    let named = |text: &'static [u8]| Key { name: text, ..A };
    vec![
        (item(named(b"x\0"), 0x07, &[1]), Rule::Name),
        (item(APN, 0x07, &[1]), Rule::Tenant),
        (item(PK, 0x07, &[1]), Rule::KeyAttributes),
        (item(KEK, 0x03, &[1]), Rule::KeyAttributes),
        (item(DB, 0x07, &[]), Rule::KeyAttributes),
        (item(RECORD, 0x07, &[1]), Rule::Record),
        (item(near, 0x03, &[]), Rule::Record),
        (item(TRIGGER, 0x07, &[1]), Rule::Locked),
        (item(RATE, 0x03, &[1]), Rule::Standing),
        (item(named(b"S\0\0\0"), 0x07, &[]), Rule::Standing),
        (item(named(b"y\0\0\0"), 0x07, &[]), Rule::Absent),
        (item(named(b"z\0\0\0"), 0x07, &[1; 2049]), Rule::DataSize),
        (item(A, 0x07, &[101]), Rule::Setting),
        (item(GAIN, 0x07, OLD), Rule::Setting),
        (item(B, 0x03, &[1; 2048]), Rule::Room),
    ]
}

/// Items that break no rule.
fn keeping() -> [Vec<u8>; 3] {
    [item(RATE, 0x07, NEW), item(Key { name: b"q\0\0\0", ..A }, 0x07, &[1]), item(Key { name: b"r\0\0\0", ..A }, 0x03, &[2])]
}

/// Each alone, and in every place among good ones: the item's rule, whatever is before and after it.
#[test]
fn rules_of_an_item() {
    guarded(|station| {
        assert_eq!(station.profiled(&file(&keeping())), COMPACTED);
        for (wrong, rule) in breaking() {
            assert_eq!(station.profiled(&file(&[wrong.clone()])), refused(rule));
            for place in 0..=3 {
                let mut laid = keeping().to_vec();
                // one name of its own
                laid.retain(|other| !(rule == Rule::Standing && other == &keeping()[0]));
                laid.insert(place.min(laid.len()), wrong.clone());
                assert_eq!(station.profiled(&file(&laid)), refused(rule), "place {place}");
            }
        }
    });
}

/// "Each item is checked in turn": through all of its rules before the next, so that the first item that breaks one tells; 13 comes after all.
#[test]
fn the_first_item_tells() {
    guarded(|station| {
        let breaking = breaking();
        for (first, rule) in &breaking {
            for (second, other) in &breaking {
                let both = file(&[first.clone(), second.clone()]);
                let items = items(&both).expect("of the form");
                let wanted = match rule {
                    _ if items[0].name == items[1].name => Rule::Twice,
                    Rule::Room => *other,
                    _ => *rule,
                };
                assert_eq!(station.profiled(&both), refused(wanted), "{rule:?}, then {other:?}");
            }
        }
    });
}

/// Of one item the rules come in the order 3, 22, 4, 5, 17, 6, 7, 11, 12, 21, and 13 after them: one that breaks several is told the first.
#[test]
fn order_within_an_item() {
    guarded(|station| {
        let named = |text: &'static [u8], vendor: &'static Guid| Key { name: text, vendor };
        let large = [1; 2100];
        for (wrong, rule) in [
            (item(named(b"x\0", &MODEMS), 0x07, &large), Rule::Name),
            (item(APN, 0x03, &large), Rule::Tenant),
            (item(PK, 0x03, &large), Rule::KeyAttributes),
            (item(RECORD, 0x03, &large), Rule::Record),
            (item(TRIGGER, 0x03, &large), Rule::Locked),
            (item(TRIGGER, 0x07, &[]), Rule::Locked),
            (item(RATE, 0x03, &large), Rule::Standing),
            (item(GAIN, 0x03, &[]), Rule::Standing),
            (item(A, 0x07, &[]), Rule::Absent),
            (item(A, 0x07, &large), Rule::DataSize),
            (item(A, 0x07, &[200; 2048]), Rule::Setting),
        ] {
            assert_eq!(station.profiled(&file(&[wrong])), refused(rule));
        }
        // at runtime 4 comes after 22 and before 5 and the rest
        let runtime = station.in_phase(RUNTIME);
        for (wrong, rule) in [
            (item(named(b"x\0", &VENDOR), 0x03, &large), Rule::Name),
            (item(APN, 0x03, &large), Rule::Tenant),
            (item(PK, 0x03, &large), Rule::Attributes),
            (item(RECORD, 0x03, &large), Rule::Attributes),
            (item(TRIGGER, 0x03, &[]), Rule::Attributes),
            (item(B, 0x03, &[1]), Rule::Attributes),
            (item(B, 0x07, &[1]), Rule::Standing),
            (item(PK, 0x07, &large), Rule::KeyAttributes),
        ] {
            assert_eq!(runtime.profiled(&file(&[item(RATE, 0x07, NEW), wrong])), refused(rule));
        }
        assert_eq!(runtime.profiled(&file(&[item(RATE, 0x07, NEW)])), COMPACTED);
    });
}

/// "25 .. after 2; 26 .. after 25": and 1 before all, whatever the items are.
#[test]
fn order_of_the_whole() {
    stocked(&Setup::PLAIN, |station| {
        let twins = [item(A, 0x07, &[1]), item(A, 0x07, &[2])].concat();
        let broken = item(Key { name: b"x\0", ..A }, 0x07, &[1]);
        let no_form = [&[2][..], &twins, &[0]].concat();
        let twice = [&[3][..], &broken, &twins].concat();
        let bad = [&[1][..], &broken].concat();
        let files = [(&no_form, NO_FILE), (&twice, refused(Rule::Twice)), (&bad, refused(Rule::Name)), (&vec![0], NOTHING)];
        for (file, answer) in files {
            assert_eq!(station.profiled(file), answer);
            let [mut longer, mut work, mut tail, mut spare] = [(); 4].map(|()| station.clone());
            longer.image.push(0xFF);
            work.image[BLOCK] = 0xFC;
            tail.image[BLOCK - 1] = 0xFE;
            spare.image[2 * BLOCK] = 0xFE;
            assert_eq!(longer.profiled(file), refused(Rule::Length));
            for unready in [work, tail, spare] {
                assert_eq!(unready.profiled(file), refused(Rule::Unready));
            }
            let mut none = station.clone();
            none.image.clear();
            assert_eq!(none.profiled(file), refused(Rule::Length));
        }
        // 26 before the items' rules; a file of nine items with twins is not of the form
        let nine =
            [&[9][..], &(0..8).flat_map(|number| item(letter(number).key(), 0x07, &[1])).collect::<Vec<u8>>(), &item(letter(0).key(), 0x07, &[1])];
        assert_eq!(station.profiled(&nine.concat()), NO_FILE);
    });
}

/// Equal items keep their place, and nothing is stored where no item differs: also with no share, at runtime with a reserve, or with 64 records used.
#[test]
fn equal_items() {
    stocked(&Setup::PLAIN, |station| {
        let all: Vec<(Key, &[u8])> = [RATE, TRIGGER, A, B].map(|key| (key, OLD)).to_vec();
        let mut none = station.given(Setup::NOTHING).at_runtime(4096);
        none.session.setup.modem.vendor = MODEMS;
        for count in 0..=4 {
            assert_eq!(none.profiled(&settings(&all[..count])), NOTHING, "{count} items");
        }
        // one differs: the others keep their place
        for place in 0..4 {
            let (mut one, mut changed) = (station.clone(), all.clone());
            changed[place].1 = NEW;
            assert_eq!(one.profile(&settings(&changed)), COMPACTED);
            let mut wanted: Vec<_> = all.iter().filter(|(key, _)| *key != changed[place].0).copied().collect();
            wanted.push(changed[place]);
            assert!(one.holds(&wanted), "place {place}");
        }
        // equal data under other attributes are not equal: 7
        assert_eq!(station.profiled(&file(&[item(RATE, 0x03, OLD)])), refused(Rule::Standing));
        // a front of the data, and longer data, differ
        for data in [&OLD[..3], &[0x64, 0, 0, 0, 0]] {
            assert_eq!(station.profiled(&settings(&[(RATE, data)])), COMPACTED);
        }
    });
}

/// A value that is 3E only is the name's value: an equal item differs in nothing, another replaces it, and a delete takes it out; what a cut set has left is gone then.
#[test]
fn values_being_replaced() {
    for calls in ALL {
        let entries: [(Key, u8, u32, &[u8; 16], &[u8]); 5] = [
            (RATE, REPLACED, 0x07, &[0; 16], OLD),
            (A, REPLACED, 0x07, &[0; 16], NEW),
            (A, 0x3F, 0x07, &[0; 16], OLD),
            (B, 0x3D, 0x07, &[0; 16], OLD),
            (TRIGGER, 0x3F, 0x07, &[0; 16], OLD),
        ];
        let station = Station::new(calls, &Setup::PLAIN, image(&entries));
        assert_eq!(station.profiled(&settings(&[(RATE, OLD), (A, OLD)])), NOTHING);
        let mut one = station.clone();
        assert_eq!(one.profile(&settings(&[(RATE, OLD), (TRIGGER, NEW)])), COMPACTED);
        assert!(one.holds(&[(RATE, OLD), (A, OLD), (TRIGGER, NEW)]));
        let mut two = station.clone();
        assert_eq!(two.profile(&settings(&[(A, &[]), (RATE, NEW)])), COMPACTED);
        assert!(two.holds(&[(TRIGGER, OLD), (RATE, NEW)]));
        let mut three = station.clone();
        assert_eq!(three.profile(&settings(&[(RATE, &[])])), COMPACTED);
        assert!(three.holds(&[(A, OLD), (TRIGGER, OLD)]));
        assert_eq!(station.profiled(&settings(&[(B, &[])])), refused(Rule::Absent), "a deleted value is absent");
    }
}

/// "The whole profile is one compaction": of one item that would fit in the tail, of a delete, of eight; and of one more store where 64 records are used.
#[test]
fn always_a_compaction() {
    stocked(&Setup::PLAIN, |station| {
        for (used, stores) in [(0, 8197), (1, 8197), (63, 8197), (64, 8198)] {
            let mut station = station.clone();
            station.image[BLOCK..][..used].fill(0xF8);
            for laid in [settings(&[(RATE, NEW)]), settings(&[(GAIN, &[1])]), settings(&[(RATE, &[])]), settings(&[(RATE, OLD), (A, &[])])] {
                assert_eq!(station.profiled(&laid), Answer::Done(stores), "{used} records used");
            }
            assert_eq!(station.profiled(&settings(&[(RATE, OLD)])), NOTHING);
        }
    });
    for (blocks, stores) in (1..=7).map(|blocks| (blocks, 3 + 2 * blocks as u64 * 4097)) {
        for calls in ALL {
            let station = Station::formatted(calls, &Setup::alone((2 * blocks + 1) * BLOCK), blocks);
            assert_eq!(station.profiled(&settings(&[(RATE, NEW), (A, &[1; 2048])])), Answer::Done(stores), "b = {blocks}");
        }
    }
}

/// "FC decides for all items together": stopped anywhere before it a start-up finds the old values, and from it on all the new ones.
#[test]
fn fc_decides() {
    stocked(&Setup::PLAIN, |station| {
        let laid = settings(&[(RATE, NEW), (A, &[]), (GAIN, &[7; 9]), (B, OLD), (TRIGGER, &[8])]);
        for n in (0..5).chain([100, DECIDED - 2, DECIDED - 1, DECIDED, DECIDED + 1, DECIDED + 2, 8000]).chain(8190..8197) {
            let mut one = station.clone();
            assert_eq!((one.calls.profile)(Context::with(n), &one.session, &mut one.image, &laid), Answer::Stopped, "after {n}");
            assert!(matches!(one.start_up(&Setup::PLAIN), Answer::Done(_)), "after {n}");
            match n {
                0..DECIDED => assert!(one.holds(&[(RATE, OLD), (TRIGGER, OLD), (A, OLD), (B, OLD)]), "after {n}"),
                _ => assert!(one.holds(&[(B, OLD), (RATE, NEW), (GAIN, &[7; 9]), (TRIGGER, &[8])]), "after {n}"),
            }
        }
        // n is of no account where it is refused, or stores nothing
        for n in [0, 1] {
            let answer = |file: &[u8]| (station.calls.profile)(Context::with(n), &station.session, &mut station.image.clone(), file);
            assert_eq!((answer(&[0]), answer(&[1]), answer(&settings(&[(RATE, OLD)]))), (NOTHING, NO_FILE, NOTHING));
        }
        // pages: 1 + 4096 / w + 1 + 1 + 4096 / w + 1 + 1 stores; a width that is none counts as 1
        for (width, stores) in [(1, 8197), (2, 4101), (4, 2053), (8, 1029), (16, 517), (0, 8197), (3, 8197), (32, 8197)] {
            let answer = (station.calls.profile)(Context::NO_LIMIT.paged(width), &station.session, &mut station.image.clone(), &laid);
            assert_eq!(answer, Answer::Done(stores), "w = {width}");
        }
        // a dead byte: of the spare's front, which has a bit to fall, of the record, and of the rest, which is FF
        for (dead, answer) in [(2 * BLOCK, refused(Rule::Worn)), (BLOCK, refused(Rule::Worn)), (0, refused(Rule::Worn)), (3 * BLOCK - 1, COMPACTED)] {
            let context = Context::worn(u64::MAX, &[dead as u32]);
            assert_eq!((station.calls.profile)(context, &station.session, &mut station.image.clone(), &laid), answer, "{dead} dead");
        }
    });
}

/// "room is judged after the last": the share to the byte, with the side's reserve at runtime. Two new entries of 76 and 68 bytes beside RATE, TRIG, A and B of 288.
#[test]
fn room_in_the_share() {
    stocked(&Setup::PLAIN, |station| {
        let laid = settings(&[(GAIN, OLD), (Key { name: b"q\0\0\0", ..A }, OLD)]);
        for (share, answer) in [(0, NO_ROOM), (431, NO_ROOM), (432, COMPACTED), (433, COMPACTED), (u32::MAX, COMPACTED)] {
            let given = station.given(Setup { share, ..Setup::PLAIN });
            assert_eq!(given.profiled(&laid), answer, "share {share}");
            // a reserve counts at runtime alone, and up to 4,096
            let mut reserved = given.clone();
            reserved.session.setup.reserve = 4096;
            assert_eq!((reserved.profiled(&laid), reserved.in_phase(AFTER_END_OF_DXE).profiled(&laid)), (answer, answer), "share {share}");
            for reserve in [1, 100, 4096, 5000] {
                let more = station.given(Setup { share: share.saturating_add(reserve.min(4096)), ..Setup::PLAIN });
                assert_eq!(more.at_runtime(reserve).profiled(&laid), answer, "share {share} and {reserve}");
            }
        }
        // another value grows by a step of four bytes: 288 + 4
        let grown = settings(&[(RATE, &[1; 7])]);
        for (share, answer) in [(291, NO_ROOM), (292, COMPACTED)] {
            assert_eq!(station.given(Setup { share, ..Setup::PLAIN }).profiled(&grown), answer, "share {share}");
        }
    });
}

/// "28 plus all values against L": in a session whose share is larger. 28 + 2,112 + 1,956 fill one block.
#[test]
fn room_in_the_region() {
    with(&Setup { share: u32::MAX, ..Setup::PLAIN }, |station| {
        for (last, answer) in [(1892, COMPACTED), (1893, NO_ROOM)] {
            let full = settings(&[(A, &[1; 2048]), (B, &[2; 2048][..last])]);
            let mut station = station.clone();
            assert_eq!(station.profile(&full), answer, "{last} bytes");
            if answer == COMPACTED {
                assert_eq!(station.tail(), BLOCK);
                // full before and after, and both values are others
                assert_eq!(station.profile(&settings(&[(B, &[3; 1892]), (A, &[4; 2048])])), COMPACTED);
                assert!(station.holds(&[(B, &[3; 1892]), (A, &[4; 2048])]));
                // one byte more of either
                assert_eq!(station.profiled(&settings(&[(B, &[3; 1893]), (A, &[4; 2048])])), NO_ROOM);
                assert_eq!(station.profiled(&settings(&[(B, &[3; 1893]), (A, &[4; 2044])])), COMPACTED);
            }
        }
        // eight of 512 bytes: 28 + 8 * 576 are more than 4,096; seven are not
        let eight: Vec<Vec<u8>> = (0..8).map(|number| item(letter(number).key(), 0x07, &[1; 512])).collect();
        assert_eq!((station.profiled(&file(&eight)), station.profiled(&file(&eight[..7]))), (NO_ROOM, COMPACTED));
    });
    // in seven blocks eight items of the largest data
    let names: Vec<Name> = (0..8).map(letter).collect();
    let largest: Vec<Vec<u8>> = names.iter().map(|name| item(name.key(), 0x07, &[1; 2048])).collect();
    for calls in ALL {
        let mut station = Station::formatted(calls, &Setup::alone(15 * BLOCK), 7);
        assert_eq!(station.profile(&file(&largest)), Answer::Done(57361));
        assert_eq!(station.list(), names.iter().map(|name| (name.clone(), vec![1; 2048])).collect::<Vec<_>>());
    }
}

/// Deletes make room for sets before and after them; a region that would hold no two of the values at once takes them by turns.
#[test]
fn deletes_make_room() {
    with(&Setup::PLAIN, |mut station| {
        assert_eq!(station.set(A, 0x07, &[1; 2048]), Answer::Done(2113));
        assert_eq!(station.set(B, 0x07, &[2; 1892]), Answer::Done(1957));
        for laid in [[(RATE, &[3; 1800][..]), (B, &[])], [(B, &[]), (RATE, &[3; 1800])]] {
            let mut one = station.clone();
            assert_eq!(one.profile(&settings(&laid)), COMPACTED);
            assert!(one.holds(&[(A, &[1; 2048]), (RATE, &[3; 1800])]));
        }
        assert_eq!(station.profiled(&settings(&[(RATE, &[3; 1800])])), NO_ROOM);
        // to the byte: B's 1,956 bytes are 60 + 10 + 1,886 of RATE
        for (size, answer) in [(1886, COMPACTED), (1887, NO_ROOM)] {
            assert_eq!(station.profiled(&settings(&[(RATE, &vec![3; size]), (B, &[])])), answer, "{size} bytes");
        }
        // both go, and others come before they have gone
        let mut both = station.clone();
        assert_eq!(both.profile(&settings(&[(RATE, &[3; 2000]), (TRIGGER, &[4; 1900]), (A, &[]), (B, &[])])), COMPACTED);
        assert!(both.holds(&[(RATE, &[3; 2000]), (TRIGGER, &[4; 1900])]));
        // values that shrink make room too
        let mut shrunk = station.clone();
        assert_eq!(shrunk.profile(&settings(&[(RATE, &[3; 1800]), (B, &[2; 4]), (A, &[1; 2000])])), COMPACTED);
        assert!(shrunk.holds(&[(RATE, &[3; 1800]), (B, &[2; 4]), (A, &[1; 2000])]));
    });
}

/// "if one stores a value": deletes and equal items never meet 13, however little there is; with one that stores a value the whole does.
#[test]
fn what_never_meets_13() {
    stocked(&Setup::PLAIN, |station| {
        let none = station.given(Setup { share: 0, modem: Tenant { share: 0, reserve: 0, vendor: MODEMS }, ..Setup::NOTHING });
        for starved in [none.clone(), none.at_runtime(4096)] {
            assert_eq!(starved.profiled(&settings(&[(RATE, &[])])), COMPACTED);
            assert_eq!(starved.profiled(&settings(&[(RATE, &[]), (A, OLD), (B, &[])])), COMPACTED);
            let mut empty = starved.clone();
            assert_eq!(empty.profile(&settings(&[(RATE, &[]), (TRIGGER, &[]), (A, &[]), (B, &[])])), COMPACTED);
            assert!(empty.holds(&[]) && empty.tail() == 28);
            // a smaller value than stood stores one all the same
            assert_eq!(starved.profiled(&settings(&[(RATE, &[1])])), NO_ROOM);
            assert_eq!(starved.profiled(&settings(&[(RATE, &[]), (TRIGGER, &[]), (A, &[]), (B, &[1])])), NO_ROOM);
        }
        // all go but one that shrinks: its 68 bytes, and those of A, which stays equal
        for (share, answer) in [(135, NO_ROOM), (136, COMPACTED)] {
            let given = station.given(Setup { share, ..Setup::PLAIN });
            assert_eq!(given.profiled(&settings(&[(RATE, &[]), (TRIGGER, &[]), (A, OLD), (B, &[1])])), answer, "share {share}");
        }
    });
}

/// One side for the whole profile: its own names are set, in its own share; one of the other side's is 22, also where both are in one file.
#[test]
fn both_sides() {
    let other = Key { name: b"p\0i\0n\0\0\0", vendor: &MODEMS };
    let setup = Setup { records: 200, share: 400, modem: Tenant { share: 144, reserve: 0, vendor: MODEMS }, ..Setup::NOTHING };
    stocked(&setup, |station| {
        let foreign = refused(Rule::Tenant);
        let mut modem = station.by(MODEM);
        let theirs = settings(&[(APN, OLD), (other, OLD)]);
        for side in [OURS, 2, 0x101, u32::MAX] {
            assert_eq!(station.by(side).profiled(&theirs), foreign, "side {side}");
        }
        assert_eq!(modem.profiled(&settings(&[(RATE, NEW)])), foreign);
        for laid in [[(APN, OLD), (RATE, NEW)], [(RATE, NEW), (APN, OLD)]] {
            assert_eq!((station.profiled(&settings(&laid)), modem.profiled(&settings(&laid))), (foreign, foreign));
        }
        // 72 bytes each fill the modem's share, beside our 288
        assert_eq!(modem.profile(&theirs), COMPACTED);
        assert!(modem.holds(&[(RATE, OLD), (TRIGGER, OLD), (A, OLD), (B, OLD), (APN, OLD), (other, OLD)]));
        assert_eq!(modem.profiled(&settings(&[(APN, NEW), (other, &[1; 5])])), NO_ROOM);
        assert_eq!(modem.profiled(&settings(&[(APN, &[]), (other, &[1; 76])])), COMPACTED);
        assert_eq!(modem.profiled(&settings(&[(APN, &[]), (other, &[1; 77])])), NO_ROOM);
        // ours goes by our share alone, and at runtime by our reserve
        let ours = modem.by(OURS);
        assert_eq!(ours.profiled(&settings(&[(RATE, &[1; 114]), (GAIN, &[])])), refused(Rule::Absent));
        for (size, answer) in [(116, COMPACTED), (117, COMPACTED), (118, COMPACTED), (119, NO_ROOM)] {
            assert_eq!(ours.profiled(&settings(&[(RATE, &vec![1; size])])), answer, "{size} bytes");
        }
        let mut runtime = ours.in_phase(RUNTIME);
        runtime.session.setup.modem.reserve = 4096;
        assert_eq!(runtime.profiled(&settings(&[(RATE, &[1; 118])])), COMPACTED);
        runtime.session.setup.reserve = 1;
        assert_eq!((runtime.profiled(&settings(&[(RATE, &[1; 118])])), runtime.profiled(&settings(&[(RATE, &[1; 114])]))), (NO_ROOM, COMPACTED));
        assert_eq!(runtime.by(MODEM).profiled(&settings(&[(APN, NEW)])), NO_ROOM);
    });
}

/// Locks: a listed name after the boot phase is 6, a delete and an equal item too; in the boot phase it is set.
#[test]
fn locks() {
    stocked(&Setup::PLAIN, |mut station| {
        assert_eq!((station.lock(RATE), station.lock(GAIN)), (Answer::Done(0), Answer::Done(0)));
        for laid in [settings(&[(RATE, NEW)]), settings(&[(RATE, OLD)]), settings(&[(RATE, &[])]), settings(&[(A, NEW), (GAIN, &[1])])] {
            assert!(matches!(station.profiled(&laid), Answer::Done(_) | Answer::Refused(Rule::Absent)));
            for phase in [AFTER_END_OF_DXE, RUNTIME] {
                assert_eq!(station.in_phase(phase).profiled(&laid), refused(Rule::Locked));
            }
        }
        assert_eq!(station.in_phase(RUNTIME).profiled(&settings(&[(A, NEW), (TRIGGER, &[1])])), COMPACTED);
    });
}

/// 02 (e): every item meets the rules for its name, on the data that would stand: where nothing changes too. Deletes obey only read-only.
#[test]
fn rules_for_settings() {
    stocked(&Setup::PLAIN, |station| {
        let broken = refused(Rule::Setting);
        let between = station.ruled(&[Setting::any(RATE).sized(4, 4).field(0, 4).between(100, 101), Setting::any(GAIN).one_of(&[1, 2])]);
        assert_eq!(between.profiled(&settings(&[(RATE, NEW), (GAIN, &[1])])), COMPACTED);
        assert_eq!(between.profiled(&settings(&[(RATE, &[102, 0, 0, 0]), (GAIN, &[1])])), broken);
        assert_eq!(between.profiled(&settings(&[(RATE, NEW), (GAIN, &[3])])), broken);
        assert_eq!(between.profiled(&settings(&[(RATE, &[100, 0, 0]), (GAIN, &[1])])), broken);
        assert_eq!(between.profiled(&settings(&[(RATE, &[])])), COMPACTED, "a delete");
        // a value that stands against its rule: equal is refused, other data or a delete are not
        let against = station.ruled(&[Setting::any(RATE).field(0, 4).between(101, 101)]);
        assert_eq!(against.profiled(&settings(&[(RATE, OLD)])), broken);
        assert_eq!(against.profiled(&settings(&[(A, NEW), (RATE, OLD)])), broken);
        assert_eq!((against.profiled(&settings(&[(RATE, NEW)])), against.profiled(&settings(&[(RATE, &[])]))), (COMPACTED, COMPACTED));
        assert_eq!(against.profiled(&settings(&[(A, NEW)])), COMPACTED, "no item names it");
        let fixed = station.ruled(&[Setting::any(RATE).read_only()]);
        for data in [NEW, OLD, &[]] {
            assert_eq!(fixed.profiled(&settings(&[(A, NEW), (RATE, data)])), broken, "{data:?}");
        }
    });
}

/// What is lent may begin at any address.
#[test]
fn any_address() {
    stocked(&Setup::PLAIN, |station| {
        let laid = settings(&[(RATE, NEW), (GAIN, &[7; 30]), (A, &[])]);
        let mut wanted = station.clone();
        assert_eq!(wanted.profile(&laid), COMPACTED);
        for shift in 0..8 {
            let [mut image, mut file] = [vec![0xC6; shift], vec![0xC6; 7 - shift]];
            image.extend_from_slice(&station.image);
            file.extend_from_slice(&laid);
            let answer = (station.calls.profile)(Context::NO_LIMIT, &station.session, &mut image[shift..], &file[7 - shift..]);
            assert_eq!(answer, COMPACTED);
            assert!(image[shift..] == wanted.image && image[..shift].iter().all(|byte| *byte == 0xC6), "{shift} bytes on");
        }
    });
}

/// The content of a refused profile is as before; the file and the session are only read.
#[test]
fn what_is_only_read() {
    for calls in [ENGINE, LENT] {
        let mut station = Station::formatted(calls, &Setup::PLAIN, 1);
        assert!(matches!(station.set(RATE, 0x07, OLD), Answer::Done(1..)));
        let session = station.session;
        for (laid, answer) in [(vec![9], NO_FILE), (settings(&[(RATE, OLD)]), NOTHING), (settings(&[(RATE, NEW)]), COMPACTED)] {
            let mut content = [0xA5; 28672];
            let file = laid.clone();
            let call = if calls.who == LENT.who { engine::lent::profile } else { engine::profile };
            assert_eq!(call(Context::NO_LIMIT, &station.session, &mut station.image.clone(), &laid, &mut content), answer);
            assert!(file == laid && session == station.session);
            assert!(!matches!(answer, Answer::Refused(_)) || content == [0xA5; 28672], "the content of {answer:?}");
        }
    }
}

/// What the items come to one by one as sets of a side in a session: the values after the last, or the first that is refused.
fn by_sets(calls: &Calls, session: &Session, side: u32, image: &[u8], items: &[Asked]) -> Result<Vec<Value>, Rule> {
    let mut image = image.to_vec();
    for item in items {
        if let Answer::Refused(rule) = (calls.set)(Context::NO_LIMIT.by(side), session, &mut image, &item.request()) {
            return Err(rule);
        }
    }
    Ok(Book::of(&image).values)
}

/// "Each item is checked in turn as if those before it stood": profiles by chance beside their items as sets. Where all are done one by one, the profile is, and leaves the
/// same values in the same order; where one is refused by another rule than 13, the profile is refused by the same.
#[test]
fn items_as_sets() {
    let mut tally: BTreeMap<String, usize> = BTreeMap::new();
    rounds(4, 400, |r| {
        let image = generate::image(r).0;
        let mut session = generate::session(r);
        for _ in 0..8 {
            let profile = generate::profile(r, &session.setup, &image);
            spared(r, &mut session, &image, &profile);
            let context = Context::NO_LIMIT.by(profile.side);
            let mut after = image.clone();
            let answer = (ENGINE.profile)(context, &session, &mut after, &profile.file);
            let told = match answer {
                Answer::Refused(rule) => format!("refused {}", rule.number()),
                Answer::Done(0) => "nothing".into(),
                _ => "done".into(),
            };
            *tally.entry(told).or_default() += 1;
            let ready = (ENGINE.check)(&image).answer;
            let Some(items) = items(&profile.file) else {
                assert_eq!(answer, if ready == NOTHING { NO_FILE } else { ready }, "{profile:?}");
                continue;
            };
            let twins = (0..items.len()).any(|later| items[..later].iter().any(|item| item.name == items[later].name));
            if ready != NOTHING || twins {
                assert_eq!(answer, if ready == NOTHING { refused(Rule::Twice) } else { ready }, "{profile:?}");
                continue;
            }
            // with a share that refuses nothing
            let unbound =
                Setup { share: u32::MAX, modem: Tenant { share: u32::MAX, reserve: 0, ..session.setup.modem }, reserve: 0, ..session.setup };
            match by_sets(&ENGINE, &Session { setup: unbound, ..session }, profile.side, &image, &items) {
                // all values would not fit on the way
                Err(Rule::Room) => *tally.entry("no room on the way".into()).or_default() += 1,
                Err(rule) => assert_eq!(answer, refused(rule), "{profile:?}"),
                Ok(values) => match answer {
                    Answer::Done(_) => assert!(Book::of(&after).values == values, "{profile:?}"),
                    _ => assert_eq!(answer, NO_ROOM, "{profile:?}"),
                },
            }
            if let Ok(values) = by_sets(&ENGINE, &session, profile.side, &image, &items) {
                assert!(matches!(answer, Answer::Done(_)) && Book::of(&after).values == values, "{answer:?} for {profile:?}");
            }
        }
    });
    println!("{tally:?}");
    for rule in [2, 3, 4, 5, 6, 7, 11, 12, 13, 17, 21, 22, 25, 26] {
        assert!(tally.contains_key(&format!("refused {rule}")), "no {rule}");
    }
    for thing in ["done", "nothing", "no room on the way"] {
        assert!(tally.get(thing).is_some_and(|count| *count > 20), "{thing}: {tally:?}");
    }
}

/// Most often a session that refuses little; sometimes rules or room with an eye to the profile.
fn spared(r: &mut Random, session: &mut Session, image: &[u8], profile: &Profile) {
    if !r.once_in(4) {
        session.phase = r.pick(&[0, 0, 0, 1, 2]);
        session.count = r.pick(&[0, 0, 1, 5]);
        session.setup.rules = 0;
        session.setup.share = Setup::alone(image.len()).share;
        session.setup.modem.share = session.setup.share;
    }
    if r.once_in(3) {
        generate::room_for_items(r, session, image, profile);
    }
    if r.once_in(4) {
        session.setup = session.setup.ruled(&generate::rules_for_items(r, image, profile));
    }
}

/// Sessions of another writer: any numbers, or bytes by chance; both forms of the call and of the plan agree with the second implementation.
#[test]
fn any_session() {
    let mut r = Random::new(0x6C);
    for turn in 0..600 {
        let image = generate::filled(&mut r, 1);
        let mut session = generate::session(&mut r);
        let any = r.number() as u32;
        match r.below(6) {
            0 => session.phase = any,
            1 => session.count = any,
            2 => session.setup.rules = any,
            3 => session.setup.modem.vendor = if r.once_in(2) { VENDOR } else { [0; 16] },
            4 => session.sizes[r.below(16)] = any,
            _ => session.locks.iter_mut().for_each(|byte| *byte = r.byte()),
        }
        let profile = generate::profile(&mut r, &session.setup, &image);
        let side = if r.once_in(4) { any } else { profile.side };
        let context = Context { side, ..Context::worn(r.number() >> r.below(64), &[any]).paged(generate::width(&mut r)) };
        let [paper, engine, lending] = ALL.map(|calls| {
            let mut image = image.clone();
            ((calls.profile)(context, &session, &mut image, &profile.file), image)
        });
        assert!(paper == engine && paper == lending, "turn {turn}: {:?}, {:?}, {:?}", paper.0, engine.0, lending.0);
        let [one, other] = [engine::plan_profile, engine::lent::plan_profile].map(|plan| {
            lent(|content| {
                plan(&session, side, &image, &profile.file, content).map(|plan| (plan.stores(1, content).collect::<Vec<_>>(), plan.deciding))
            })
        });
        assert!(one == other, "turn {turn}: the plans");
    }
}
