//! What a check tells of a region, at the boundaries of the engine's quick ways: names that differ in one character of any place, entries that are just not usual, and
//! room at the tail. Every image goes to both implementations; what is expected is worked out from document 01.

mod common;

use common::random::Random;
use common::station::Station;
use common::tenants::admitting;
use common::{same_bytes, A, B, RECORD, VENDOR};
use varstore::calls::{BOTH, ENGINE, PAPER};
use varstore::interface::{Answer, Checked, Context, Guid, Key, Rule, Setup, RUNTIME};
use varstore::paper::entry::{self, Contents, ADDED, DELETED, REPLACED, STATE};
use varstore::paper::layout::{Authenticated, Layout, Plain};
use varstore::paper::region;

const BLOCK: usize = 4096;
const ATTRIBUTES: usize = 4;
const UNREADY: Answer = Answer::Refused(Rule::Unready);
const READY: Answer = Answer::Done(0);

/// A region of b blocks in the making: the entries that it has so far.
#[derive(Clone)]
struct Made {
    blocks: usize,
    bytes: Vec<u8>,
}

impl Made {
    fn new<F: Layout>(blocks: usize) -> Made {
        Made { blocks, bytes: region::header::<F>(BLOCK * blocks).to_vec() }
    }

    /// An entry in state 3F; gives its offset.
    fn put<F: Layout>(&mut self, name: &[u8], vendor: &Guid, attributes: u32, data: &[u8]) -> usize {
        let at = self.bytes.len();
        entry::write::<F>(&mut self.bytes, Key { name, vendor }, &Contents { attributes, stamp: &[0; 16], old: data, new: &[] });
        at
    }

    fn with<F: Layout>(mut self, name: &[u8], vendor: &Guid) -> Made {
        self.put::<F>(name, vendor, 0x07, &[7]);
        self
    }

    /// Whole, with a blank work block and spare.
    fn image(&self) -> Vec<u8> {
        let mut image = self.bytes.clone();
        image.resize(BLOCK * (2 * self.blocks + 1), 0xFF);
        image
    }
}

/// What both implementations say of an image in the form in which calls store: they agree, and a start-up agrees with the check.
fn checked(image: &[u8], what: &str) -> Checked {
    let (ours, theirs) = ((PAPER.check)(image), (ENGINE.check)(image));
    assert_eq!(ours, theirs, "check of {what}");
    let started = BOTH.map(|calls| {
        let mut copy = image.to_vec();
        ((calls.start_up)(Context::NO_LIMIT, &mut copy, &admitting(image)).answer, copy)
    });
    assert_eq!(started[0].0, started[1].0, "start-up of {what}");
    same_bytes(what, &started[0].1, &started[1].1);
    ours
}

/// What both say of an image in the plain form, as the source of a move.
fn moved(image: &[u8], what: &str) -> Answer {
    let targets = BOTH.map(|calls| {
        let mut target = vec![0xA5; BLOCK * 15];
        ((calls.from_plain)(image, &mut target), target)
    });
    assert_eq!(targets[0].0, targets[1].0, "move of {what}");
    same_bytes(what, &targets[0].1, &targets[1].1);
    targets[0].0
}

/// The answer on a region in either form: whether it may be used.
trait Judged: Layout {
    fn judged(made: &Made, what: &str) -> bool;
}

impl Judged for Authenticated {
    fn judged(made: &Made, what: &str) -> bool {
        let checked = checked(&made.image(), what);
        assert!(checked.answer == READY || checked.answer == UNREADY, "{what}: {checked:?}");
        checked.answer == READY
    }
}

impl Judged for Plain {
    fn judged(made: &Made, what: &str) -> bool {
        let answer = moved(&made.image(), what);
        assert!(answer == READY || answer == Answer::Refused(Rule::Source), "{what}: {answer:?}");
        answer == READY
    }
}

/// A name of so many bytes, all of one letter.
fn letters(size: usize) -> Vec<u8> {
    let mut name: Vec<u8> = [b'a', 0].into_iter().cycle().take(size).collect();
    name[size - 2..].fill(0);
    name
}

/// A name of so many bytes that has another letter at one character.
fn other_at(size: usize, character: usize) -> Vec<u8> {
    let mut name = letters(size);
    name[2 * character] = b'b';
    name
}

/// Sizes of names. With the GUID's 16 bytes the key has 20, 22, 24, 26, 36, 42, 44, 46, 50, 52, 54, 58, 60, 66, 80, 142 and 144.
const SIZES: [usize; 17] = [4, 6, 8, 10, 20, 26, 28, 30, 34, 36, 38, 42, 44, 50, 64, 126, 128];

#[test]
fn names_that_differ_in_one_character() {
    names_apart::<Authenticated>();
    names_apart::<Plain>();
}

fn names_apart<F: Judged>() {
    for size in SIZES {
        for character in 0..size / 2 - 1 {
            let other = other_at(size, character);
            let apart = Made::new::<F>(1).with::<F>(&letters(size), &VENDOR).with::<F>(&other, &VENDOR);
            assert!(F::judged(&apart, "two names"), "{size} bytes that differ at {character}");
            let doubled = apart.with::<F>(&other, &VENDOR);
            assert!(!F::judged(&doubled, "a doubled name"), "{size} bytes, doubled, with a letter at {character}");
        }
    }
}

#[test]
fn vendors_that_differ_in_one_byte() {
    for byte in 0..16 {
        for name in [letters(4), letters(30), letters(128)] {
            let mut other = VENDOR;
            other[byte] ^= 0x80;
            let apart = Made::new::<Authenticated>(1).with::<Authenticated>(&name, &VENDOR).with::<Authenticated>(&name, &other);
            assert!(Authenticated::judged(&apart, "two vendors"));
            assert!(!Authenticated::judged(&apart.with::<Authenticated>(&name, &other), "a doubled vendor"));
        }
    }
}

/// Names whose characters are the same in another order, and GUIDs whose words have one sum, may well have one mark: they are still not doubled.
#[test]
fn keys_of_equal_sums() {
    let swapped = |size: usize, one: usize, other: usize| {
        let mut name = letters(size);
        (name[2 * one], name[2 * other]) = (b'b', b'c');
        name
    };
    let mut made = Made::new::<Authenticated>(7);
    for size in [30, 46, 128] {
        for distance in [4, 7, 8] {
            made =
                made.with::<Authenticated>(&swapped(size, 1, 1 + distance), &VENDOR).with::<Authenticated>(&swapped(size, 1 + distance, 1), &VENDOR);
        }
    }
    let vendor = |part: u64| -> Guid { [1 + part, 1000 - part].map(u64::to_le_bytes).concat().try_into().expect("16 bytes") };
    for part in 0..64 {
        made = made.with::<Authenticated>(&letters(4), &vendor(part));
    }
    assert!(Authenticated::judged(&made, "equal sums"));
    assert!(!Authenticated::judged(&made.with::<Authenticated>(&letters(4), &vendor(63)), "the last once more"));
}

/// A name of an odd size is wrong in a live entry, of whatever size, and of no account in a dead one.
#[test]
fn names_of_odd_sizes() {
    for size in [5, 27, 29, 31, 35, 37, 127, 129] {
        let mut made = Made::new::<Authenticated>(1).with::<Authenticated>(&letters(size), &VENDOR).with::<Authenticated>(&letters(10), &VENDOR);
        assert!(!Authenticated::judged(&made, "an odd name"), "{size} bytes");
        made.bytes[28 + STATE] = DELETED;
        assert!(Authenticated::judged(&made, "a dead odd name"), "{size} bytes");
    }
}

/// Three entries, of which one is changed: the first, the second or the last.
fn three<F: Layout>(change: usize, name: &[u8], attributes: u32, data: &[u8]) -> (Made, usize) {
    let (mut made, mut place) = (Made::new::<F>(1), 0);
    for index in 0..3 {
        if index == change {
            place = made.put::<F>(name, &VENDOR, attributes, data);
        } else {
            made.put::<F>(&other_at(12, index), &VENDOR, 0x07, &[index as u8; 9]);
        }
    }
    (made, place)
}

/// 01, *sound*: "its state is one of the six", and what of a 3F or 3E entry is asked.
#[test]
fn states_and_attributes() {
    fn each<F: Judged>() {
        for change in 0..3 {
            for value in 0..=0xFF {
                let (mut made, at) = three::<F>(change, &letters(20), 0x07, &[1; 5]);
                made.bytes[at + STATE] = value;
                // an unfinished entry is its header alone: the walk stops at its name, and the tail is not blank
                assert_eq!(F::judged(&made, "a state"), [0x7F, 0x3F, 0x3E, 0x3D, 0x3C].contains(&value), "{value:02X}");
                for (state, counts) in [(ADDED, true), (REPLACED, true), (DELETED, false)] {
                    let (mut made, at) = three::<F>(change, &letters(20), u32::from(value), &[1; 5]);
                    made.bytes[at + STATE] = state;
                    assert_eq!(F::judged(&made, "attributes"), !counts || [0x03, 0x07, 0x23, 0x27].contains(&value), "{value:02X} in {state:02X}");
                }
            }
            for byte in [3, ATTRIBUTES + 1, ATTRIBUTES + 2, ATTRIBUTES + 3] {
                let (mut made, at) = three::<F>(change, &letters(20), 0x07, &[1; 5]);
                made.bytes[at + byte] = 1;
                assert_eq!(F::judged(&made, "a byte of the front"), byte == 3, "byte {byte}");
            }
        }
    }
    each::<Authenticated>();
    each::<Plain>();
}

/// 01: a well-formed name has 4 to 128 bytes, is even, ends in a zero character and has no earlier one.
#[test]
fn characters_of_names() {
    fn each<F: Judged>() {
        for size in 0..=140 {
            let name = if size < 2 { vec![b'a'; size] } else { letters(size) };
            let (made, _) = three::<F>(1, &name, 0x07, &[1]);
            assert_eq!(F::judged(&made, "a size"), (4..=128).contains(&size) && size % 2 == 0, "{size}");
        }
        for size in SIZES {
            for byte in 0..size {
                // a zero character, half of one, and a last character that is none
                let mut zero = letters(size);
                zero[byte & !1..][..2].fill(0);
                assert_eq!(F::judged(&three::<F>(1, &zero, 0x07, &[1]).0, "a zero character"), byte >= size - 2, "{size}, {byte}");
                let mut half = letters(size);
                half[byte] ^= 1;
                assert_eq!(F::judged(&three::<F>(1, &half, 0x07, &[1]).0, "a changed byte"), byte < size - 2, "{size}, {byte}");
                let mut high = letters(size);
                high[byte & !1..][..2].copy_from_slice(&[0, 1]);
                assert_eq!(F::judged(&three::<F>(1, &high, 0x07, &[1]).0, "a high character"), byte < size - 2, "{size}, {byte}");
            }
        }
    }
    each::<Authenticated>();
    each::<Plain>();
}

/// 01: "data size 1 to 2,048", and "ends within the region".
#[test]
fn sizes_of_data_and_ends() {
    fn each<F: Judged>() {
        for size in [0, 1, 2, 3, 4, 5, 2047, 2048, 2049, 2050, 3000] {
            let (made, _) = three::<F>(1, &letters(12), 0x07, &vec![9; size]);
            assert_eq!(F::judged(&made, "data"), (1..=2048).contains(&size), "{size}");
        }
        // the last entry ends with the region, or so many bytes before, or past it
        for name in [4, 12, 30, 128] {
            let mut front = Made::new::<F>(1);
            front.put::<F>(&other_at(12, 0), &VENDOR, 0x07, &[1; 1990]);
            let room = BLOCK - front.bytes.len() - F::HEADER - name;
            for size in room - 8..=room {
                let mut made = front.clone();
                let at = made.put::<F>(&letters(name), &VENDOR, 0x07, &vec![3; size]);
                assert!(F::judged(&made, "an end"), "{name}, {size}");
                for more in [1, 2, 3, 4, 9, 1 << 16, u32::MAX - size as u32] {
                    let mut past = made.clone();
                    past.bytes[at + F::DATA_SIZE..][..4].copy_from_slice(&(size as u32 + more).to_le_bytes());
                    // what it takes in is blank
                    assert_eq!(F::judged(&past, "a later end"), more as usize <= room - size, "{name}, {size} + {more}");
                }
            }
        }
    }
    each::<Authenticated>();
    each::<Plain>();
}

/// A start id where the last header would begin, or where none fits: the walk takes the one for an entry and stops at the other, with a tail that is not blank.
#[test]
fn headers_at_the_end() {
    for state in [0xFF, 0x7F, 0x3F, 0x3E, 0x3C] {
        for left in [52, 56, 60, 64, 68] {
            let mut made = Made::new::<Authenticated>(1);
            made.put::<Authenticated>(&letters(12), &VENDOR, 0x07, &vec![1; 2000]);
            let rest = BLOCK - left - made.bytes.len();
            made.put::<Authenticated>(&letters(14), &VENDOR, 0x07, &vec![1; rest - 74]);
            assert_eq!(made.bytes.len(), BLOCK - left);
            let at = made.put::<Authenticated>(&letters(4), &VENDOR, 0x07, &[1; 1]);
            made.bytes[at + STATE] = state;
            made.bytes.truncate(BLOCK);
            let image = made.image();
            // an unfinished header is an entry where 60 bytes are left; where more are, the name behind it is no blank tail
            let ready = match (state, left) {
                (0xFF, 60) => true,
                (_, 68) => state != 0xFF,
                _ => false,
            };
            assert_eq!(checked(&image, "a header at the end").answer == READY, ready, "{state:02X} with {left} left");
        }
    }
}

/// 01: no name with its GUID has two 3F or two 3E entries; 02 (a): 0x0F under a record's name only, other attributes under any name.
#[test]
fn doubled_names_and_records() {
    let states = [0x7F, ADDED, REPLACED, DELETED, 0x3C];
    for (key, attributes) in [(A, 0x07), (Key { name: &letters(30), vendor: &VENDOR }, 0x23), (RECORD, 0x0F), (RECORD, 0x07)] {
        for between in [0, 1, 20] {
            for first in states {
                for second in states {
                    let mut made = Made::new::<Authenticated>(1);
                    let one = made.put::<Authenticated>(key.name, key.vendor, attributes, &[1; 3]);
                    (0..between).for_each(|index| made = made.clone().with::<Authenticated>(&other_at(64, index), &VENDOR));
                    let two = made.put::<Authenticated>(key.name, key.vendor, attributes, &[2; 30]);
                    (made.bytes[one + STATE], made.bytes[two + STATE]) = (first, second);
                    let doubled = first == second && (first == ADDED || first == REPLACED);
                    assert_eq!(Authenticated::judged(&made, "two entries"), !doubled, "{first:02X} and {second:02X}");
                }
            }
        }
    }
    for attributes in [0x08, 0x0B, 0x0F, 0x2F, 0x4F] {
        let plain = three::<Authenticated>(1, A.name, attributes, &[1]).0;
        assert!(!Authenticated::judged(&plain, "a record's attributes under another name"));
        let mut record = Made::new::<Authenticated>(1);
        record.put::<Authenticated>(RECORD.name, RECORD.vendor, attributes, &[1]);
        assert_eq!(Authenticated::judged(&record, "a record"), attributes == 0x0F);
    }
}

/// 01: the tail, the work block after its records and the spare are FF. One bit that is 0 in them is seen.
#[test]
fn bytes_that_are_not_blank() {
    for (blocks, step) in [(1, 1), (7, 61)] {
        let made = Made::new::<Authenticated>(blocks).with::<Authenticated>(&letters(10), &VENDOR);
        let mut image = made.image();
        let records = BLOCK * blocks..BLOCK * blocks + 64;
        for at in (made.bytes.len()..image.len()).step_by(step).filter(|at| !records.contains(at)) {
            image[at] = 0xFF ^ 1 << (at % 8);
            assert_eq!((PAPER.check)(&image), (ENGINE.check)(&image), "byte {at} of {blocks} blocks");
            assert_eq!((ENGINE.check)(&image).answer, UNREADY, "byte {at} of {blocks} blocks");
            image[at] = 0xFF;
        }
    }
}

/// Random regions of names that are much alike, most of them usual, with a byte of a header or name changed now and then.
#[test]
fn alike_and_damaged() {
    let (mut ready, mut unready) = (0, 0);
    common::rounds::rounds(4, 3000, |r| {
        let blocks = r.pick(&[1, 1, 2, 7]);
        let mut made = Made::new::<Authenticated>(blocks);
        let count = 1 + r.below(12 * blocks);
        for _ in 0..count {
            let (name, vendor) = alike(r);
            let data = vec![r.byte(); 1 + r.below(40)];
            if made.bytes.len() + 60 + name.len() + data.len() + 4 > BLOCK * blocks {
                break;
            }
            let attributes = r.pick(&[0x07, 0x07, 0x03, 0x27]);
            let at = made.put::<Authenticated>(&name, &vendor, attributes, &data);
            match r.below(40) {
                0 => made.bytes[at + r.below(8)] = r.byte(),
                1 => made.bytes[at + 36 + r.below(8)] ^= 1 << r.below(8),
                2 => made.bytes[at + 60 + r.below(name.len())] = 0,
                3 | 4 => made.bytes[at + STATE] = REPLACED,
                5..=9 => made.bytes[at + STATE] = DELETED,
                _ => {}
            }
        }
        let image = made.image();
        let checked = checked(&image, "a random region");
        *(if checked.answer == READY { &mut ready } else { &mut unready }) += 1;
    });
    assert!(ready > 300 && unready > 300, "{ready} ready, {unready} not");
}

/// A name of one letter but for one or two characters, under one of two vendors. Of long names there are many, so that few are doubled.
fn alike(r: &mut Random) -> (Vec<u8>, Guid) {
    let size = r.pick(&SIZES[4..]);
    let mut name = letters(size);
    for _ in 0..2 {
        name[2 * r.below(size / 2 - 1)] = r.byte() | 1;
    }
    let mut vendor = VENDOR;
    vendor[r.below(16)] ^= r.pick(&[0, 0, 1, 0x80]);
    (name, vendor)
}

/// Values that leave `free` bytes after the tail, with so many deleted entries of 128 bytes among them. Their names are of one character each.
fn filled(blocks: usize, free: usize, deleted: usize) -> Vec<u8> {
    let mut made = Made::new::<Authenticated>(blocks);
    for index in 0..deleted {
        let at = made.put::<Authenticated>(&[b'd', 1 + index as u8, 0, 0], &VENDOR, 0x07, &[1; 64]);
        made.bytes[at + STATE] = DELETED;
    }
    let mut left = BLOCK * blocks - free - made.bytes.len();
    for index in 1.. {
        // a last one that takes what is left
        let size = if left <= 2112 { left } else { 1000.min(left - 68) };
        made.put::<Authenticated>(&[b'v', index, 0, 0], &VENDOR, 0x07, &vec![1; size - 64]);
        left -= size;
        if left == 0 {
            break;
        }
    }
    assert_eq!(made.bytes.len(), BLOCK * blocks - free);
    made.image()
}

/// Rule 13 at its boundary: "28 plus the rounded entry sizes of all values after the change, plus R at runtime, exceeds L", where our share is what 28 and H leave of L.
#[test]
fn room_at_the_tail() {
    for blocks in [1, 7] {
        for (reserve, records, phase) in [(0u32, 0u32, 0), (100, 0, 0), (100, 0, RUNTIME), (0, 500, 0), (100, 500, RUNTIME), (97, 505, RUNTIME)] {
            // a set of A with 100 bytes takes 164
            let kept = (records + if phase == RUNTIME { reserve } else { 0 }) as usize;
            for deleted in [0, 1, 3] {
                for short in [0, 4, 128, 132, 384, 388] {
                    let free = (164 + kept).next_multiple_of(4).saturating_sub(short);
                    let image = filled(blocks, free, deleted);
                    for calls in BOTH {
                        let setup = Setup { reserve, ..Setup::alone(BLOCK * (2 * blocks + 1)) }.with_records(records);
                        let mut station = Station::new(calls, &setup, image.clone()).in_phase(phase);
                        assert_eq!(station.tail(), BLOCK * blocks - free);
                        // what deleted entries hold is room too
                        let room = free + 128 * deleted >= 164 + kept;
                        let answer = station.set(A, 0x07, &[5; 100]);
                        let what =
                            format!("{}: b = {blocks}, R = {reserve}, H = {records}, phase {phase}, {deleted} deleted, {free} free", calls.who);
                        assert_eq!(answer == Answer::Refused(Rule::Room), !room, "{what}: {answer:?}");
                        assert!(!room || matches!(answer, Answer::Done(_)), "{what}: {answer:?}");
                    }
                }
            }
        }
    }
}

/// The same with a value that is replaced or appended to, which is no longer counted, and with data a byte longer than fit.
#[test]
fn room_of_what_is_replaced() {
    for blocks in [1, 7] {
        for (reserve, records, phase) in [(0, 0, 0), (40, 200, RUNTIME)] {
            let kept = (records + if phase == RUNTIME { reserve } else { 0u32 }) as usize;
            for size in [96, 97, 100, 101] {
                for append in [false, true] {
                    let answers = BOTH.map(|calls| {
                        let setup = Setup { reserve, ..Setup::alone(BLOCK * (2 * blocks + 1)) }.with_records(records);
                        let mut station = Station::new(calls, &setup, filled(blocks, 104 + 164 + kept, 0));
                        // 104 bytes of B, then 164 and what is kept free are left
                        assert!(matches!(station.set(B, 0x07, &[1; 40]), Answer::Done(_)));
                        assert_eq!(station.tail(), BLOCK * blocks - 164 - kept);
                        station.session = (calls.phase)(station.session, phase);
                        let (attributes, data) = if append { (0x47, &[2; 300][..size + 64]) } else { (0x07, &[2; 300][..size + 104]) };
                        let answer = station.set(B, attributes, data);
                        (answer, station.image)
                    });
                    assert_eq!(answers[0].0, answers[1].0, "{size}, {append}");
                    same_bytes("image", &answers[0].1, &answers[1].1);
                    // B's 104 bytes come free: 268 are there for 64 and the data
                    assert_eq!(answers[0].0 == Answer::Refused(Rule::Room), size > 100, "{size}, {append}: {:?}", answers[0].0);
                }
            }
        }
    }
}

/// Error records are judged by H and by all values, not by what is kept free after the tail.
#[test]
fn room_of_records() {
    for blocks in [1, 7] {
        for free in [84, 88, 92, 200] {
            for records in [0, 84, 88, 4000] {
                let answers = BOTH.map(|calls| {
                    let setup = Setup::alone(BLOCK * (2 * blocks + 1)).with_records(records);
                    let mut station = Station::new(calls, &setup, filled(blocks, free, 0));
                    let answer = station.set(RECORD, 0x0F, &[1; 2]);
                    (answer, station.image)
                });
                assert_eq!(answers[0].0, answers[1].0, "{free}, {records}");
                same_bytes("image", &answers[0].1, &answers[1].1);
                match answers[0].0 {
                    Answer::Refused(Rule::RecordRoom) => assert!(records < 88, "{free}, {records}"),
                    Answer::Refused(Rule::Room) => assert!(records >= 88 && free < 88, "{free}, {records}"),
                    answer => assert!(matches!(answer, Answer::Done(_)) && records >= 88 && free >= 88, "{free}, {records}: {answer:?}"),
                }
            }
        }
    }
}
