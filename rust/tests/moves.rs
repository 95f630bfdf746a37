//! 02 (d): an image moved from the plain form to the new one, or back, into another image. First stores made byte by byte here, with the image that must come
//! of them, in both implementations; then random ones, the paper's implementation against the engine.

mod common;

use std::collections::BTreeMap;

use common::book::{Book, Value};
use common::generate::{self, BLOCK};
use common::random::Random;
use common::tenants::admitting;
use common::{same_bytes, signed, A, B, NEW, OLD, RATE, VENDOR};
use varstore::calls::{Calls, Move, BOTH, ENGINE, PAPER};
use varstore::interface::{Answer, Context, Guid, Key, Request, Rule, Setup};
use varstore::paper::layout::{Authenticated, Layout, Plain};

// ---- stores made by hand

#[derive(Clone, Copy, PartialEq, Eq, Debug)]
enum Form {
    InNew,
    InPlain,
}

use Form::{InNew, InPlain};

impl Form {
    const BOTH: [Form; 2] = [InNew, InPlain];

    fn other(self) -> Form {
        match self {
            InNew => InPlain,
            InPlain => InNew,
        }
    }

    /// The move out of this form.
    fn out(self, calls: &Calls) -> Move {
        match self {
            InNew => calls.to_plain,
            InPlain => calls.from_plain,
        }
    }

    fn header(self) -> usize {
        match self {
            InNew => 60,
            InPlain => 32,
        }
    }
}

/// An entry, with what its writer may have left in the bytes that nobody looks at.
#[derive(Clone)]
struct Entry {
    state: u8,
    attributes: u32,
    key: Key<'static>,
    data: Vec<u8>,
    /// Byte 3, count and key index.
    zeros: u8,
    stamp: u8,
    padding: u8,
}

fn entry(state: u8, attributes: u32, key: Key<'static>, data: &[u8]) -> Entry {
    Entry { state, attributes, key, data: data.to_vec(), zeros: 0, stamp: 0, padding: 0xFF }
}

fn added(key: Key<'static>, data: &[u8]) -> Entry {
    entry(0x3F, 0x07, key, data)
}

impl Entry {
    fn bytes(&self, form: Form) -> Vec<u8> {
        let mut bytes = vec![0xAA, 0x55, self.state, self.zeros];
        bytes.extend_from_slice(&self.attributes.to_le_bytes());
        if form == InNew {
            bytes.extend_from_slice(&[self.zeros; 8]);
            bytes.extend_from_slice(&[self.stamp; 16]);
            bytes.extend_from_slice(&[self.zeros; 4]);
        }
        bytes.extend_from_slice(&(self.key.name.len() as u32).to_le_bytes());
        bytes.extend_from_slice(&(self.data.len() as u32).to_le_bytes());
        bytes.extend_from_slice(self.key.vendor);
        assert_eq!(bytes.len(), form.header());
        bytes.extend_from_slice(self.key.name);
        bytes.extend_from_slice(&self.data);
        bytes.resize(bytes.len().next_multiple_of(4), self.padding);
        bytes
    }
}

fn region_header(form: Form, blocks: usize) -> Vec<u8> {
    let signature = match form {
        InNew => [0x78, 0x2C, 0xF3, 0xAA, 0x7B, 0x94, 0x9A, 0x43, 0xA1, 0x80, 0x2E, 0x14, 0x4E, 0xC3, 0x77, 0x92],
        InPlain => [0x16, 0x36, 0xCF, 0xDD, 0x75, 0x32, 0x64, 0x41, 0x98, 0xB6, 0xFE, 0x85, 0x70, 0x7F, 0xFE, 0x7D],
    };
    let size = (BLOCK as u32 * blocks as u32).to_le_bytes();
    [&signature[..], &size, &[0x5A, 0xFE, 0, 0, 0, 0, 0, 0]].concat()
}

/// A region of these bytes behind its header, an unused work block, a blank spare.
fn image_of_bytes(form: Form, blocks: usize, bytes: &[u8]) -> Vec<u8> {
    let mut image = [&region_header(form, blocks), bytes].concat();
    assert!(image.len() <= BLOCK * blocks, "{} bytes in {blocks} blocks", image.len());
    image.resize(BLOCK * (2 * blocks + 1), 0xFF);
    image
}

fn image(form: Form, blocks: usize, entries: &[Entry]) -> Vec<u8> {
    image_of_bytes(form, blocks, &entries.iter().flat_map(|entry| entry.bytes(form)).collect::<Vec<u8>>())
}

/// What a target held before does not matter, but a refused move leaves it.
fn used_target(blocks: usize) -> Vec<u8> {
    let mut r = Random::new(7);
    r.bytes(BLOCK * (2 * blocks + 1))
}

/// Both implementations move the source out of a form into exactly this image.
fn gives(what: &str, form: Form, source: &[u8], expected: &[u8]) {
    for calls in BOTH {
        let before = source.to_vec();
        for mut target in [used_target((expected.len() / BLOCK - 1) / 2), vec![0; expected.len()], vec![0xFF; expected.len()]] {
            assert_eq!(form.out(&calls)(&before, &mut target), Answer::Done(0), "{what} out of {form:?} by {}", calls.who);
            let differs = expected.iter().zip(&target).position(|(expected, found)| expected != found);
            assert_eq!(differs, None, "{what} out of {form:?} by {} differs first at this byte", calls.who);
        }
    }
}

/// Both implementations refuse with a rule, and the target keeps every byte.
fn refuses(what: &str, rule: Rule, form: Form, source: &[u8], blocks: usize) {
    for calls in BOTH {
        let (mut target, before) = (used_target(blocks), used_target(blocks));
        assert_eq!(form.out(&calls)(source, &mut target), Answer::Refused(rule), "{what} out of {form:?} by {}", calls.who);
        assert!(target == before, "{what} out of {form:?} by {} is refused, and changes its target", calls.who);
    }
}

const X63: Key = Key { name: &long_name(), vendor: &VENDOR };
const OTHER_VENDOR: Guid = [0x21; 16];
const RATE_OF_OTHER: Key = Key { name: RATE.name, vendor: &OTHER_VENDOR };
const C: Key = Key { name: b"C\0\0\0", vendor: &VENDOR };

/// 63 characters and a zero character.
const fn long_name() -> [u8; 128] {
    let mut name = [0; 128];
    let mut at = 0;
    while at < 126 {
        name[at] = b'x';
        at += 2;
    }
    name
}

/// "which then holds header, values as 3F entries, and FF. Values, attributes and order are kept".
#[test]
fn values_attributes_and_order() {
    let entries = [added(RATE, OLD), entry(0x3F, 0x03, X63, &[7; 300]), added(A, &[1]), added(RATE_OF_OTHER, NEW), entry(0x3F, 0x03, B, &[9; 2048])];
    for form in Form::BOTH {
        gives("five values", form, &image(form, 1, &entries), &image(form.other(), 1, &entries));
        gives("no value", form, &image(form, 1, &[]), &image(form.other(), 1, &[]));
    }
}

/// A value with 0x20 goes to the new form with a stamp of zeros, and from there to the plain form not at all.
#[test]
fn time_based_values() {
    let entries = [added(RATE, OLD), entry(0x3F, 0x27, A, &[1, 2, 3]), entry(0x3F, 0x23, B, &[4])];
    gives("time-based values", InPlain, &image(InPlain, 1, &entries), &image(InNew, 1, &entries));
    for time_based in [1, 2] {
        refuses("a time-based value", Rule::TimeBased, InNew, &image(InNew, 1, &[entries[0].clone(), entries[time_based].clone()]), 1);
    }
    // deleted ones, and a leftover of other attributes, are no values
    let gone = [entry(0x3D, 0x27, A, &[1]), entry(0x3E, 0x27, RATE, &[1]), entry(0x3C, 0x23, B, &[1]), entry(0x7F, 0x27, C, &[1]), added(RATE, OLD)];
    gives("no time-based value", InNew, &image(InNew, 1, &gone), &image(InPlain, 1, &[added(RATE, OLD)]));
    // a 3E entry alone is
    let lone = [entry(0x3E, 0x27, A, &[1]), added(RATE, OLD)];
    refuses("a lone time-based value", Rule::TimeBased, InNew, &image(InNew, 1, &lone), 1);
}

/// All six states: a name's value is its 3F entry, else its 3E entry; the others are not moved.
#[test]
fn states() {
    let entries = [
        entry(0x3C, 0x07, RATE, &[1; 50]),
        entry(0x3E, 0x07, A, b"leftover"),
        entry(0x3E, 0x03, B, b"alone"),
        entry(0x3D, 0x07, B, b"deleted"),
        entry(0x7F, 0x07, RATE, b"header valid"),
        added(A, b"value"),
        entry(0x3E, 0x07, RATE, b"behind its value"),
        added(C, b"last"),
    ];
    let moved = [entry(0x3F, 0x03, B, b"alone"), added(A, b"value"), entry(0x3F, 0x07, RATE, b"behind its value"), added(C, b"last")];
    for form in Form::BOTH {
        gives("states", form, &image(form, 1, &entries), &image(form.other(), 1, &moved));
        for state in 0..=0xFF {
            let source = image(form, 1, &[added(A, b"value"), entry(state, 0x07, RATE, OLD)]);
            match state {
                0x3F | 0x3E => gives("a value", form, &source, &image(form.other(), 1, &[added(A, b"value"), added(RATE, OLD)])),
                0x3D | 0x3C | 0x7F => gives("no value", form, &source, &image(form.other(), 1, &[added(A, b"value")])),
                // an unfinished entry is its header alone, and what stands behind it is no entry: the tail is not FF
                _ => refuses(&format!("state {state:02X}"), Rule::Source, form, &source, 1),
            }
        }
    }
}

/// Byte 3, count, key index and padding are not looked at; in the target they are 0, 0, 0, FF. Stamps become zero in the new form.
#[test]
fn bytes_that_nobody_looks_at() {
    for form in Form::BOTH {
        for foreign in [0x00, 0x01, 0x5A, 0xFF] {
            let mut entries = [added(RATE, OLD), added(A, &[1]), added(B, &[1, 2, 3])];
            let moved = image(form.other(), 1, &entries);
            for entry in &mut entries {
                (entry.zeros, entry.stamp, entry.padding) = (foreign, foreign, foreign);
            }
            gives("foreign bytes", form, &image(form, 1, &entries), &moved);
        }
    }
}

/// An unfinished header counts as a header's length, whatever its sizes say; the next entry begins there.
#[test]
fn unfinished_entries() {
    for form in Form::BOTH {
        let header = form.header();
        let moved = image(form.other(), 1, &[added(RATE, OLD), added(B, &[5])]);
        for sizes in [[0; 4], [0xFF; 4], [0, 0, 0, 0x80], [0x04, 0, 0, 0], [0, 0x08, 0, 0], [0xE0, 0xFF, 0xFF, 0xFF]] {
            let mut unfinished = vec![0xFF; header];
            unfinished[..2].copy_from_slice(&[0xAA, 0x55]);
            unfinished[header - 24..][..4].copy_from_slice(&sizes);
            unfinished[header - 20..][..4].copy_from_slice(&sizes);
            let bytes = [added(RATE, OLD).bytes(form), unfinished.clone(), unfinished, added(B, &[5]).bytes(form)].concat();
            gives("unfinished entries", form, &image_of_bytes(form, 1, &bytes), &moved);
        }
    }
}

/// "the walk stops where under" a header's length remains: at the region's end a start id is an entry's with room for a header, and else of the tail.
#[test]
fn at_the_end_of_the_region() {
    for form in Form::BOTH {
        for left in (0..=64).step_by(4) {
            // one value of a size that leaves so many bytes
            let bytes = BLOCK - 28 - left;
            let names = [added(A, &[1; 2040]), added(B, &vec![2; bytes - added(A, &[1; 2040]).bytes(form).len() - form.header() - 4])];
            let mut source = image(form, 1, &names);
            let moved = image(form.other(), 2, &names);
            gives("nothing at the end", form, &source, &moved);
            if left > 0 {
                source[BLOCK - left..][..2].copy_from_slice(&[0xAA, 0x55]);
                match left >= form.header() {
                    true => gives("a header at the end", form, &source, &moved),
                    false => refuses("a start id at the end", Rule::Source, form, &source, 2),
                }
            }
        }
    }
}

/// "13, without reserves, on the target": exactly full is accepted, a byte more is not; a source exactly full may want another block.
#[test]
fn room() {
    for form in Form::BOTH {
        for blocks in 1..=7 {
            // values of 2,048 bytes of data, and one that fills the target up
            let mut entries = Vec::new();
            let mut left = BLOCK * blocks - 28;
            while left > 4096 {
                entries.push(added(Key { name: &NAMES[entries.len()], vendor: &VENDOR }, &[3; 2048]));
                left -= form.other().header() + 4 + 2048;
            }
            let half = left / 2 / 4 * 4;
            let rest = [half, left - half].map(|size| size - form.other().header() - 4);
            for (name, size) in [A, B].into_iter().zip(rest) {
                entries.push(added(name, &vec![4; size]));
            }
            if form == InNew && blocks == 7 {
                // what fills seven plain blocks is more than seven new ones hold
                continue;
            }
            gives("exactly full", form, &image(form, 7, &entries), &image(form.other(), blocks, &entries));
            // padding is counted, so a byte less still fills it
            entries.last_mut().expect("some").data.pop();
            gives("a byte less", form, &image(form, 7, &entries), &image(form.other(), blocks, &entries));
            entries.last_mut().expect("some").data.extend([4, 4]);
            refuses("a byte more", Rule::Room, form, &image(form, 7, &entries), blocks);
            if blocks < 7 {
                gives("a byte more in another block", form, &image(form, 7, &entries), &image(form.other(), blocks + 1, &entries));
            }
        }
    }
    // of one block exactly full, 28 + 32 + 4 + 2,048 + 32 + 4 + 1,948 = 4,096: in the new form 56 bytes more
    let full = [added(A, &[1; 2048]), added(B, &[2; 1948])];
    refuses("a full plain block", Rule::Room, InPlain, &image(InPlain, 1, &full), 1);
    gives("a full plain block in two", InPlain, &image(InPlain, 1, &full), &image(InNew, 2, &full));
    // 28 + 60 + 4 + 2,048 + 60 + 4 + 1,892 = 4,096
    let full = [added(A, &[1; 2048]), added(B, &[2; 1892])];
    gives("the paper's full block", InNew, &image(InNew, 1, &full), &image(InPlain, 1, &full));
    gives("and home", InPlain, &image(InPlain, 1, &full), &image(InNew, 1, &full));
}

/// One character each, and none of those that have a constant.
const NAMES: [[u8; 4]; 16] = names();

const fn names() -> [[u8; 4]; 16] {
    let mut names = [[0; 4]; 16];
    let mut at = 0;
    while at < 16 {
        names[at][0] = b'a' + at as u8;
        at += 1;
    }
    names
}

/// "1 is tried on both": each image by itself, every b with every other, and no other lengths.
#[test]
fn lengths() {
    for form in Form::BOTH {
        for (from, to) in (1..=7).flat_map(|from| (1..=7).map(move |to| (from, to))) {
            let entries = [added(RATE, OLD), added(A, &[1])];
            gives(&format!("b {from} to b {to}"), form, &image(form, from, &entries), &image(form.other(), to, &entries));
        }
        let whole = image(form, 7, &[added(RATE, OLD)]);
        let long = [whole.clone(), vec![0xFF; 3 * BLOCK]].concat();
        let right = |length: usize| length % (2 * BLOCK) == BLOCK && (3 * BLOCK..=15 * BLOCK).contains(&length);
        let around = (0..=17).flat_map(|blocks| [(blocks * BLOCK).saturating_sub(1), blocks * BLOCK, blocks * BLOCK + 1]);
        for length in around.chain([27, 28, 60, 100]) {
            for calls in BOTH {
                let mut target = vec![0x5A; 3 * BLOCK];
                let answer = form.out(&calls)(&long[..length], &mut target);
                // the size field is that of b = 7, so another b's source is not of its form
                let rule = if !right(length) { Some(Rule::Length) } else { (length != 15 * BLOCK).then_some(Rule::Source) };
                assert_eq!(answer, rule.map_or(Answer::Done(0), Answer::Refused), "a source of {length} bytes by {}", calls.who);
                assert!(rule.is_none() || target == vec![0x5A; 3 * BLOCK], "a refused move into its target by {}", calls.who);
                let mut target = vec![0x5A; length];
                let answer = form.out(&calls)(&whole, &mut target);
                let expected = if right(length) { Answer::Done(0) } else { Answer::Refused(Rule::Length) };
                assert_eq!(answer, expected, "a target of {length} bytes by {}", calls.who);
                assert!(right(length) || target == vec![0x5A; length], "a refused move into its target by {}", calls.who);
            }
        }
    }
}

/// "1 is tried on both; .. 19, in the place of 2 .. 20 .. after 19", and 13 last.
#[test]
fn order_of_the_rules() {
    let unfit = [entry(0x3F, 0x27, A, &[1; 2048]), entry(0x3F, 0x07, B, &[2; 2000])];
    let mut source = image(InNew, 2, &unfit);
    refuses("20 before 13", Rule::TimeBased, InNew, &source, 1);
    source[BLOCK * 2 - 1] = 0;
    refuses("19 before 20", Rule::Source, InNew, &source, 1);
    for calls in BOTH {
        let mut target = vec![0x5A; 3 * BLOCK + 1];
        assert_eq!((calls.to_plain)(&source, &mut target), Answer::Refused(Rule::Length), "1 of the target before 19 by {}", calls.who);
        assert!(target.iter().all(|&byte| byte == 0x5A));
    }
    let fit = image(InNew, 2, &[unfit[1].clone(), added(A, &[1; 2048])]);
    refuses("13", Rule::Room, InNew, &fit, 1);
}

/// The source's form is the caller's to name: a source of the other form is refused.
#[test]
fn other_form() {
    for form in Form::BOTH {
        for entries in [&[][..], &[added(RATE, OLD)]] {
            refuses("the other form", Rule::Source, form, &image(form.other(), 1, entries), 1);
        }
    }
}

/// "19, in the place of 2, when the source breaks 2 in its form".
#[test]
fn sources_that_break_2() {
    for form in Form::BOTH {
        let entries = [added(RATE, OLD), entry(0x3E, 0x07, A, &[1]), entry(0x3D, 0x07, B, &[2])];
        let source = image(form, 1, &entries);
        let moved = image(form.other(), 1, &[added(RATE, OLD), added(A, &[1])]);
        let changed = |at: usize, byte: u8| {
            let mut image = source.clone();
            image[at] = byte;
            image
        };
        gives("as it is", form, &source, &moved);
        for (at, bit) in (0..28).flat_map(|at| (0..8).map(move |bit| (at, bit))) {
            refuses(&format!("bit {bit} of byte {at}"), Rule::Source, form, &changed(at, source[at] ^ 1 << bit), 1);
        }
        let used = 28 + entries.iter().map(|entry| entry.bytes(form).len()).sum::<usize>();
        for at in [used, used + 1, BLOCK - 1] {
            refuses(&format!("byte {at} of the tail"), Rule::Source, form, &changed(at, 0xFE), 1);
        }
        for at in [2 * BLOCK, 3 * BLOCK - 1] {
            refuses(&format!("byte {at} of the spare"), Rule::Source, form, &changed(at, 0x7F), 1);
        }
        for record in 0..0xFF {
            match record {
                0xFE | 0xF8 => gives("a work block in use", form, &changed(BLOCK, record), &moved),
                _ => refuses(&format!("record {record:02X}"), Rule::Source, form, &changed(BLOCK, record), 1),
            }
        }
        refuses("a record after an unused one", Rule::Source, form, &changed(BLOCK + 1, 0xF8), 1);
        refuses("behind the records", Rule::Source, form, &changed(BLOCK + 64, 0xFE), 1);
        // in 01 this is pending, and a start-up would resume it
        let mut pending = changed(BLOCK, 0xFC);
        pending.copy_within(..BLOCK, 2 * BLOCK);
        refuses("a compaction to be resumed", Rule::Source, form, &pending, 1);
    }
}

/// What makes a region of either form sound: names, data sizes, attributes, sizes within the region, no name twice.
#[test]
fn sources_that_are_not_sound() {
    let key = |name: &'static [u8]| Key { name, vendor: &VENDOR };
    for form in Form::BOTH {
        let source = |entry: &Entry| image(form, 2, &[added(C, &[1]), entry.clone()]);
        for name in [&b"A\0"[..], b"\0\0", b"A\0B\0", b"A\0\0", b"\0\0\0\0", b"A\0\0\0B\0\0\0", &[7; 130], &[0; 128], b""] {
            refuses(&format!("name {name:X?}"), Rule::Source, form, &source(&added(key(name), &[1])), 2);
            // of an entry that is no value the name does not matter
            gives("deleted", form, &source(&entry(0x3D, 0x07, key(name), &[1])), &image(form.other(), 2, &[added(C, &[1])]));
        }
        for attributes in 0..=0xFF {
            let one = entry(0x3F, attributes, RATE, OLD);
            match attributes {
                0x03 | 0x07 => gives("attributes", form, &source(&one), &image(form.other(), 2, &[added(C, &[1]), one.clone()])),
                0x23 | 0x27 if form == InPlain => gives("attributes", form, &source(&one), &image(InNew, 2, &[added(C, &[1]), one.clone()])),
                0x23 | 0x27 => refuses("attributes", Rule::TimeBased, form, &source(&one), 2),
                _ => refuses(&format!("attributes {attributes:02X}"), Rule::Source, form, &source(&one), 2),
            }
        }
        refuses("attributes above a byte", Rule::Source, form, &source(&entry(0x3F, 0x107, RATE, OLD)), 2);
        for size in [0, 2049] {
            refuses(&format!("{size} bytes of data"), Rule::Source, form, &source(&added(RATE, &vec![1; size])), 2);
        }
        for size in [1, 2048] {
            let one = added(RATE, &vec![1; size]);
            gives("sizes", form, &source(&one), &image(form.other(), 2, &[added(C, &[1]), one.clone()]));
        }
        for state in [0x3F, 0x3E, 0x7F, 0x3D, 0x3C] {
            for (field, size) in
                [24, 20].into_iter().flat_map(|field| [8192, u32::MAX, u32::MAX - 3, u32::MAX - 59, 1 << 31].map(|size| (field, size)))
            {
                let mut image = source(&entry(state, 0x07, RATE, OLD));
                let at = 28 + added(C, &[1]).bytes(form).len() + form.header() - field;
                image[at..][..4].copy_from_slice(&size.to_le_bytes());
                refuses(&format!("state {state:02X} with a size of {size}"), Rule::Source, form, &image, 2);
            }
        }
        for (first, second, fits) in [(0x3F, 0x3F, false), (0x3E, 0x3E, false), (0x3F, 0x3E, true), (0x3E, 0x3F, true), (0x3D, 0x3D, true)] {
            let source = image(form, 1, &[entry(first, 0x07, RATE, OLD), entry(second, 0x07, RATE, NEW), added(RATE_OF_OTHER, OLD)]);
            if fits {
                let value = [(first, OLD), (second, NEW)].into_iter().find(|&(state, _)| state == 0x3F).map(|(_, data)| added(RATE, data));
                let moved: Vec<_> = value.into_iter().chain([added(RATE_OF_OTHER, OLD)]).collect();
                gives("a name twice", form, &source, &image(form.other(), 1, &moved));
            } else {
                refuses("a name twice", Rule::Source, form, &source, 1);
            }
        }
    }
}

/// "on what a done one leaves in the new form a run of 01 may begin": its start-up makes no stores, and the tail takes sets.
#[test]
fn a_run_begins() {
    for calls in BOTH {
        let source = image(InPlain, 1, &[added(RATE, OLD), entry(0x3E, 0x27, A, &[1])]);
        let mut station = used_target(2);
        assert_eq!((calls.from_plain)(&source, &mut station), Answer::Done(0));
        let before = station.clone();
        let started = (calls.start_up)(Context::NO_LIMIT, &mut station, &Setup::PLAIN);
        assert_eq!(started.answer, Answer::Done(0));
        assert!(station == before, "a start-up on a moved image");
        let set = |image: &mut [u8], key, attributes, data: &[u8], verdict| {
            let request = Request { key, attributes, data, presence: 0, verdict };
            (calls.set)(Context::NO_LIMIT, &started.session, image, &request)
        };
        // document 01's numbers: replaced 77, deleted 1, new 75
        assert_eq!(set(&mut station, RATE, 0x07, OLD, 0), Answer::Done(0));
        assert_eq!(set(&mut station, RATE, 0x07, NEW, 0), Answer::Done(77));
        assert_eq!(set(&mut station, RATE, 0, &[], 0), Answer::Done(1));
        assert_eq!(set(&mut station, RATE, 0x07, OLD, 0), Answer::Done(75));
        // the stamp is zeros, so any is later
        assert_eq!(set(&mut station, A, 0x27, &signed(1, &[9]), 4), Answer::Done(60 - 1 + 4 + 1 + 4));
        let book = Book::of(&station);
        assert_eq!(book.values.iter().map(|value| (value.name.key(), &value.data[..])).collect::<Vec<_>>(), [(RATE, OLD), (A, &[9])]);
        book.check_listed(&calls, &station);
    }
}

/// Of a store that a real EDK II wrote: OVMF 2022.11 on a blank store with the plain signature, as far as it was used; `tools/interop` has the shell's commands,
/// and says where it comes from. EDK II replaces a value by marking the old entry and adding the new one behind.
#[test]
fn a_store_of_edk2() {
    let path = std::path::Path::new(env!("CARGO_MANIFEST_DIR")).join("vectors/edk2_plain.store");
    let mut source = std::fs::read(path).expect("the store");
    source[16..20].copy_from_slice(&(7 * BLOCK as u32).to_le_bytes());
    source.resize(15 * BLOCK, 0xFF);
    let second: Guid = std::array::from_fn(|at| 0x21 + at as u8);
    let longest: Vec<u8> = b"N\0".repeat(63).into_iter().chain([0, 0]).collect();
    for calls in BOTH {
        let mut target = used_target(7);
        assert_eq!((calls.from_plain)(&source, &mut target), Answer::Done(0), "by {}", calls.who);
        let values = Book::of(&target).values;
        let set: Vec<_> = values.iter().filter(|value| [VENDOR, second].contains(&value.name.vendor)).collect();
        let told: Vec<_> = set.iter().map(|value| (value.name.vendor, &value.name.name[..], value.attributes, &value.data[..])).collect();
        let expected: [(Guid, &[u8], u32, &[u8]); 4] = [
            (VENDOR, b"N\0O\0T\0E\0\0\0", 0x03, &[1, 2, 3]),
            (VENDOR, RATE.name, 0x07, &[200, 0, 0, 0]),
            (second, RATE.name, 0x03, &[0x5A]),
            (second, &longest, 0x07, &[4, 5, 6, 7, 8]),
        ];
        assert_eq!(told, expected, "by {}", calls.who);
        let mut home = used_target(7);
        assert_eq!((calls.to_plain)(&target, &mut home), Answer::Done(0), "home by {}", calls.who);
        assert_eq!(unstamped::<Plain>(&home), values, "home by {}", calls.who);
    }
}

// ---- random images

/// How often each move has given each answer.
type Tally = BTreeMap<(&'static str, String), usize>;

/// The same source into the same target by both implementations.
fn both(what: &'static str, ours: Move, theirs: Move, source: &[u8], target: &[u8], tally: &mut Tally) -> (Answer, Vec<u8>) {
    let (mut first, mut second) = (target.to_vec(), target.to_vec());
    let answer = ours(source, &mut first);
    assert_eq!(answer, theirs(source, &mut second), "{what}");
    same_bytes(what, &first, &second);
    assert!(answer == Answer::Done(0) || first == target, "a refused {what} changed its target");
    *tally.entry((what, format!("{answer:?}"))).or_default() += 1;
    (answer, first)
}

fn from_plain(source: &[u8], target: &[u8], tally: &mut Tally) -> (Answer, Vec<u8>) {
    both("move from the plain form", PAPER.from_plain, ENGINE.from_plain, source, target, tally)
}

fn to_plain(source: &[u8], target: &[u8], tally: &mut Tally) -> (Answer, Vec<u8>) {
    both("move to the plain form", PAPER.to_plain, ENGINE.to_plain, source, target, tally)
}

/// A target of random bytes; once in some times of a length that is no image's.
fn target(r: &mut Random) -> Vec<u8> {
    let length = BLOCK * (2 * generate::blocks(r) + 1);
    let length = if r.once_in(30) { r.pick(&[0, length - 1, length + 1, length + BLOCK, 2 * BLOCK]) } else { length };
    let bytes = r.bytes(64);
    bytes.into_iter().cycle().take(length).collect()
}

/// The list of values with stamps of zeros.
fn unstamped<F: Layout>(image: &[u8]) -> Vec<Value> {
    let values = Book::of_form::<F>(image).values;
    values.into_iter().map(|value| Value { stamp: [0; 16], ..value }).collect()
}

fn expect_all_seen(tally: &Tally, what: &'static str, rules: &[Rule]) {
    let answers = rules.iter().map(|&rule| Answer::Refused(rule)).chain([Answer::Done(0)]);
    for answer in answers {
        assert!(tally.contains_key(&(what, format!("{answer:?}"))), "no {what} was {answer:?}");
    }
}

/// Any source into any target, and the images that come of it out again: "Where both moves are accepted, moving out and home gives the same list, stamps apart".
#[test]
fn out_and_home() {
    let (mut tally, mut home) = (Tally::new(), [0; 2]);
    let rounds = common::rounds::rounds(4, 2000, |r| {
        let (plain, new) = (generate::image_of::<Plain>(r), generate::image_of::<Authenticated>(r));
        let (first, second) = (target(r), target(r));
        if let (Answer::Done(0), moved) = from_plain(&plain, &first, &mut tally) {
            assert_eq!(Book::of(&moved).values, unstamped::<Plain>(&plain), "moved from the plain form");
            Book::of(&moved).check_listed(&ENGINE, &moved);
            if let (Answer::Done(0), back) = to_plain(&moved, &second, &mut tally) {
                assert_eq!(unstamped::<Plain>(&back), unstamped::<Plain>(&plain), "out of the plain form and home");
                home[0] += 1;
            }
        }
        if let (Answer::Done(0), moved) = to_plain(&new, &first, &mut tally) {
            assert_eq!(unstamped::<Plain>(&moved), unstamped::<Authenticated>(&new), "moved to the plain form");
            if let (Answer::Done(0), back) = from_plain(&moved, &second, &mut tally) {
                assert_eq!(Book::of(&back).values, unstamped::<Authenticated>(&new), "out of the new form and home");
                home[1] += 1;
            }
        }
        // a source of the other form
        from_plain(&new, &first, &mut tally);
        to_plain(&plain, &first, &mut tally);
    });
    println!("{rounds} rounds, home {home:?}: {tally:?}");
    expect_all_seen(&tally, "move from the plain form", &[Rule::Length, Rule::Source, Rule::Room]);
    expect_all_seen(&tally, "move to the plain form", &[Rule::Length, Rule::Source, Rule::TimeBased, Rule::Room]);
    assert!(home.iter().all(|&times| times > 100), "out and home {home:?} times");
}

/// A run that begins on a moved image: its start-up makes no stores, and sets, deletes and compactions keep the book.
#[test]
fn runs_begin_on_moved_images() {
    let mut sets = [0; 2];
    common::rounds::rounds(2, 300, |r| {
        for calls in BOTH {
            let mut image = generate::moved(r);
            let setup = Setup { custom: 1, ..admitting(&image) };
            let started = (calls.start_up)(Context::NO_LIMIT, &mut image, &setup);
            assert_eq!(started.answer, Answer::Done(0), "start-up on a moved image by {}", calls.who);
            let mut book = Book::of(&image);
            for _ in 0..r.below(20) {
                let mut asked = generate::asked_on(r, &image);
                asked.presence = 1;
                if let Answer::Done(stores) = (calls.set)(Context::NO_LIMIT, &started.session, &mut image, &asked.request()) {
                    book.set(&asked.request());
                    sets[usize::from(stores > 4096)] += 1;
                }
            }
            assert_eq!(Book::of(&image), book, "after sets by {}", calls.who);
            book.check_listed(&calls, &image);
        }
    });
    println!("sets in the tail, and with a compaction: {sets:?}");
    assert!(sets.iter().all(|&times| times > 20), "sets in the tail, and with a compaction: {sets:?}");
}
