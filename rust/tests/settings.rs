//! 02 (e): settings that must make sense. What breaks a rule: sizes, read-only, and the field's width, place and number; which rules count, and for which variable;
//! on which data they are tried, and when; where 21 stands among the other rules. Worked out by hand, and every case is tried on both implementations.

mod common;

use common::book::Book;
use common::station::{each, with_space, Station};
use common::{signed, stamped, A, AUTUMN, B, NEW, OLD, RATE, RECORD, SPRING, VENDOR};
use varstore::calls::ENGINE;
use varstore::interface::{Answer, Context, Key, Request, Rule, Session, Setting, Setup, AFTER_END_OF_DXE, OURS, RUNTIME};
use varstore::paper::request::{DB, KEK, PK};

const BLOCK: usize = 4096;

const fn refused(rule: Rule) -> Answer {
    Answer::Refused(rule)
}

const BROKEN: Answer = refused(Rule::Setting);

impl Station {
    /// Whether the rules allow the data: any set of RATE is done, or meets 21.
    fn allows(&self, data: &[u8]) -> bool {
        match self.would_store(RATE, 0x07, data) {
            Ok(()) => true,
            Err(Rule::Setting) => false,
            Err(other) => panic!("{other:?} for {} bytes", data.len()),
        }
    }
}

/// A rule for RATE that any data keep.
fn rate() -> Setting {
    Setting::any(RATE)
}

/// Bytes that all differ.
fn counted(length: usize) -> Vec<u8> {
    (1..=length).map(|byte| byte as u8).collect()
}

/// "A sample rate of 0 has been stored by a mistyped script": four bytes, from 1 to 200.
#[test]
fn a_sample_rate() {
    each(|station| {
        let mut station = station.ruled(&[rate().sized(4, 4).field(0, 4).between(1, 200)]);
        assert_eq!(station.set(RATE, 0x07, &[0; 4]), BROKEN);
        assert_eq!(station.set(RATE, 0x07, OLD), Answer::Done(75));
        assert_eq!(station.set(RATE, 0x07, &[0; 4]), BROKEN);
        assert_eq!(station.set(RATE, 0x07, &1u32.to_le_bytes()), Answer::Done(77));
        assert_eq!(station.set(RATE, 0x07, &200u32.to_le_bytes()), Answer::Done(77));
        for number in [201, 256, 0x0100_0001, 0x6400_0000, u32::MAX] {
            assert_eq!(station.set(RATE, 0x07, &number.to_le_bytes()), BROKEN);
        }
        for data in [&[1][..], &[1, 0], &[1, 0, 0], &[1, 0, 0, 0, 0], &[1; 2048]] {
            assert_eq!(station.set(RATE, 0x07, data), BROKEN);
        }
        // other names, and the name under another GUID
        for key in [A, Key { vendor: &[0xEE; 16], ..RATE }, Key { name: b"R\0A\0T\0F\0\0\0", ..RATE }] {
            assert!(matches!(station.set(key, 0x07, &[0]), Answer::Done(1..)));
        }
        assert_eq!(station.value(RATE), Some(200u32.to_le_bytes().to_vec()));
    });
}

/// "between two numbers, ends included"; with the lower one above the other nothing is.
#[test]
fn ends_of_a_range() {
    let ends = [0, 1, 2, 100, 0xFF, 0x100, 0xFFFF, 0x1_0000, 0x7FFF_FFFF, 0x8000_0000, u32::MAX - 1, u32::MAX];
    each(|station| {
        for (low, high) in ends.iter().flat_map(|&low| ends.map(|high| (low, high))) {
            let ruled = [1, 2, 4].map(|width| (width, station.ruled(&[rate().field(0, width).between(low, high)])));
            let around = [low.wrapping_sub(1), low, low.wrapping_add(1), high.wrapping_sub(1), high, high.wrapping_add(1)];
            for number in around {
                for (width, station) in &ruled {
                    // of a field that is shorter the low bytes count
                    let number = number & (u32::MAX >> (32 - 8 * width));
                    let data = &number.to_le_bytes()[..*width as usize];
                    assert_eq!(station.allows(data), low <= number && number <= high, "{number} of {width} bytes between {low} and {high}");
                }
            }
        }
        // every number but 0 says a range
        let list = rate().one_of(&[7]);
        for ranged in [1, 2, 0x100, 0x8000_0000, u32::MAX] {
            let between = station.ruled(&[Setting { ranged, low: 3, high: 4, ..list }]);
            assert_eq!([3, 4, 7].map(|byte| between.allows(&[byte])), [true, true, false], "ranged {ranged}");
        }
        let listed = station.ruled(&[Setting { ranged: 0, low: 3, high: 4, ..list }]);
        assert_eq!([3, 4, 7].map(|byte| listed.allows(&[byte])), [false, false, true]);
    });
}

/// "in a list of up to eight numbers": each place counts, up to the count and up to the eighth; an empty list has none.
#[test]
fn places_of_a_list() {
    let numbers = [11, 22, 33, 44, 55, 66, 77, 88];
    each(|station| {
        for count in (0..=10).chain([0x100, 0x101, 0x8000_0000, u32::MAX]) {
            let station = station.ruled(&[Setting { count, ..rate().one_of(&numbers) }]);
            for (place, number) in (0..).zip(numbers) {
                assert_eq!(station.allows(&[number as u8]), place < count, "place {place} of {count}");
            }
            // 0 is in no place, and a number between is none of them
            assert_eq!([0, 12, 89].map(|byte| station.allows(&[byte])), [false; 3], "{count} numbers");
        }
        // the places that do not count hold zeros
        assert!(!station.ruled(&[rate().one_of(&[])]).allows(&[0]));
        assert!(!station.ruled(&[rate().one_of(&[1])]).allows(&[0]));
        assert!(station.ruled(&[rate().one_of(&[0])]).allows(&[0]));
        // numbers that no field of the width can be, and ones that repeat
        for (width, number) in [(1, 0x100), (1, 0x0100_0001), (2, 0x1_0000), (2, 0x1_0001)] {
            let station = station.ruled(&[rate().field(0, width).one_of(&[number, number])]);
            assert_eq!([[0; 4], [1, 0, 0, 0]].map(|data| station.allows(&data)), [false; 2], "{number:#X} in {width} bytes");
        }
        assert!(station.ruled(&[rate().field(0, 4).one_of(&[u32::MAX; 8])]).allows(&[0xFF; 4]));
    });
}

/// The ninth number is ignored: nine are given, and eight have a place.
#[test]
fn a_ninth_number() {
    each(|station| {
        let numbers: Vec<u32> = (1..=12).collect();
        for given in 0..=12 {
            let station = station.ruled(&[rate().one_of(&numbers[..given])]);
            for number in 0..=13 {
                assert_eq!(station.allows(&[number]), (1..=given.min(8)).contains(&number.into()), "{number} with {given} numbers");
            }
        }
    });
}

/// "A field of another width .. breaks its rule", 0 too, whatever the data are.
#[test]
fn widths() {
    let others = [0, 3, 5, 6, 7, 8, 16, 0x100, 0x101, 0x102, 0x104, 0x1_0001, 0x1_0004, 0x8000_0001, 0x8000_0004, u32::MAX - 3, u32::MAX];
    each(|station| {
        for width in [1, 2, 4] {
            let station = station.ruled(&[rate().field(0, width)]);
            for length in 1..=9 {
                assert_eq!(station.allows(&counted(length)), length >= width as usize, "{width} of {length} bytes");
            }
            assert!(station.allows(&[0xFF; 2048]));
        }
        for (width, at) in others.iter().flat_map(|&width| [0, 1, 4, u32::MAX, width.wrapping_neg()].map(|at| (width, at))) {
            let rules = [rate().field(at, width), rate().field(at, width).one_of(&[0, 1, 0x0201, 0x03_0201, 0x0403_0201])];
            for station in rules.map(|rule| station.ruled(&[rule])) {
                for length in [1, 2, 3, 4, 5, 8, 100, 2048] {
                    assert!(!station.allows(&counted(length)) && !station.allows(&vec![0; length]), "{width} at {at} of {length} bytes");
                }
                // a delete does not obey it, nor is anything tried where nothing would stand
                assert_eq!(station.asked(RATE, 0x47, &[]), Answer::Done(0));
                assert_eq!(station.asked(RATE, 0x07, &[]), refused(Rule::Absent));
            }
        }
    });
}

/// "or one not wholly inside the data": up to the last byte, and one beyond; the field's bytes are those at its offset, low byte first.
#[test]
fn places_of_a_field() {
    each(|station| {
        for (width, at) in [1u32, 2, 4].into_iter().flat_map(|width| (0..=10).map(move |at| (width, at))) {
            // bytes count from 1
            let there = (0..width).map(|k| (at + k + 1) << (8 * k)).sum();
            let [any, exactly, another] = [rate(), rate().between(there, there), rate().one_of(&[there + 1, there - 1, there.swap_bytes()])];
            let [any, exactly, another] = [any, exactly, another].map(|rule| station.ruled(&[rule.field(at, width)]));
            for length in 1..=12 {
                let inside = (at + width) as usize <= length;
                let data = counted(length);
                assert_eq!([any.allows(&data), exactly.allows(&data)], [inside; 2], "{width} at {at} of {length} bytes");
                assert!(!another.allows(&data), "{width} at {at} of {length} bytes");
            }
        }
        // at the end of the longest data
        for (at, width, allowed) in [
            (2047, 1, true),
            (2048, 1, false),
            (2046, 2, true),
            (2047, 2, false),
            (2048, 2, false),
            (2044, 4, true),
            (2045, 4, false),
            (2047, 4, false),
        ] {
            assert_eq!(station.ruled(&[rate().field(at, width)]).allows(&[7; 2048]), allowed, "{width} at {at}");
        }
        let data = [0x01, 0x02, 0x03, 0x84, 0x05];
        for (at, width, number) in
            [(0, 1, 0x01), (4, 1, 0x05), (1, 2, 0x0302), (2, 2, 0x8403), (3, 2, 0x0584), (0, 4, 0x8403_0201), (1, 4, 0x0584_0302)]
        {
            assert!(station.ruled(&[rate().field(at, width).between(number, number)]).allows(&data), "{width} at {at}");
            assert!(station.ruled(&[rate().field(at, width).one_of(&[number])]).allows(&data), "{width} at {at}");
        }
    });
}

/// Offsets near 2^32, and those that would be small in 8 or 16 bits: no sum wraps.
#[test]
fn offsets_do_not_wrap() {
    let near = (0..8).map(|less| u32::MAX - less);
    let ats: Vec<u32> = near.chain([0x100, 0x1_0000, 0x7FFF_FFFC, 0x7FFF_FFFF, 0x8000_0000, 0x8000_0001, 0xFFFF_0000, 0xFFFF_F800]).collect();
    each(|station| {
        for (&at, width) in ats.iter().flat_map(|at| [1, 2, 4].map(|width| (at, width))) {
            let station = station.ruled(&[rate().field(at, width)]);
            for length in [1, 2, 3, 4, 5, 8, 0xFF] {
                assert!(!station.allows(&vec![1; length]), "{width} at {at} of {length} bytes");
            }
            assert_eq!(station.allows(&[1; 2048]), at == 0x100, "{width} at {at}");
        }
    });
}

/// "a smallest and largest size", both included.
#[test]
fn sizes() {
    let sizes = [0, 1, 2, 3, 4, 5, 8, 100, 2047, 2048, 2049, 0x1_0004, u32::MAX];
    each(|station| {
        for (least, most) in sizes.iter().flat_map(|&least| sizes.map(|most| (least, most))) {
            let station = station.ruled(&[rate().sized(least, most)]);
            for length in [1, 2, 3, 4, 5, 6, 8, 99, 100, 101, 2046, 2047, 2048] {
                let allowed = least <= length && length <= most;
                assert_eq!(station.allows(&vec![1; length as usize]), allowed, "{length} bytes, {least} to {most}");
            }
        }
    });
}

/// Sizes and offsets are those of the data proper, behind the descriptor.
#[test]
fn data_proper() {
    each(|mut station| {
        station.verdict = 3;
        let rule = |least, most| rate().sized(least, most).field(0, 4).between(0x64, 0x65);
        let asked = |rule: Setting, data: &[u8]| station.ruled(&[rule]).asked(RATE, 0x27, &signed(2024, data));
        assert_eq!(asked(rule(4, 4), OLD), Answer::Done(75));
        assert_eq!(asked(rule(4, 4), &[0; 4]), BROKEN);
        assert_eq!(asked(rule(4, 4), &[0x64, 0, 0, 0, 0]), BROKEN);
        assert_eq!(asked(rule(5, 2048), OLD), BROKEN);
        assert_eq!(asked(rule(44, 44), OLD), BROKEN);
        assert_eq!(asked(rate().field(40, 4), OLD), BROKEN);
        // a longer descriptor
        let mut longer = signed(2024, &[]);
        longer[16] += 8;
        longer.extend([0; 8]);
        assert_eq!(station.ruled(&[rule(4, 4)]).asked(RATE, 0x27, &[&longer, OLD].concat()), Answer::Done(75));
        // data of 2,048 bytes behind it
        assert_eq!(asked(rate().sized(2048, 2048).field(2047, 1), &[1; 2048]), Answer::Done(2119));
        // an append with a stamp is judged joined, and so is one that keeps the stamp
        assert_eq!(station.set(RATE, 0x27, &signed(2024, OLD)), Answer::Done(75));
        station.verdict = 4;
        let joined = rate().sized(8, 8).field(4, 4).between(0x65, 0x65);
        assert_eq!(station.ruled(&[joined]).asked(RATE, 0x67, &signed(2023, NEW)), Answer::Done(81));
        assert_eq!(station.ruled(&[joined]).asked(RATE, 0x67, &signed(2025, OLD)), BROKEN);
        assert_eq!(station.ruled(&[joined]).asked(RATE, 0x67, &signed(2025, &[])), BROKEN);
        assert_eq!(station.ruled(&[joined]).asked(RATE, 0x27, &signed(2025, NEW)), BROKEN);
        // a delete obeys read-only alone
        assert_eq!(station.ruled(&[joined]).asked(RATE, 0x27, &signed(2025, &[])), Answer::Done(1));
        assert_eq!(station.ruled(&[rate().read_only()]).asked(RATE, 0x27, &signed(2025, &[])), BROKEN);
    });
}

/// "Rules are tried on the data as they would stand": an append's are joined.
#[test]
fn appends_are_judged_joined() {
    each(|mut station| {
        // absent: by their own
        let longest = station.ruled(&[rate().sized(4, 8).field(0, 4).between(0x64, 0x65)]);
        assert_eq!(longest.asked(RATE, 0x47, &[0x64, 0, 0]), BROKEN);
        assert_eq!(longest.asked(RATE, 0x47, OLD), Answer::Done(75));
        assert_eq!(longest.asked(RATE, 0x47, &[0; 4]), BROKEN);
        assert_eq!(station.set(RATE, 0x07, OLD), Answer::Done(75));
        let asked = |rule: Setting, data: &[u8]| station.ruled(&[rule]).asked(RATE, 0x47, data);
        // sizes of both together
        for (least, most, allowed) in [(8, 8, true), (7, 8, true), (8, 9, true), (9, 9, false), (9, 2048, false), (4, 4, false), (1, 7, false)] {
            assert_eq!(asked(rate().sized(least, most), NEW), if allowed { Answer::Done(81) } else { BROKEN }, "{least} to {most}");
        }
        assert_eq!(asked(rate().sized(4, 8), &[1; 5]), BROKEN);
        // the new data alone would break the rule, or keep it
        assert_eq!(asked(rate().field(0, 4).between(0x64, 0x64), &[0]), Answer::Done(78));
        assert_eq!(asked(rate().field(0, 4).between(0x65, 0x65), NEW), BROKEN);
        // a field in the old data, in the new, and in both: the data are 64 0 0 0 A1 A2 A3 A4
        let new = [0xA1, 0xA2, 0xA3, 0xA4];
        for (at, width, number) in [
            (0, 4, 0x64),
            (3, 1, 0),
            (4, 1, 0xA1),
            (7, 1, 0xA4),
            (3, 2, 0xA100),
            (2, 4, 0xA2A1_0000),
            (1, 4, 0xA100_0000),
            (3, 4, 0xA3A2_A100),
            (4, 4, 0xA4A3_A2A1),
        ] {
            assert_eq!(asked(rate().field(at, width).between(number, number), &new), Answer::Done(81), "{width} at {at}");
            assert_eq!(asked(rate().field(at, width).one_of(&[number ^ 1, number ^ 0x100]), &new), BROKEN, "{width} at {at}");
        }
        for (at, width) in [(8, 1), (7, 2), (5, 4), (u32::MAX, 1), (u32::MAX, 4)] {
            assert_eq!(asked(rate().field(at, width), &new), BROKEN, "{width} at {at}");
        }
        // up to 2,048 bytes
        let last = rate().field(2047, 1).between(9, 9);
        assert_eq!(asked(last, &[9; 2043]), BROKEN);
        assert!(matches!(asked(last, &[9; 2044]), Answer::Done(1..)));
        assert_eq!(asked(last, &[9; 2045]), refused(Rule::DataSize));
    });
}

/// "also where nothing changes": the standing data, which break the rule, in an equal set and an empty append.
#[test]
fn standing_data_that_break_a_rule() {
    each(|mut station| {
        assert_eq!(station.set(RATE, 0x07, OLD), Answer::Done(75));
        assert_eq!((station.asked(RATE, 0x07, OLD), station.asked(RATE, 0x47, &[])), (Answer::Done(0), Answer::Done(0)));
        let kept = rate().sized(4, 4).field(0, 4).between(0x64, 0x64);
        let ruled = station.ruled(&[kept]);
        assert_eq!((ruled.asked(RATE, 0x07, OLD), ruled.asked(RATE, 0x47, &[])), (Answer::Done(0), Answer::Done(0)));
        for broken in [
            kept.between(0x65, 0x65),
            kept.one_of(&[0x65]),
            kept.one_of(&[]),
            kept.sized(5, 5),
            kept.sized(0, 3),
            kept.field(0, 3),
            kept.field(0, 0),
            kept.field(1, 4),
            kept.read_only(),
        ] {
            let ruled = station.ruled(&[broken]);
            assert_eq!(ruled.asked(RATE, 0x07, OLD), BROKEN, "an equal set with {broken:?}");
            assert_eq!(ruled.asked(RATE, 0x47, &[]), BROKEN, "an empty append with {broken:?}");
            let deleted = if broken.fixed == 0 { Answer::Done(1) } else { BROKEN };
            assert_eq!(ruled.asked(RATE, 0, &[]), deleted, "a delete with {broken:?}");
            assert_eq!(ruled.asked(RATE, 0, OLD), deleted, "a delete with {broken:?}");
            assert_eq!(ruled.asked(RATE, 0x07, &[]), deleted, "a delete by empty data with {broken:?}");
            // it can be read, and other names can be set
            let mut buffer = [0; 8];
            let got = (ruled.calls.get)(Context::NO_LIMIT, &ruled.session, &ruled.image, RATE, &mut buffer);
            assert_eq!((got.answer, got.size, &buffer[..4]), (Answer::Done(0), 4, OLD));
            assert_eq!(ruled.asked(A, 0x07, OLD), Answer::Done(69));
        }
        // a set that ends the breach, and an append that does
        assert_eq!(station.ruled(&[kept.between(0x65, 0x65)]).asked(RATE, 0x07, NEW), Answer::Done(77));
        assert_eq!(station.ruled(&[kept.sized(5, 5)]).asked(RATE, 0x47, &[0]), Answer::Done(78));
        // an equal value that was being replaced is what stands, too
        assert_eq!(station.set_in(Context::with(1), RATE, 0x07, NEW), Answer::Stopped);
        assert_eq!(station.image[28 + 2], 0x3E);
        assert_eq!(station.ruled(&[kept]).asked(RATE, 0x47, &[]), Answer::Done(0));
        assert_eq!(station.ruled(&[kept.between(0x65, 0x65)]).asked(RATE, 0x47, &[]), BROKEN);
        assert_eq!(station.ruled(&[kept.between(0x65, 0x65)]).asked(RATE, 0x07, OLD), BROKEN);
    });
}

/// Where no value would stand there is nothing to try.
#[test]
fn nothing_that_would_stand() {
    each(|mut station| {
        let strictest = rate().sized(2049, 0).field(u32::MAX, 3).one_of(&[]);
        let ruled = station.ruled(&[strictest]);
        assert_eq!(ruled.asked(RATE, 0x47, &[]), Answer::Done(0));
        assert_eq!((ruled.asked(RATE, 0, &[]), ruled.asked(RATE, 0x07, &[])), (refused(Rule::Absent), refused(Rule::Absent)));
        assert_eq!((ruled.asked(RATE, 0x07, OLD), ruled.asked(RATE, 0x47, OLD)), (BROKEN, BROKEN));
        // after a delete as before
        assert_eq!((station.set(RATE, 0x07, OLD), station.ruled(&[strictest]).asked(RATE, 0, &[])), (Answer::Done(75), Answer::Done(1)));
        assert_eq!(station.delete(RATE), Answer::Done(1));
        assert_eq!(station.ruled(&[strictest]).asked(RATE, 0x47, &[]), Answer::Done(0));
    });
}

/// "Deletes obey only read-only, which also refuses every set": of a value and of none; 11 comes before it.
#[test]
fn read_only() {
    each(|mut station| {
        for fixed in [1, 2, 0x100, 0x8000_0000, u32::MAX] {
            let fixed = station.ruled(&[Setting { fixed, ..rate() }]);
            for (attributes, data) in [(0x07, OLD), (0x03, NEW), (0x47, OLD), (0x47, &[]), (0x43, &[])] {
                assert_eq!(fixed.asked(RATE, attributes, data), BROKEN, "{attributes:#X}, {} bytes", data.len());
            }
            for (attributes, data) in [(0, OLD), (0, &[]), (0x07, &[]), (0x03, &[])] {
                assert_eq!(fixed.asked(RATE, attributes, data), refused(Rule::Absent), "{attributes:#X}, {} bytes", data.len());
            }
            assert_eq!(fixed.asked(A, 0x07, OLD), Answer::Done(69));
        }
        assert_eq!(station.set(RATE, 0x07, OLD), Answer::Done(75));
        let fixed = station.ruled(&[rate().read_only()]);
        for (attributes, data) in [(0x07, OLD), (0x07, NEW), (0x07, &[]), (0x47, OLD), (0x47, &[]), (0, OLD), (0, &[])] {
            for phase in [0, AFTER_END_OF_DXE, RUNTIME] {
                assert_eq!(fixed.in_phase(phase).asked(RATE, attributes, data), BROKEN, "{attributes:#X}, {} bytes, in phase {phase}", data.len());
            }
        }
        let mut buffer = [0; 144];
        let got = (fixed.calls.get)(Context::NO_LIMIT, &fixed.session, &fixed.image, RATE, &mut buffer);
        assert_eq!((got.answer, got.attributes, &buffer[..4]), (Answer::Done(0), 0x07, OLD));
        let first = (fixed.calls.next_name)(Context::NO_LIMIT, &fixed.session, &fixed.image, Key { name: &[0, 0], vendor: &VENDOR }, &mut buffer);
        assert_eq!((first.answer, first.size), (Answer::Done(0), 26));
        // what the rule says beside it makes no difference
        let mut other = station.ruled(&[rate().sized(9, 9).one_of(&[]).read_only()]);
        assert_eq!((other.set(RATE, 0x47, &[]), other.delete(RATE)), (BROKEN, BROKEN));
    });
}

/// "21 when a rule for that name is broken": all must hold, in whatever order, and rules for other names do not count.
#[test]
fn several_rules_for_a_name() {
    let rules = [
        rate().sized(2, 8),
        rate().field(0, 1).between(10, 20),
        rate().field(0, 1).one_of(&[5, 12, 15, 20, 25]),
        rate().field(1, 1).between(1, 9),
        Setting::any(A).read_only(),
        Setting::any(B).field(0, 0),
    ];
    let allowed = |data: &[u8]| data.len() >= 2 && data.len() <= 8 && [12, 15, 20].contains(&data[0]) && (1..=9).contains(&data[1]);
    each(|mut station| {
        assert_eq!(station.set(A, 0x07, OLD), Answer::Done(69));
        for turn in 0..rules.len() {
            let mut order = rules;
            order.rotate_left(turn);
            let station = station.ruled(&order);
            for first in [4, 5, 9, 10, 11, 12, 15, 16, 20, 21, 25] {
                for data in [
                    &[first][..],
                    &[first, 0],
                    &[first, 1],
                    &[first, 9],
                    &[first, 10],
                    &[first, 5, 0, 0, 0, 0, 0, 0],
                    &[first, 5, 0, 0, 0, 0, 0, 0, 0],
                ] {
                    assert_eq!(station.allows(data), allowed(data), "{data:?}");
                }
            }
            assert_eq!((station.asked(A, 0x07, NEW), station.asked(A, 0, &[]), station.asked(B, 0x07, OLD)), (BROKEN, BROKEN, BROKEN));
        }
        // one of them says read-only
        assert!(!station.ruled(&[&rules[..], &[rate().read_only()]].concat()).allows(&[12, 5]));
        // two that no data keep
        assert!(!station.ruled(&[rate().sized(4, 4), rate().sized(5, 5)]).allows(OLD));
    });
}

/// "Up to 32 such rules (more are ignored ..)": each of the first 32 counts, as far as there are so many.
#[test]
fn places_of_a_rule() {
    each(|station| {
        for place in 0..40 {
            let mut rules = vec![Setting::any(A); 40];
            rules[place] = rate().one_of(&[7]);
            for given in [place, place + 1, 32, 33, 40] {
                let station = station.ruled(&rules[..given]);
                assert_eq!(station.allows(&[6]), place >= given.min(32), "rule {place} of {given}");
                assert!(station.allows(&[7]), "rule {place} of {given}");
            }
        }
        // any count above 32 is 32
        let mut rules = [Setting::any(A); 32];
        rules[31] = rate().read_only();
        for count in [31, 32, 33, 0x100, 0x11F, 0x120, 0x8000_0000, u32::MAX] {
            let mut station = station.ruled(&rules);
            station.session.setup.rules = count;
            assert_eq!(station.allows(OLD), count == 31, "{count} rules");
        }
        // what stands in a place that does not count
        let mut station = station.ruled(&[rate().read_only(); 32]);
        for count in [0, 1] {
            station.session.setup.rules = count;
            assert_eq!(station.allows(OLD), count == 0, "{count} rules");
        }
        // 32 rules for one name, the last of which is broken
        let mut all = [rate(); 32];
        assert!(station.ruled(&all).allows(OLD));
        all[31] = rate().between(0, 0x63);
        assert!(!station.ruled(&all).allows(OLD));
        // the places without rules are for no variable
        station.session.setup = Setup { rules: 32, ..Setup::PLAIN };
        assert!(station.allows(OLD));
    });
}

/// "for a variable, by name and GUID": every bit of both, and the size.
#[test]
fn names_of_a_rule() {
    let longest: Vec<u8> = [[b'x', 0]; 63].concat().into_iter().chain([0, 0]).collect();
    for name in [RATE.name, A.name, &longest] {
        let key = Key { name, vendor: &VENDOR };
        let rule = Setting::any(key).read_only();
        each(|station| {
            let is_for = |rule: Setting| station.ruled(&[rule]).asked(key, 0x07, OLD) == BROKEN;
            assert!(is_for(rule));
            for bit in 0..8 * name.len() {
                let mut other = rule;
                other.name[bit / 8] ^= 1 << (bit % 8);
                assert!(!is_for(other), "bit {bit} of the name");
            }
            for bit in 0..128 {
                let mut other = rule;
                other.vendor[bit / 8] ^= 1 << (bit % 8);
                assert!(!is_for(other), "bit {bit} of the GUID");
            }
            // bytes behind the name are of no name
            let mut behind = rule;
            behind.name[name.len()..].fill(0xA5);
            assert!(is_for(behind));
            for size in
                (0..=130).chain([0x100, 0x1_0000, 0x8000_0000, u32::MAX].map(|high: u32| high | rule.size)).chain([256, u32::MAX, u32::MAX - 127])
            {
                assert_eq!(is_for(Setting { size, ..rule }), size == rule.size, "{size} bytes");
            }
        });
    }
}

/// A rule whose name is not well formed is for no variable: a call with that name meets 3, and others do not meet the rule.
#[test]
fn ill_formed_names_of_a_rule() {
    let too_long = [[b'x', 0]; 64].concat();
    let ill: [&[u8]; 7] = [&[], &[0], &[0, 0], b"R\0A", b"R\0A\0T\0E\0", b"R\0\0\0T\0E\0\0\0", &too_long];
    each(|mut station| {
        assert_eq!(station.set(RATE, 0x07, OLD), Answer::Done(75));
        for name in ill {
            let key = Key { name, vendor: &VENDOR };
            let station = station.ruled(&[Setting::any(key).read_only()]);
            assert_eq!(station.asked(key, 0x07, OLD), refused(Rule::Name), "{name:X?}");
            assert_eq!(station.asked(RATE, 0x07, NEW), Answer::Done(77), "{name:X?}");
            assert!(matches!(station.asked(Key { name: b"R\0\0\0", vendor: &VENDOR }, 0x07, OLD), Answer::Done(1..)), "{name:X?}");
        }
    });
}

/// "21 .. after 12, before 18": what comes before it, where the rule says read-only and would refuse every set.
#[test]
fn rules_before_21() {
    with_space(0, |station| {
        let keys = [RATE, A, RECORD, PK, KEK, DB];
        let fixed: Vec<Setting> = keys.iter().map(|&key| Setting::any(key).read_only()).collect();
        let mut station = station.ruled(&fixed);
        let request = Request { key: RATE, attributes: 0x07, data: OLD, presence: 0, verdict: 0 };
        let set = |image: &mut [u8]| (station.calls.set)(Context::NO_LIMIT, &station.session, image, &request);
        assert_eq!(set(&mut vec![0xFF; 3 * BLOCK - 1]), refused(Rule::Length));
        assert_eq!(set(&mut vec![0xFF; 3 * BLOCK]), refused(Rule::Unready));
        assert_eq!(station.set(Key { name: &[0, 0], ..RATE }, 0x07, OLD), refused(Rule::Name));
        assert_eq!(station.set(RATE, 0x13, OLD), refused(Rule::Attributes));
        assert_eq!(station.set(RATE, 0x40, OLD), refused(Rule::Attributes));
        assert_eq!(station.in_phase(RUNTIME).set(RATE, 0x03, OLD), refused(Rule::Attributes));
        assert_eq!(station.set(PK, 0x07, OLD), refused(Rule::KeyAttributes));
        assert_eq!(station.set(RATE, 0x0F, OLD), refused(Rule::Record));
        assert_eq!(station.set(RECORD, 0x07, OLD), refused(Rule::Record));
        let mut locked = station.clone();
        assert_eq!(locked.lock(RATE), Answer::Done(0));
        assert_eq!(locked.set(RATE, 0x07, OLD), BROKEN);
        assert_eq!(locked.in_phase(AFTER_END_OF_DXE).set(RATE, 0x07, OLD), refused(Rule::Locked));
        assert_eq!(station.set(RATE, 0x27, OLD), refused(Rule::Descriptor));
        assert_eq!(station.set(RATE, 0x27, &signed(2024, OLD)), refused(Rule::Verdict));
        station.verdict = 3;
        assert_eq!(station.set(RATE, 0x27, &signed(2024, OLD)), BROKEN);
        assert_eq!(station.set(PK, 0x27, &signed(2024, OLD)), BROKEN);
        assert_eq!(station.set(RATE, 0x27, &signed(2024, &[])), refused(Rule::Absent));
        assert_eq!(station.delete(RATE), refused(Rule::Absent));
        assert_eq!(station.set(RATE, 0x07, &[]), refused(Rule::Absent));
        assert_eq!(station.set(RECORD, 0x0F, &[]), refused(Rule::Absent));
        // 12: of a set, and of an append with what stands
        for data in [2049, 2050, 4096, 70_000] {
            assert_eq!(station.set(RATE, 0x07, &vec![1; data]), refused(Rule::DataSize), "{data} bytes");
            assert_eq!(station.set(RATE, 0x47, &vec![1; data]), refused(Rule::DataSize), "{data} bytes");
        }
        assert_eq!(station.set(RATE, 0x07, &[1; 2048]), BROKEN);
        let mut free = station.ruled(&[]);
        assert_eq!((free.set(RATE, 0x07, OLD), free.set(A, 0x27, &stamped(&AUTUMN, OLD))), (Answer::Done(75), Answer::Done(69)));
        let mut standing = free.ruled(&fixed);
        assert_eq!(standing.set(RATE, 0x47, &[1; 2045]), refused(Rule::DataSize));
        assert_eq!(standing.set(RATE, 0x47, &[1; 2044]), BROKEN);
        // 7, and 10
        assert_eq!(standing.set(RATE, 0x03, OLD), refused(Rule::Standing));
        assert_eq!(standing.delete(A), refused(Rule::Standing));
        standing.verdict = 4;
        assert_eq!(standing.set(A, 0x27, &stamped(&SPRING, NEW)), refused(Rule::Stamp));
        assert_eq!(standing.set(A, 0x67, &stamped(&SPRING, NEW)), BROKEN);
        assert_eq!(standing.set(A, 0x27, &signed(2025, NEW)), BROKEN);
        assert_eq!(standing.set(A, 0x27, &signed(2025, &[])), BROKEN);
    });
}

/// 2,049 bytes under a largest size of 4.
#[test]
fn twelve_before_twenty_one() {
    each(|station| {
        let small = station.ruled(&[rate().sized(4, 4)]);
        for (length, expected) in [(4, Answer::Done(75)), (5, BROKEN), (2048, BROKEN), (2049, refused(Rule::DataSize))] {
            assert_eq!(small.asked(RATE, 0x07, &vec![1; length]), expected, "{length} bytes");
            assert_eq!(small.asked(RATE, 0x47, &vec![1; length]), expected, "{length} bytes appended");
        }
    });
}

/// "before 18": a record that breaks its rule and H, and then L.
#[test]
fn twenty_one_before_eighteen_and_thirteen() {
    let rule = Setting::any(RECORD).field(0, 1).between(1, 9);
    for (space, allowed) in [(0, refused(Rule::RecordRoom)), (87, refused(Rule::RecordRoom)), (88, Answer::Done(88))] {
        with_space(space, |station| {
            let station = station.ruled(&[rule]);
            assert_eq!(station.asked(RECORD, 0x0F, &[0]), BROKEN, "H = {space}");
            assert_eq!(station.asked(RECORD, 0x4F, &[0]), BROKEN, "H = {space}");
            assert_eq!(station.asked(RECORD, 0x0F, &[9]), allowed, "H = {space}");
        });
    }
    // 28 + 64 + 2,048 + 64 + 1,892 are L
    with_space(0, |mut station| {
        assert_eq!((station.set(A, 0x07, &[1; 2048]), station.set(B, 0x07, &[1; 1892])), (Answer::Done(2113), Answer::Done(1957)));
        let mut station = station.ruled(&[rate().field(0, 4).between(0x64, 0x64), Setting::any(B).field(0, 1).one_of(&[2]), rule]);
        assert_eq!((station.set(RATE, 0x07, OLD), station.set(RATE, 0x07, NEW)), (refused(Rule::Room), BROKEN));
        assert_eq!((station.set(B, 0x07, &[2; 1893]), station.set(B, 0x07, &[3; 1893])), (refused(Rule::Room), BROKEN));
        assert_eq!(station.set(B, 0x47, &[2]), BROKEN);
        assert_eq!((station.set(RECORD, 0x0F, &[1]), station.set(RECORD, 0x0F, &[0])), (refused(Rule::RecordRoom), BROKEN));
        station.session.setup.records = u32::MAX;
        assert_eq!((station.set(RECORD, 0x0F, &[1]), station.set(RECORD, 0x0F, &[0])), (refused(Rule::Room), BROKEN));
        station.session.setup.records = 0;
        // an exactly full region is compacted by a set that its rule allows
        assert_eq!(station.set(B, 0x07, &[2; 1892]), Answer::Done(8197));
        // at runtime with a reserve
        station.session.setup.reserve = 4096;
        let mut runtime = station.in_phase(RUNTIME);
        assert_eq!((runtime.set(B, 0x07, &[2; 100]), runtime.set(B, 0x07, &[3; 100])), (refused(Rule::Room), BROKEN));
        assert_eq!(runtime.set(B, 0x07, &[2; 1892]), Answer::Done(0));
        assert_eq!(runtime.delete(B), Answer::Done(1));
    });
}

/// A rule broken is told before the first store: neither n nor a dead byte comes first.
#[test]
fn twenty_one_before_stores() {
    each(|station| {
        let station = station.ruled(&[rate().between(0, 9)]);
        for (data, n, dead, expected) in [
            (OLD, 0, &[][..], BROKEN),
            (OLD, u64::MAX, &[28], BROKEN),
            (OLD, 0, &[28], BROKEN),
            (&[9][..], 0, &[28], Answer::Stopped),
            (&[9], 1, &[28], refused(Rule::Worn)),
            (&[9], u64::MAX, &[], Answer::Done(72)),
        ] {
            for width in [1, 16] {
                let answer = station.clone().set_in(Context::worn(n, dead).paged(width), RATE, 0x07, data);
                // in pages of 16 bytes: five of the header, two of the name, one of the data, and two marks
                let expected = if expected == Answer::Done(72) && width == 16 { Answer::Done(10) } else { expected };
                assert_eq!(answer, expected, "n = {n}, {dead:?}, w = {width}");
            }
        }
    });
}

/// Key names and records have rules as other names do.
#[test]
fn key_names_and_records() {
    with_space(500, |mut station| {
        station.verdict = 3;
        let key = |key| Setting::any(key).sized(4, 4).field(0, 4).between(0x64, 0x64);
        let ruled = station.ruled(&[key(PK), key(RECORD), key(KEK)]);
        assert_eq!((ruled.asked(PK, 0x27, &signed(2024, NEW)), ruled.asked(PK, 0x27, &signed(2024, OLD))), (BROKEN, Answer::Done(71)));
        assert_eq!((ruled.asked(RECORD, 0x0F, NEW), ruled.asked(RECORD, 0x0F, OLD)), (BROKEN, Answer::Done(91)));
        assert_eq!((ruled.asked(KEK, 0x67, &signed(2024, NEW)), ruled.asked(KEK, 0x67, &signed(2024, OLD))), (BROKEN, Answer::Done(73)));
        // custom mode with presence wants no verdict, and the rule holds there too
        let mut custom = ruled.clone();
        (custom.session.setup.custom, custom.presence, custom.verdict) = (1, 1, 0);
        assert_eq!((custom.asked(PK, 0x27, &signed(2024, NEW)), custom.asked(PK, 0x27, &signed(2024, OLD))), (BROKEN, Answer::Done(71)));
        // a read-only PK cannot be deleted, with the verdict that is wanted
        assert_eq!(station.set(PK, 0x27, &signed(2024, OLD)), Answer::Done(71));
        station.verdict = 1;
        assert_eq!(station.ruled(&[Setting::any(PK).read_only()]).asked(PK, 0x27, &signed(2025, &[])), BROKEN);
        assert_eq!(station.ruled(&[key(PK).sized(9, 9)]).asked(PK, 0x27, &signed(2025, &[])), Answer::Done(1));
    });
}

/// "Any set done in it leaves the variable it names with no value that its rules forbid": from every value of one or two small bytes to every other, by set and append.
#[test]
fn no_forbidden_value_is_left() {
    let rules = [rate().sized(2, 3).field(1, 1).between(1, 2), rate().one_of(&[0, 3])];
    let allowed = |data: &[u8]| (2..=3).contains(&data.len()) && [1, 2].contains(&data[1]) && [0, 3].contains(&data[0]);
    let small: Vec<Vec<u8>> = (0..4).map(|byte| vec![byte]).chain((0..16).map(|both| vec![both / 4, both % 4])).collect();
    each(|empty| {
        let mut done = 0;
        for old in &small {
            let mut before = empty.clone();
            assert!(matches!(before.set(RATE, 0x07, old), Answer::Done(1..)));
            for (new, attributes) in small.iter().flat_map(|new| [(new, 0x07), (new, 0x47)]) {
                let mut station = before.ruled(&rules);
                let wanted = if attributes == 0x47 { [&old[..], new].concat() } else { new.clone() };
                match station.set(RATE, attributes, new) {
                    Answer::Done(_) => {
                        assert!(allowed(&wanted), "{wanted:?} is forbidden");
                        assert_eq!(station.value(RATE), Some(wanted));
                        done += 1;
                    }
                    answer => assert!(answer == BROKEN && !allowed(&wanted), "{answer:?}: {wanted:?} is allowed"),
                }
            }
        }
        // four values of two bytes over each of twenty; and joined of one byte and one, one and two, two and one
        assert_eq!(done, 4 * 20 + 4 + 4 * 4 + 4 * 4);
    });
}

/// Rules are no reason to refuse what is read, started, locked, moved or compacted: a forbidden value stays as it is until a set or delete names it.
#[test]
fn forbidden_values_that_stand() {
    each(|mut station| {
        assert_eq!((station.set(RATE, 0x07, &[0; 4]), station.set(A, 0x07, &[1; 2048])), (Answer::Done(75), Answer::Done(2113)));
        let given = Setup::PLAIN.ruled(&[rate().field(0, 4).between(1, 200), Setting::any(A).read_only()]);
        // a start-up that compacts
        let book = Book::of(&station.image);
        station.image[BLOCK - 1] = 0;
        let started = (station.calls.start_up)(Context::NO_LIMIT, &mut station.image, &given);
        assert_eq!(started.answer, Answer::Done(8197));
        station.session = started.session;
        assert_eq!(Book::of(&station.image), book);
        book.check_listed(&station.calls, &station.image);
        assert_eq!((station.set(RATE, 0x07, &[0; 4]), station.set(RATE, 0x47, &[1]), station.delete(A)), (BROKEN, BROKEN, BROKEN));
        // sets of another name, the second of which compacts
        assert_eq!(station.set(B, 0x07, &[1; 1700]), Answer::Done(1765));
        assert_eq!(station.set(B, 0x07, &[2; 1700]), Answer::Done(8197));
        assert_eq!((station.value(RATE), station.value(A)), (Some(vec![0; 4]), Some(vec![1; 2048])));
        // a lock asks for no rule
        let listed = (station.calls.lock)(station.session, OURS, RATE);
        assert_eq!((listed.answer, listed.session.setup), (Answer::Done(0), given));
        // nor does a move, out or home
        let (mut plain, mut home) = (vec![0; 3 * BLOCK], vec![0; 3 * BLOCK]);
        assert_eq!((station.calls.to_plain)(&station.image, &mut plain), Answer::Done(0));
        assert_eq!((station.calls.from_plain)(&plain, &mut home), Answer::Done(0));
        assert_eq!(Book::of(&home), Book::of(&station.image));
        assert_eq!((station.set(RATE, 0x07, &[1, 0, 0, 0]), station.set(RATE, 0x07, &[0; 4])), (Answer::Done(77), BROKEN));
        assert_eq!(station.delete(RATE), Answer::Done(1));
    });
}

/// "stand in the session, given at start-up": also by one that is refused, stopped or failed; phases and locks leave them; the next start-up's are its own.
#[test]
fn kept_in_the_session() {
    let mut rules = vec![Setting::any(A).sized(1, 9).field(3, 2).one_of(&[1, 2, 3]); 32];
    rules[0] = rate().between(1, 200);
    rules[31] = Setting { fixed: 7, ranged: 9, count: 5, ..Setting::any(B) };
    each(|mut station| {
        assert_eq!(station.set(RATE, 0x07, OLD), Answer::Done(75));
        let mut dirty = station.image.clone();
        dirty[BLOCK - 1] = 0;
        let mut unsound = station.image.clone();
        unsound[28 + 4] = 0;
        for count in [0, 1, 31, 32] {
            let given = Setup { custom: 1, reserve: 100, ..Setup::PLAIN }.with_records(7).ruled(&rules[..count]);
            for (image, context, expected) in [
                (&station.image, Context::NO_LIMIT, Answer::Done(0)),
                (&dirty, Context::NO_LIMIT, Answer::Done(8197)),
                (&dirty, Context::with(100), Answer::Stopped),
                (&dirty, Context::worn(u64::MAX, &[BLOCK as u32]), refused(Rule::Worn)),
                (&unsound, Context::NO_LIMIT, refused(Rule::Unready)),
                (&vec![0xFF; 100], Context::NO_LIMIT, refused(Rule::Length)),
            ] {
                let started = (station.calls.start_up)(context, &mut image.clone(), &given);
                assert_eq!((started.answer, started.session.setup), (expected, given), "{count} rules");
                assert_eq!(started.session, (station.calls.session_new)(&given), "{count} rules");
                let locked = (station.calls.lock)(started.session, OURS, A);
                assert_eq!((locked.answer, locked.session.setup), (Answer::Done(0), given), "{count} rules");
                assert_eq!((station.calls.lock)(locked.session, OURS, Key { name: &[], ..A }).session.setup, given, "{count} rules");
                let session = (station.calls.phase)(locked.session, RUNTIME);
                assert_eq!(session.setup, given, "{count} rules");
                // they hold in the session that came of it
                let kept = Station { session: Session { phase: 0, ..session }, ..station.clone() };
                assert_eq!(kept.asked(RATE, 0x07, &[0]), if count > 0 { BROKEN } else { Answer::Done(74) }, "{count} rules");
                assert_eq!(kept.asked(B, 0x07, &[0]), if count > 31 { BROKEN } else { Answer::Done(66) }, "{count} rules");
            }
        }
        // the next start-up has none
        station.start_up(&Setup::PLAIN);
        assert_eq!(station.session.setup, Setup::PLAIN);
        assert_eq!(station.set(RATE, 0x07, &[0]), Answer::Done(74));
        Book::of(&station.image).check_listed(&ENGINE, &station.image);
    });
}

/// More than 32 are given at a start-up: the first 32 hold in its session.
#[test]
fn more_rules_than_places_at_a_start_up() {
    each(|mut station| {
        let mut rules = [Setting::any(A); 40];
        rules[31] = rate().between(1, 200);
        rules[32] = Setting::any(B).read_only();
        assert_eq!(station.start_up(&Setup::PLAIN.ruled(&rules)), Answer::Done(0));
        assert_eq!((station.asked(RATE, 0x07, &[0]), station.asked(RATE, 0x07, &[200])), (BROKEN, Answer::Done(72)));
        assert_eq!(station.asked(B, 0x07, &[0]), Answer::Done(66));
    });
}
