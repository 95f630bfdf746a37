//! 02 (j): audit and deployed modes. The mode that values say; the transitions, and every other one (24); verdicts by mode; a mode alone, and mode and PK together, in which
//! order and by which stores; locks (6), sides (22), room to the byte (13), and the order of the rules; sets that name PlatMode. Worked out by hand, and every case is tried
//! on both implementations, with the session by value and lent, and as planned. Then changes of mode by chance beside what the tests themselves know of modes.

mod common;

use std::collections::BTreeMap;

use common::book::{Book, Value};
use common::generate::{self, BLOCK};
use common::modes::{change, deed, may_go, mode_of, terms, DEEDS, ENTRY, PLAT_MODE};
use common::profiles::{file, item, settings};
use common::random::Random;
use common::rounds::rounds;
use common::station::{image, Laid, Station};
use common::stored::Call;
use common::tenants::entry_size;
use common::{same_bytes, signed, A, B, NEW, OLD, RATE, VENDOR};
use varstore::calls::{lent, Calls, ENGINE, LENT, PAPER};
use varstore::engine;
use varstore::interface::{
    Answer, Context, Guid, Key, Rule, Session, Setting, Setup, Tenant, AFTER_END_OF_DXE, AUDIT_MODE, BOOT, DEPLOYED_MODE, MODEM, OURS, RUNTIME,
    SETUP_MODE, USER_MODE,
};
use varstore::paper::entry::{ADDED, DELETED, GONE, HEADER_VALID, REPLACED, UNFINISHED};
use varstore::paper::request::{DB, DBT, DBX, KEK, PK};

const MODEMS: Guid = [0x4D; 16];
/// The stores of a compaction of one block, and those up to its FC.
const COMPACTED: Answer = Answer::Done(8197);
const DECIDED: u64 = 4098;
const NOTHING: Answer = Answer::Done(0);
/// A mode in the tail: 59 bytes of header, 7F, 18 of name, 1 of data and 3F; over an old value also 3E and 3C.
const STORED: Answer = Answer::Done(80);
const REPLACING: Answer = Answer::Done(82);
const ZEROS: [u8; 16] = [0; 16];
/// What PK holds: an entry of 60 + 6 + 4 bytes, rounded.
const OURKEY: &[u8] = &[0x4B; 4];
const PK_ENTRY: u32 = 72;

const fn refused(rule: Rule) -> Answer {
    Answer::Refused(rule)
}

const NO_MODE: Answer = refused(Rule::Mode);
const NO_ROOM: Answer = refused(Rule::Room);

/// Both implementations, and the engine with its session lent.
const ALL: [Calls; 3] = [PAPER, ENGINE, LENT];

/// What is stored under a name: its attributes and data.
type Stored<'a> = (Key<'a>, u32, &'a [u8]);

/// A store of these values, in this order, in each implementation.
fn with(setup: &Setup, values: &[Stored], case: impl Fn(Station)) {
    let entries: Vec<_> = values.iter().map(|(key, attributes, data)| (*key, ADDED, *attributes, &ZEROS, *data)).collect();
    for calls in ALL {
        case(Station::new(calls, setup, image(&entries)));
    }
}

fn byte(data: &[u8]) -> Stored<'_> {
    (PLAT_MODE, 0x07, data)
}

/// PlatMode's value, PK's and others in each of the four modes: PlatMode stands before PK, and RATE between them.
fn values_in(mode: u32) -> Vec<Stored<'static>> {
    let (rate, key) = ((RATE, 0x07, OLD), (PK, 0x27, OURKEY));
    match mode {
        SETUP_MODE => vec![(A, 0x07, OLD), rate, (B, 0x03, OLD)],
        USER_MODE => vec![(A, 0x07, OLD), rate, key, (B, 0x03, OLD)],
        AUDIT_MODE => vec![(A, 0x07, OLD), byte(&[2]), rate, (B, 0x03, OLD)],
        _ => vec![(A, 0x07, OLD), byte(&[3]), rate, key, (B, 0x03, OLD)],
    }
}

/// A store in a mode.
fn in_mode(mode: u32, setup: &Setup, case: impl Fn(Station)) {
    with(setup, &values_in(mode), |station| {
        assert_eq!(station.present(), mode);
        case(station);
    });
}

const MODES: [u32; 4] = [SETUP_MODE, USER_MODE, AUDIT_MODE, DEPLOYED_MODE];

/// A year for each set of PK, so that it is later than the last.
impl Station {
    fn key(&mut self, verdict: u32, year: u16, data: &[u8]) -> Answer {
        self.verdict = verdict;
        self.set(PK, 0x27, &signed(year, data))
    }

    fn asked_key(&self, verdict: u32, year: u16, data: &[u8]) -> Answer {
        self.clone().key(verdict, year, data)
    }

    fn locked(&self, keys: &[Key]) -> Station {
        let mut station = self.clone();
        keys.iter().for_each(|key| assert_eq!(station.lock(*key), NOTHING));
        station
    }

    fn with_share(&self, share: u32) -> Station {
        self.given(Setup { share, ..self.session.setup })
    }

    fn in_custom(&self) -> Station {
        Station { presence: 1, ..self.given(Setup { custom: 1, ..self.session.setup }) }
    }

    fn values(&self) -> Vec<Value> {
        Book::of(&self.image).values
    }
}

/// The bytes that values take, rounded.
fn taken(values: &[Value]) -> u32 {
    values.iter().map(|value| entry_size(value.name.name.len(), value.data.len()) as u32).sum()
}

/// j1: what is under PlatMode's name, with PK and without it, and the mode. "a 2 beside a PK, a 3 without one, or other data or attributes count as absent".
#[test]
fn modes_of_values() {
    let long = [2; 2048];
    let datas: [&[u8]; 12] = [&[2], &[3], &[0], &[1], &[4], &[0x32], &[0xFF], &[2, 0], &[3, 0], &[3, 3], &[0, 2], &long[..]];
    for (data, attributes) in datas.iter().flat_map(|data| [0x07, 0x03, 0x23, 0x27].map(|attributes| (*data, attributes))) {
        for (enrolled, expected) in [
            (false, if (attributes, data) == (0x07, &[2]) { AUDIT_MODE } else { SETUP_MODE }),
            (true, if (attributes, data) == (0x07, &[3]) { DEPLOYED_MODE } else { USER_MODE }),
        ] {
            // in either order
            for first in [false, true] {
                let mode = (PLAT_MODE, attributes, data);
                let key: &[Stored] = if enrolled { &[(PK, 0x27, OURKEY)] } else { &[] };
                let values = if first { [&[mode], key].concat() } else { [key, &[mode]].concat() };
                with(&Setup::PLAIN, &[&[(A, 0x07, OLD)], &values[..]].concat(), |station| {
                    assert_eq!(
                        station.present(),
                        expected,
                        "{attributes:#X}, {} bytes {:02X?}, PK {enrolled}",
                        data.len(),
                        &data[..data.len().min(4)]
                    );
                    assert_eq!(mode_of(&station.values()), expected);
                });
            }
        }
    }
    with(&Setup::PLAIN, &[], |station| assert_eq!(station.present(), SETUP_MODE));
    with(&Setup::PLAIN, &[(PK, 0x27, OURKEY)], |station| assert_eq!(station.present(), USER_MODE));
}

/// j1: a name's value is its 3F entry, else its 3E entry; entries in other states are no values.
#[test]
fn modes_of_entries_in_every_state() {
    for calls in ALL {
        let mode = |entries: &[Laid]| Station::new(calls, &Setup::PLAIN, image(entries)).present();
        for (state, stands) in [(ADDED, true), (REPLACED, true), (DELETED, false), (GONE, false), (HEADER_VALID, false)] {
            let of_mode = |data: &'static [u8]| (PLAT_MODE, state, 0x07, &ZEROS, data);
            let key = (PK, ADDED, 0x27, &ZEROS, OURKEY);
            assert_eq!(mode(&[of_mode(&[2])]), if stands { AUDIT_MODE } else { SETUP_MODE }, "PlatMode in state {state:02X}");
            assert_eq!(mode(&[of_mode(&[3]), key]), if stands { DEPLOYED_MODE } else { USER_MODE }, "PlatMode in state {state:02X}");
            assert_eq!(mode(&[(PK, state, 0x27, &ZEROS, OURKEY)]), if stands { USER_MODE } else { SETUP_MODE }, "PK in state {state:02X}");
        }
        // a 3F beside a 3E, in either order
        for (old, new, expected) in [(&[2], &[3], SETUP_MODE), (&[3], &[2], AUDIT_MODE)] {
            for [first, second] in [[(REPLACED, old), (ADDED, new)], [(ADDED, new), (REPLACED, old)]] {
                assert_eq!(mode(&[(PLAT_MODE, first.0, 0x07, &ZEROS, first.1), (PLAT_MODE, second.0, 0x07, &ZEROS, second.1)]), expected);
            }
        }
        // a header that is unfinished counts as 60 bytes, and what follows it is no entry
        let mut unfinished = Station::new(calls, &Setup::PLAIN, image(&[(PLAT_MODE, UNFINISHED, 0x07, &ZEROS, &[2])]));
        unfinished.image[88..].fill(0xFF);
        assert_eq!(unfinished.present(), SETUP_MODE);
    }
}

/// j1: another GUID, or a name that differs in a bit, is none; nor is PK's.
#[test]
fn names_that_are_not_the_modes() {
    for bit in 0..128 + 8 * 16 {
        let (mut vendor, mut name) = (*PK.vendor, PLAT_MODE.name.to_vec());
        match bit {
            0..128 => vendor[bit / 8] ^= 1 << (bit % 8),
            _ => name[(bit - 128) / 8] ^= 1 << (bit % 8),
        }
        let key = Key { name: &name, vendor: &vendor };
        with(&Setup::PLAIN, &[(key, 0x07, &[2])], |mut station| {
            assert_eq!(station.present(), SETUP_MODE, "bit {bit}");
            // and a set of it is one like others
            assert!(matches!(station.set(key, 0x07, &[3]), Answer::Done(1..)), "bit {bit}");
        });
    }
    for name in [&b"P\0l\0a\0t\0M\0o\0d\0\0\0"[..], b"P\0l\0a\0t\0M\0o\0d\0e\0s\0\0\0", b"p\0l\0a\0t\0m\0o\0d\0e\0\0\0"] {
        with(&Setup::PLAIN, &[(Key { name, ..PK }, 0x07, &[2])], |station| assert_eq!(station.present(), SETUP_MODE));
    }
    let other = Key { vendor: &VENDOR, ..PK };
    with(&Setup::PLAIN, &[(other, 0x27, OURKEY), byte(&[2])], |station| assert_eq!(station.present(), AUDIT_MODE));
    with(&Setup::PLAIN, &[(other, 0x27, OURKEY), byte(&[3])], |station| assert_eq!(station.present(), SETUP_MODE));
}

/// The mode of an image that no call may use is not told: 1 and 2, as a check has them.
#[test]
fn modes_of_images_that_are_refused() {
    in_mode(DEPLOYED_MODE, &Setup::PLAIN, |station| {
        for (what, rule) in
            [("longer", Rule::Length), ("none", Rule::Length), ("work", Rule::Unready), ("tail", Rule::Unready), ("spare", Rule::Unready)]
        {
            let mut image = station.image.clone();
            match what {
                "longer" => image.push(0xFF),
                "none" => image.clear(),
                "work" => image[BLOCK] = 0xFC,
                "tail" => image[BLOCK - 1] = 0xFE,
                _ => image[2 * BLOCK] = 0xFE,
            }
            let platform = (station.calls.present_mode)(&image);
            assert_eq!((platform.answer, platform.mode), (refused(rule), 0), "{what}");
            assert_eq!((station.calls.check)(&image).answer, refused(rule), "{what}");
            let unready = Station { image, ..station.clone() };
            for to in [0, 2, 3] {
                assert_eq!((unready.asked_mode(to), unready.by(MODEM).asked_mode(to)), (refused(rule), refused(rule)), "{what}, to {to}");
            }
        }
    });
}

/// j2: "Setup may go to audit; user to audit, losing PK, or to deployed"; "24 when another transition is requested": every other one, to every number.
#[test]
fn transitions() {
    let numbers = (0..=0x110).chain((9..32).flat_map(|bit| [1 << bit | 2, 1 << bit | 3])).chain([u32::MAX, u32::MAX - 1]);
    let numbers: Vec<u32> = numbers.collect();
    for from in MODES {
        in_mode(from, &Setup::PLAIN, |station| {
            for &to in &numbers {
                let expected = match (from, to) {
                    (SETUP_MODE, 2) | (USER_MODE, 3) => STORED,
                    (USER_MODE, 2) => COMPACTED,
                    _ => NO_MODE,
                };
                let mut gone = station.clone();
                assert_eq!(gone.mode(to), expected, "from {from} to {to}");
                assert_eq!(gone.present(), if expected == NO_MODE { from } else { to }, "from {from} to {to}");
                assert_eq!(may_go(from, to), expected != NO_MODE);
            }
        });
    }
}

/// j2: what no request leads to, PK does: "audit to deployed when PK is enrolled, with verdict 3 ..; deployed to setup when PK is deleted, with verdict 1".
#[test]
fn round_the_modes() {
    with(&Setup::PLAIN, &[(A, 0x07, OLD)], |mut station| {
        for turn in 0..3 {
            let year = 2024 + 4 * turn;
            assert_eq!((station.mode(AUDIT_MODE), station.present()), (STORED, AUDIT_MODE));
            assert_eq!((station.key(3, year, OURKEY), station.present()), (COMPACTED, DEPLOYED_MODE));
            assert!(station.holds(&[(A, OLD), (PK, OURKEY), (PLAT_MODE, &[3])]));
            // replaced in deployed by verdict 1, it stays so
            assert_eq!((station.key(1, year + 1, NEW), station.present()), (Answer::Done(73), DEPLOYED_MODE));
            assert!(station.holds(&[(A, OLD), (PLAT_MODE, &[3]), (PK, NEW)]));
            assert_eq!((station.key(1, year + 2, &[]), station.present()), (COMPACTED, SETUP_MODE));
            assert!(station.holds(&[(A, OLD)]));
            // by user mode
            assert_eq!((station.key(3, year, OURKEY), station.present()), (Answer::Done(71), USER_MODE));
            assert_eq!((station.mode(DEPLOYED_MODE), station.present()), (STORED, DEPLOYED_MODE));
            assert_eq!((station.key(1, year + 1, &[]), station.present()), (COMPACTED, SETUP_MODE));
            assert_eq!((station.key(3, year, OURKEY), station.mode(AUDIT_MODE)), (Answer::Done(71), COMPACTED));
            assert!(station.holds(&[(A, OLD), (PLAT_MODE, &[2])]));
            assert_eq!((station.key(3, year, OURKEY), station.key(1, year + 1, &[])), (COMPACTED, COMPACTED));
            assert_eq!((station.present(), station.delete(RATE)), (SETUP_MODE, refused(Rule::Absent)));
        }
    });
}

/// j3: a mode request asks for no verdict, no presence and no phase, and custom mode is of no account.
#[test]
fn requests_in_every_phase() {
    for (from, to) in MODES.iter().flat_map(|from| [2, 3].map(|to| (*from, to))) {
        in_mode(from, &Setup::PLAIN, |station| {
            let expected = station.asked_mode(to);
            for (phase, custom) in [BOOT, AFTER_END_OF_DXE, RUNTIME, 3, u32::MAX].iter().flat_map(|phase| [0, 1].map(|custom| (*phase, custom))) {
                let mut other = station.given(Setup { custom, ..Setup::PLAIN });
                other.session.phase = phase;
                assert_eq!(other.asked_mode(to), expected, "from {from} to {to} in phase {phase}, custom {custom}");
            }
        });
    }
}

/// j4, j13: "6 (PlatMode, and PK if lost)": after the boot phase a lock on PlatMode bars every request, one on PK only that from user to audit. 6 stands before 24.
#[test]
fn locks() {
    for (from, to) in MODES.iter().flat_map(|from| [0, 1, 2, 3, 4].map(|to| (*from, to))) {
        in_mode(from, &Setup::PLAIN, |station| {
            let free = station.asked_mode(to);
            for phase in [BOOT, AFTER_END_OF_DXE, RUNTIME] {
                for (keys, bars) in [
                    (&[PLAT_MODE][..], true),
                    (&[PK], (from, to) == (USER_MODE, AUDIT_MODE)),
                    (&[PK, PLAT_MODE], true),
                    (&[KEK, A, RATE], false),
                    (&[Key { vendor: &VENDOR, ..PLAT_MODE }, Key { vendor: &VENDOR, ..PK }], false),
                ] {
                    let expected = if bars && phase != BOOT { refused(Rule::Locked) } else { free };
                    let locked = station.locked(keys).in_phase(phase);
                    assert_eq!(locked.asked_mode(to), expected, "from {from} to {to} in phase {phase}, {} locks", keys.len());
                }
            }
        });
    }
}

/// j5: "A mode alone is stored as a set stores": the entry in the tail, byte by byte.
#[test]
fn a_mode_in_the_tail() {
    let values = [(A, ADDED, 0x07, &ZEROS, OLD), (PK, ADDED, 0x27, &[5; 16], OURKEY)];
    for calls in ALL {
        for (entries, to) in [(&values[..1], 2), (&values[..], 3)] {
            let mut station = Station::new(calls, &Setup::PLAIN, image(entries));
            assert_eq!(station.mode(to), STORED);
            let data = [to as u8];
            same_bytes("image", &image(&[entries, &[(PLAT_MODE, ADDED, 0x07, &ZEROS, &data)]].concat()), &station.image);
        }
        // 60 bytes of header, 18 of name, 1 of data and 1 of FF
        let mut empty = Station::new(calls, &Setup::PLAIN, image(&[]));
        assert_eq!((empty.mode(2), empty.tail()), (STORED, 28 + ENTRY));
        let mut entry = vec![0xAA, 0x55, 0x3F, 0, 7, 0, 0, 0];
        entry.resize(36, 0);
        entry.extend([18, 0, 0, 0, 1, 0, 0, 0, 0x61, 0xDF, 0xE4, 0x8B, 0xCA, 0x93, 0xD2, 0x11, 0xAA, 0x0D, 0x00, 0xE0, 0x98, 0x03, 0x2B, 0x8C]);
        entry.extend(b"P\0l\0a\0t\0M\0o\0d\0e\0\0\0\x02\xFF");
        same_bytes("the entry", &entry, &empty.image[28..108]);
    }
}

/// j5, j5a: over a value that counts as absent: it is marked as a set marks it, and the stored mode has the attributes 0x07 and no stamp.
#[test]
fn a_mode_over_a_byte_that_counts_as_absent() {
    let stamp = [7; 16];
    for calls in ALL {
        for (attributes, data) in [(0x07, &[3][..]), (0x07, &[9]), (0x03, &[2]), (0x23, &[2]), (0x27, &[2]), (0x27, &[1; 40]), (0x07, &[2, 2])] {
            let old = |state: u8| (PLAT_MODE, state, attributes, &stamp, data);
            let (a, b) = ((A, ADDED, 0x07, &ZEROS, OLD), (B, ADDED, 0x07, &ZEROS, OLD));
            let new = (PLAT_MODE, ADDED, 0x07, &ZEROS, &[2][..]);
            for (before, after, answer) in [
                (vec![a, old(ADDED), b], vec![a, old(GONE), b, new], REPLACING),
                (vec![a, old(REPLACED), b], vec![a, old(GONE), b, new], Answer::Done(81)),
                (vec![old(REPLACED), a, old(ADDED)], vec![old(GONE), a, old(GONE), new], Answer::Done(83)),
                (vec![old(DELETED), a, old(GONE)], vec![old(DELETED), a, old(GONE), new], STORED),
            ] {
                let mut station = Station::new(calls, &Setup::PLAIN, image(&before));
                assert_eq!(station.present(), SETUP_MODE);
                assert_eq!(station.mode(AUDIT_MODE), answer, "{attributes:#X}, {} bytes", data.len());
                same_bytes("image", &image(&after), &station.image);
                assert_eq!((station.present(), station.stamp(PLAT_MODE)), (AUDIT_MODE, ZEROS));
            }
        }
        // in user mode a 2
        let mut user = Station::new(calls, &Setup::PLAIN, image(&[(PLAT_MODE, ADDED, 0x07, &ZEROS, &[2]), (PK, ADDED, 0x27, &stamp, OURKEY)]));
        assert_eq!((user.mode(DEPLOYED_MODE), user.present()), (REPLACING, DEPLOYED_MODE));
        assert!(user.holds(&[(PK, OURKEY), (PLAT_MODE, &[3])]) && user.stamp(PK) == stamp);
    }
}

/// j5: the tail to the byte: with 80 bytes of it the entry is stored there and fills the region; with 76 the region is compacted.
#[test]
fn a_mode_where_the_tail_is_short() {
    for calls in ALL {
        for (tail, answer) in [(84, STORED), (80, STORED), (76, COMPACTED), (60, COMPACTED), (0, COMPACTED)] {
            // A is deleted: it fills the region up to the tail, beside B's 68 bytes
            let data = vec![1; BLOCK - tail - 28 - 64 - 68];
            let mut station = Station::new(calls, &Setup::PLAIN, image(&[(A, DELETED, 0x07, &ZEROS, &data), (B, ADDED, 0x03, &[9; 16], OLD)]));
            assert_eq!(station.tail() + tail, BLOCK);
            assert_eq!(station.mode(AUDIT_MODE), answer, "{tail} bytes of tail");
            assert!(station.holds(&[(B, OLD), (PLAT_MODE, &[2])]) && station.stamp(B) == [9; 16]);
            assert_eq!(station.tail(), if answer == STORED { BLOCK - tail + ENTRY } else { 28 + 68 + ENTRY });
        }
    }
}

/// j6, j12: "where mode and PK change together it is one compaction, PlatMode last, PK before it": also where the tail has room. Every byte of the image after it.
#[test]
fn mode_and_key_together() {
    // of the year 0x0707
    let stamp = [7; 16];
    let later: [u8; 16] = std::array::from_fn(|place| signed(2030, &[])[place]);
    let (a, b): (Laid, Laid) = ((A, ADDED, 0x07, &stamp, OLD), (B, REPLACED, 0x03, &ZEROS, NEW));
    let (b_kept, key): (Laid, Laid) = ((B, ADDED, 0x03, &ZEROS, NEW), (PK, ADDED, 0x27, &stamp, OURKEY));
    let mode = |data: &'static [u8]| -> Laid<'static> { (PLAT_MODE, ADDED, 0x07, &ZEROS, data) };
    let stray: Laid = (PLAT_MODE, ADDED, 0x27, &stamp, OLD);
    let new: Laid = (PK, ADDED, 0x27, &later, NEW);
    let request = |station: &mut Station| station.mode(AUDIT_MODE);
    let enrol = |station: &mut Station| station.key(3, 2030, NEW);
    let delete = |station: &mut Station| station.key(1, 2030, &[]);
    type Deed<'a> = &'a dyn Fn(&mut Station) -> Answer;
    let cases: [(Deed, Vec<Laid>, Vec<Laid>, u32); 14] = [
        // user to audit: PK out, a 2 last
        (&request, vec![a, key, b], vec![a, b_kept, mode(&[2])], AUDIT_MODE),
        (&request, vec![mode(&[2]), a, key, b], vec![a, b_kept, mode(&[2])], AUDIT_MODE),
        (&request, vec![key, a, stray, b], vec![a, b_kept, mode(&[2])], AUDIT_MODE),
        (&request, vec![key], vec![mode(&[2])], AUDIT_MODE),
        // PK comes in audit: PK, then a 3
        (&enrol, vec![a, mode(&[2]), b], vec![a, b_kept, new, mode(&[3])], DEPLOYED_MODE),
        (&enrol, vec![mode(&[2])], vec![new, mode(&[3])], DEPLOYED_MODE),
        // PK comes in setup where something is under PlatMode's name: it goes
        (&enrol, vec![a, mode(&[3]), b], vec![a, b_kept, new], USER_MODE),
        (&enrol, vec![a, stray, b], vec![a, b_kept, new], USER_MODE),
        (&enrol, vec![mode(&[2, 2]), a], vec![a, new], USER_MODE),
        // PK goes in deployed, and beside a byte that counts as absent: both go
        (&delete, vec![a, key, mode(&[3]), b], vec![a, b_kept], SETUP_MODE),
        (&delete, vec![a, mode(&[2]), key, b], vec![a, b_kept], SETUP_MODE),
        (&delete, vec![stray, a, key, b], vec![a, b_kept], SETUP_MODE),
        (&delete, vec![key, mode(&[3])], vec![], SETUP_MODE),
        (&delete, vec![key, mode(&[0])], vec![], SETUP_MODE),
    ];
    for calls in ALL {
        for (number, (deed, before, after, present)) in cases.iter().enumerate() {
            for (used, stores) in [(0, 8197), (5, 8197), (63, 8197), (64, 8198)] {
                let mut station = Station::new(calls, &Setup::PLAIN, image(before));
                station.image[BLOCK..][..used].fill(0xF8);
                assert_eq!(deed(&mut station), Answer::Done(stores), "case {number}, {used} records used");
                let mut expected = image(after);
                expected[BLOCK..][..used % 64 + 1].fill(0xF8);
                same_bytes(&format!("case {number}: image"), &expected, &station.image);
                assert_eq!(station.present(), *present, "case {number}");
            }
        }
    }
}

/// j6: leftovers, deleted and unfinished entries of both names are gone after it, and values that are 3E only count.
#[test]
fn what_is_left_of_the_old_entries() {
    for calls in ALL {
        let mode = |state: u8, data: &'static [u8]| (PLAT_MODE, state, 0x07, &ZEROS, data);
        let key = |state: u8, data: &'static [u8]| (PK, state, 0x27, &ZEROS, data);
        let audit = image(&[mode(REPLACED, &[2]), key(DELETED, OLD), key(HEADER_VALID, OLD), mode(GONE, &[3])]);
        let mut station = Station::new(calls, &Setup::PLAIN, audit);
        assert_eq!((station.present(), station.key(3, 2024, NEW), station.present()), (AUDIT_MODE, COMPACTED, DEPLOYED_MODE));
        assert!(station.holds(&[(PK, NEW), (PLAT_MODE, &[3])]));
        let deployed = image(&[key(ADDED, OLD), key(REPLACED, NEW), mode(REPLACED, &[2]), mode(ADDED, &[3]), (A, ADDED, 0x07, &ZEROS, OLD)]);
        let mut station = Station::new(calls, &Setup::PLAIN, deployed);
        assert_eq!((station.present(), station.key(1, 2024, &[]), station.present()), (DEPLOYED_MODE, COMPACTED, SETUP_MODE));
        assert!(station.holds(&[(A, OLD)]) && station.tail() == 28 + 68);
        let user = image(&[key(REPLACED, OLD), mode(REPLACED, &[3]), mode(ADDED, &[2])]);
        let mut station = Station::new(calls, &Setup::PLAIN, user);
        assert_eq!((station.present(), station.mode(AUDIT_MODE), station.present()), (USER_MODE, COMPACTED, AUDIT_MODE));
        assert!(station.holds(&[(PLAT_MODE, &[2])]) && station.tail() == 28 + ENTRY);
    }
}

/// j6, j7: where nothing is under PlatMode's name, or PK neither comes nor goes, PK changes alone, as a set or delete of another name does.
#[test]
fn a_key_alone() {
    with(&Setup::PLAIN, &[(A, 0x07, OLD)], |mut station| {
        assert_eq!((station.key(3, 2024, OURKEY), station.present()), (Answer::Done(71), USER_MODE));
        assert_eq!((station.key(1, 2025, NEW), station.present()), (Answer::Done(73), USER_MODE));
        assert_eq!((station.key(1, 2026, &[]), station.present()), (Answer::Done(1), SETUP_MODE));
    });
    // a standing PK is replaced or appended to: the byte beside it keeps its place, whether it counts or not
    for data in [&[2][..], &[3], &[2, 3]] {
        with(&Setup::PLAIN, &[byte(data), (PK, 0x27, OURKEY), (A, 0x07, OLD)], |station| {
            let present = station.present();
            let mut replaced = station.clone();
            assert_eq!(replaced.key(1, 2025, NEW), Answer::Done(73));
            assert!(replaced.holds(&[(PLAT_MODE, data), (A, OLD), (PK, NEW)]) && replaced.present() == present);
            let mut joined = Station { verdict: 1, ..station.clone() };
            assert_eq!(joined.set(PK, 0x67, &signed(2025, NEW)), Answer::Done(77));
            assert!(joined.holds(&[(PLAT_MODE, data), (A, OLD), (PK, &[OURKEY, NEW].concat())]) && joined.present() == present);
            // an empty append changes nothing
            assert_eq!(joined.set(PK, 0x67, &signed(2026, &[])), NOTHING);
        });
    }
    // keys other than PK
    for mode in MODES {
        in_mode(mode, &Setup::PLAIN, |station| {
            for key in [KEK, DB, DBX, DBT] {
                let mut other = Station { verdict: 1, ..station.clone() };
                assert!(matches!(other.set(key, 0x27, &signed(2024, OURKEY)), Answer::Done(67..90)));
                assert!(matches!(other.set(key, 0x27, &signed(2025, &[])), Answer::Done(1)));
                assert_eq!(other.present(), mode);
            }
        });
    }
}

/// j7: an append that creates PK comes as a set does; an empty one comes with nothing, in no mode.
#[test]
fn appends_to_an_absent_key() {
    for (data, audit) in [(&[2][..], true), (&[3], false), (&[4], false)] {
        with(&Setup::PLAIN, &[byte(data), (A, 0x07, OLD)], |station| {
            let mut station = Station { verdict: 3, ..station };
            let before = station.image.clone();
            assert_eq!(station.set(PK, 0x67, &signed(2024, &[])), NOTHING);
            assert!(station.image == before);
            assert_eq!(station.set(PK, 0x67, &signed(2024, NEW)), COMPACTED);
            let mode: &[(Key, &[u8])] = if audit { &[(PLAT_MODE, &[3])] } else { &[] };
            assert!(station.holds(&[&[(A, OLD), (PK, NEW)], mode].concat()));
        });
    }
    // a delete of an absent PK, by empty data
    for mode in [SETUP_MODE, AUDIT_MODE] {
        in_mode(mode, &Setup::PLAIN, |station| assert_eq!(station.asked_key(3, 2024, &[]), refused(Rule::Absent)));
    }
}

/// j8: "Audit wants the verdicts of setup, and deployed those of user": PK 3 or 1, KEK none or 1, db, dbx and dbt none or 1 or 2. "Custom mode does not count in deployed".
#[test]
fn verdicts_by_mode() {
    let other = Key { name: b"S\0\0\0", ..A };
    for mode in MODES {
        in_mode(mode, &Setup::PLAIN, |station| {
            let strict = mode == USER_MODE || mode == DEPLOYED_MODE;
            for (key, custom, presence) in
                [PK, KEK, DB, DBX, DBT, other].iter().flat_map(|key| [(0, 0), (0, 1), (1, 0), (1, 1), (2, 0x100)].map(|(c, p)| (*key, c, p)))
            {
                let wanted: &[u32] = match key {
                    _ if custom != 0 && presence != 0 && mode != DEPLOYED_MODE && key != other => &[],
                    key if key == PK => [&[3], &[1]][usize::from(strict)],
                    key if key == KEK => [&[][..], &[1]][usize::from(strict)],
                    key if key == other => &[3],
                    _ => [&[][..], &[1, 2]][usize::from(strict)],
                };
                for verdict in [0, 1, 2, 3, 4, 5, u32::MAX] {
                    let asking = Station { presence, verdict, ..station.given(Setup { custom, ..Setup::PLAIN }) };
                    let answer = asking.asked(key, 0x27, &signed(2024, NEW));
                    let accepted = wanted.is_empty() || wanted.contains(&verdict);
                    assert!(
                        if accepted { matches!(answer, Answer::Done(1..)) } else { answer == refused(Rule::Verdict) },
                        "{answer:?} for {key:02X?} in mode {mode}, custom {custom}, presence {presence}, verdict {verdict}"
                    );
                }
            }
        });
    }
}

/// j8: custom mode with presence, in which audit goes to deployed with any verdict; deployed to setup with 1 alone, and 10 is met there too.
#[test]
fn custom_mode() {
    for verdict in 0..6 {
        in_mode(AUDIT_MODE, &Setup::PLAIN, |station| {
            let mut custom = station.in_custom();
            assert_eq!((custom.key(verdict, 2024, NEW), custom.present()), (COMPACTED, DEPLOYED_MODE));
            // from here on it does not count
            let later = custom.asked_key(verdict, 2025, &[]);
            assert_eq!(later, if verdict == 1 { COMPACTED } else { refused(Rule::Verdict) });
            for year in [2023, 2024] {
                assert_eq!(custom.asked_key(1, year, &[]), refused(Rule::Stamp), "{year}");
            }
            assert_eq!(
                Station { presence: 0, ..station.in_custom() }.asked_key(verdict, 2024, NEW),
                if verdict == 3 { COMPACTED } else { refused(Rule::Verdict) }
            );
        });
        // in user mode it counts: neither 9 nor 10
        in_mode(USER_MODE, &Setup::PLAIN, |station| assert_eq!(station.in_custom().asked_key(verdict, 0, &[]), Answer::Done(1)));
        in_mode(DEPLOYED_MODE, &Setup::PLAIN, |station| {
            let mut custom = Station { verdict, ..station.in_custom() };
            // stored stamps are zeros here: any is later
            assert_eq!(custom.set(DB, 0x27, &signed(2024, NEW)), if [1, 2].contains(&verdict) { Answer::Done(71) } else { refused(Rule::Verdict) });
        });
    }
}

/// j9: "24 when .. a set or delete names PlatMode, after 9": 24 whatever it would do, in every mode, also of an empty append, and of a delete where nothing stands.
#[test]
fn sets_of_the_mode() {
    for mode in MODES {
        in_mode(mode, &Setup::PLAIN, |station| {
            let large = [2; 3000];
            for data in [&[][..], &[0], &[2], &[3], &[2, 2], &large] {
                for attributes in [0, 0x07, 0x47] {
                    let stands = station.value(PLAT_MODE).is_some();
                    assert_eq!(station.asked(PLAT_MODE, attributes, data), NO_MODE, "{attributes:#X}, {} bytes, stands {stands}", data.len());
                    assert_eq!(station.in_custom().asked(PLAT_MODE, attributes, data), NO_MODE);
                    assert_eq!(station.at_runtime(100).asked(PLAT_MODE, attributes, data), NO_MODE);
                }
            }
            assert_eq!(station.clone().delete(PLAT_MODE), NO_MODE);
            // under another GUID it is a name like others
            assert!(matches!(station.asked(Key { vendor: &VENDOR, ..PLAT_MODE }, 0x07, &[2]), Answer::Done(80)));
        });
    }
}

/// j9: what comes before 24, and what would come after it.
#[test]
fn order_of_a_set_of_the_mode() {
    let rules = [Setting::any(PLAT_MODE).read_only()];
    with(&Setup { share: 0, ..Setup::PLAIN }.ruled(&rules), &[(A, 0x07, OLD), (PLAT_MODE, 0x27, &[2])], |station| {
        let station = Station { verdict: 4, ..station.given(Setup { share: 0, ..station.session.setup }) };
        // 7: other attributes than the stored ones, and none over a stored 0x20
        for attributes in [0x07, 0x03, 0x23, 0] {
            assert_eq!(station.asked(PLAT_MODE, attributes, &[2]), refused(Rule::Standing));
        }
        // 8: no descriptor
        assert_eq!(station.asked(PLAT_MODE, 0x27, &[2]), refused(Rule::Descriptor));
        // 9: a value that stands wants 4
        assert_eq!(Station { verdict: 3, ..station.clone() }.asked(PLAT_MODE, 0x27, &signed(2024, &[2])), refused(Rule::Verdict));
        // then 24: before 10 (stamps), 12, 21 and 13
        for (year, data) in [(2024, &[2][..]), (0, &[2]), (2024, &[2; 3000]), (2024, &[])] {
            assert_eq!(station.asked(PLAT_MODE, 0x27, &signed(year, data)), NO_MODE, "{year}, {} bytes", data.len());
            assert_eq!(station.asked(PLAT_MODE, 0x67, &signed(year, data)), NO_MODE, "{year}, {} bytes", data.len());
        }
        // 22, 4 and 6 before it
        assert_eq!(station.by(MODEM).asked(PLAT_MODE, 0x27, &signed(2024, &[2])), refused(Rule::Tenant));
        assert_eq!((station.asked(PLAT_MODE, 0x0F, &[2]), station.asked(PLAT_MODE, 0x13, &[2])), (refused(Rule::Record), refused(Rule::Attributes)));
        let locked = station.locked(&[PLAT_MODE]);
        assert_eq!(locked.asked(PLAT_MODE, 0x27, &signed(2024, &[2])), NO_MODE);
        for phase in [AFTER_END_OF_DXE, RUNTIME] {
            assert_eq!(locked.in_phase(phase).asked(PLAT_MODE, 0x27, &signed(2024, &[2])), refused(Rule::Locked));
        }
    });
    // absent: 24 and not 11, also where verdict 3 is wanted, and 9 where it is not there
    with(&Setup::PLAIN, &[], |station| {
        assert_eq!((station.asked(PLAT_MODE, 0, &[]), station.asked(PLAT_MODE, 0x47, &[])), (NO_MODE, NO_MODE));
        for (verdict, answer) in [(3, NO_MODE), (4, refused(Rule::Verdict)), (0, refused(Rule::Verdict))] {
            assert_eq!(Station { verdict, ..station.clone() }.asked(PLAT_MODE, 0x27, &signed(2024, &[2])), answer);
        }
    });
    // a value without RT at runtime: 4 and 7
    with(&Setup::PLAIN, &[(PLAT_MODE, 0x03, &[2])], |station| {
        assert_eq!(station.asked(PLAT_MODE, 0x03, &[2]), NO_MODE);
        let runtime = station.at_runtime(0);
        assert_eq!((runtime.asked(PLAT_MODE, 0x03, &[2]), runtime.asked(PLAT_MODE, 0, &[])), (refused(Rule::Attributes), refused(Rule::Standing)));
    });
}

/// j9: an item of a profile: 24 after 7, before 11, 12 and 21; the first item that breaks a rule tells, and 13 comes after all.
#[test]
fn items_of_a_profile() {
    for mode in MODES {
        in_mode(mode, &Setup::PLAIN, |station| {
            for data in [&[][..], &[2], &[3], &[1; 3000]] {
                assert_eq!(station.profiled(&settings(&[(PLAT_MODE, data)])), NO_MODE, "mode {mode}, {} bytes", data.len());
                assert_eq!(station.profiled(&settings(&[(RATE, NEW), (PLAT_MODE, data), (A, &[1; 3000])])), NO_MODE);
            }
            assert_eq!(station.profiled(&settings(&[(A, &[1; 3000]), (PLAT_MODE, &[2])])), refused(Rule::DataSize));
            let other = if mode == AUDIT_MODE || mode == DEPLOYED_MODE { refused(Rule::Standing) } else { NO_MODE };
            assert_eq!(station.profiled(&file(&[item(PLAT_MODE, 0x03, &[2])])), other, "mode {mode}");
            assert_eq!(station.by(MODEM).profiled(&settings(&[(PLAT_MODE, &[2])])), refused(Rule::Tenant));
            assert_eq!(station.profiled(&file(&[item(PLAT_MODE, 0x07, &[2]), item(PLAT_MODE, 0x07, &[2])])), refused(Rule::Twice));
            let locked = station.locked(&[PLAT_MODE]).in_phase(AFTER_END_OF_DXE);
            assert_eq!(locked.profiled(&settings(&[(PLAT_MODE, &[2])])), refused(Rule::Locked));
            // a profile that names neither leaves the mode
            let mut kept = station.clone();
            assert_eq!((kept.profile(&settings(&[(RATE, NEW)])), kept.present()), (COMPACTED, mode));
        });
    }
}

/// j9: get and next-name show PlatMode like any value.
#[test]
fn reads_of_the_mode() {
    in_mode(AUDIT_MODE, &Setup::PLAIN, |station| {
        for phase in [BOOT, RUNTIME] {
            let (reply, data) = station.in_phase(phase).get(PLAT_MODE);
            assert_eq!((reply.answer, reply.attributes, &data[..]), (NOTHING, 0x07, &[2][..]));
        }
        let mut buffer = [0; 144];
        let reply = (station.calls.next_name)(Context::NO_LIMIT, &station.session, &station.image, A, &mut buffer);
        assert_eq!((reply.answer, &buffer[..reply.size as usize]), (NOTHING, &[&PLAT_MODE.vendor[..], PLAT_MODE.name].concat()[..]));
        assert_eq!(station.by(MODEM).get(PLAT_MODE).0.answer, refused(Rule::Tenant));
    });
    in_mode(USER_MODE, &Setup::PLAIN, |station| assert_eq!(station.get(PLAT_MODE).0.answer, refused(Rule::Absent)));
}

/// j10: "13" to the byte, in our share: what stands and PlatMode's 80 bytes, less what goes.
#[test]
fn room_of_a_request_in_the_share() {
    let values = values_in(SETUP_MODE);
    let large = [0xEE; 500];
    let stray = (PLAT_MODE, 0x23, &large[..]);
    let key = (PK, 0x27, OURKEY);
    for (values, to) in [
        (values.clone(), AUDIT_MODE),
        ([&values[..], &[stray]].concat(), AUDIT_MODE),
        ([&values[..], &[key]].concat(), DEPLOYED_MODE),
        ([&values[..], &[key]].concat(), AUDIT_MODE),
        ([&values[..], &[key, stray]].concat(), DEPLOYED_MODE),
        ([&values[..], &[key, stray]].concat(), AUDIT_MODE),
        ([&values[..], &[key, byte(&[2])]].concat(), AUDIT_MODE),
        (vec![key], AUDIT_MODE),
        (vec![], AUDIT_MODE),
    ] {
        with(&Setup::PLAIN, &values, |station| {
            let mut after = Book::of(&station.image);
            after.mode(to);
            let exact = taken(&after.values);
            let free = station.asked_mode(to);
            assert!(matches!(free, Answer::Done(_)));
            for (share, answer) in [(exact, free), (exact + 1, free), (u32::MAX, free), (exact - 1, NO_ROOM), (0, NO_ROOM)] {
                let given = station.with_share(share);
                assert_eq!(given.asked_mode(to), answer, "to {to}, {} values, share {share} for {exact}", values.len());
                // at runtime our reserve counts, up to 4,096; the modem's does not
                for reserve in [1, 100, 4096, 5000] {
                    let mut more = station.with_share(share.saturating_add(reserve.min(4096))).at_runtime(reserve);
                    more.session.setup.modem.reserve = 4096;
                    assert_eq!(more.asked_mode(to), answer, "to {to}, share {share} and {reserve}");
                    let mut boot = given.clone();
                    boot.session.setup.reserve = reserve;
                    assert_eq!((boot.asked_mode(to), boot.in_phase(AFTER_END_OF_DXE).asked_mode(to)), (answer, answer));
                }
            }
        });
    }
}

/// j10: "28 plus all values against L", where the share is larger: the region is exactly full after the request, or would have one byte more.
#[test]
fn room_of_a_request_in_the_region() {
    let all = Setup { share: u32::MAX, ..Setup::PLAIN };
    // 28 + 2,112 + 80 leave 1,876 bytes: 64 and 1,812 of data
    for (size, answer) in [(1812, COMPACTED), (1813, NO_ROOM)] {
        let (one, other) = ([1; 2048], vec![2; size]);
        let standing = [(A, 0x07, &one[..]), (B, 0x07, &other[..])];
        with(&all, &standing, |mut station| {
            // the tail has 80 bytes, so that it is no compaction
            let answer = if answer == COMPACTED { STORED } else { answer };
            assert_eq!(station.mode(AUDIT_MODE), answer, "{size} bytes");
            assert!(answer != STORED || station.tail() == BLOCK);
        });
        // a modem's value counts in L
        let theirs = Key { name: b"B\0\0\0", vendor: &MODEMS };
        let setup = Setup { modem: Tenant { share: u32::MAX, reserve: 0, vendor: MODEMS }, ..all };
        with(&setup, &[(A, 0x07, &one[..]), (theirs, 0x07, &other[..])], |station| {
            assert_eq!(station.asked_mode(AUDIT_MODE), if answer == COMPACTED { STORED } else { answer }, "{size} bytes of the modem's");
        });
    }
    // user to audit in a full region: PK has 60 + 6 + 14 = 80 bytes, and with a byte less of data still has, by rounding
    for (size, answer) in [(14, COMPACTED), (13, COMPACTED), (11, COMPACTED), (10, NO_ROOM)] {
        let (one, data) = ([1; 2048], vec![3; size]);
        let key = (60 + 6 + size).next_multiple_of(4);
        let other = vec![2; BLOCK - 28 - 2112 - key - 64];
        with(&all, &[(PK, 0x27, &data[..]), (A, 0x07, &one[..]), (B, 0x07, &other[..])], |mut station| {
            assert_eq!(station.tail(), BLOCK);
            assert_eq!(station.mode(AUDIT_MODE), answer, "{size} bytes of PK");
            assert!(answer == NO_ROOM || station.holds(&[(A, &one), (B, &other), (PLAT_MODE, &[2])]));
            // to deployed there is no room
            assert_eq!(station.asked_mode(DEPLOYED_MODE), if answer == NO_ROOM { NO_ROOM } else { NO_MODE });
        });
    }
}

/// j10: a set of PK is judged on the values after both changes: in audit PlatMode's 80 bytes are there before and after; a byte that counts as absent frees its own.
#[test]
fn room_of_a_key_that_comes() {
    let large = [0xEE; 500];
    for (mode, more) in [(byte(&[2]), ENTRY as u32), (byte(&[3]), 0), ((PLAT_MODE, 0x27, &large[..]), 0)] {
        with(&Setup::PLAIN, &[(A, 0x07, OLD), mode], |station| {
            let exact = 68 + PK_ENTRY + more;
            for (share, answer) in [(exact, COMPACTED), (exact + 1, COMPACTED), (exact - 1, NO_ROOM), (0, NO_ROOM)] {
                assert_eq!(station.with_share(share).asked_key(3, 2024, OURKEY), answer, "share {share} for {exact}");
                let reserved = station.with_share(share.saturating_add(100)).at_runtime(100);
                assert_eq!(reserved.asked_key(3, 2024, OURKEY), answer, "share {share} for {exact}, at runtime");
            }
        });
    }
    // the region to the byte: 28 + 2,112 + 80 of PlatMode leave 1,876, which are 66 and 1,810 of PK
    let one = [1; 2048];
    with(&Setup { share: u32::MAX, ..Setup::PLAIN }, &[byte(&[2]), (A, 0x07, &one[..])], |station| {
        for (size, answer) in [(1810, COMPACTED), (1811, NO_ROOM)] {
            let mut station = station.clone();
            assert_eq!(station.key(3, 2024, &vec![7; size]), answer, "{size} bytes");
            assert!(answer == NO_ROOM || station.tail() == BLOCK);
        }
    });
    // where the byte goes, its 80 bytes are PK's
    with(&Setup { share: u32::MAX, ..Setup::PLAIN }, &[byte(&[3]), (A, 0x07, &one[..])], |station| {
        for (size, answer) in [(1890, COMPACTED), (1891, NO_ROOM)] {
            let mut station = station.clone();
            assert_eq!(station.key(3, 2024, &vec![7; size]), answer, "{size} bytes");
            assert!(answer == NO_ROOM || (station.tail() == BLOCK && station.present() == USER_MODE));
        }
    });
}

/// j10: "a delete .. never meets this": with no share at all, and a reserve at runtime.
#[test]
fn deletes_of_the_key_never_meet_13() {
    for data in [&[3][..], &[2], &[9, 9]] {
        with(&Setup::NOTHING, &[(A, 0x07, OLD), (PK, 0x27, OURKEY), byte(data)], |station| {
            let starved = station.given(Setup { share: 0, modem: Tenant { share: 0, reserve: 0, vendor: MODEMS }, ..Setup::NOTHING });
            for station in [starved.clone(), starved.at_runtime(4096)] {
                let mut gone = station.clone();
                assert_eq!((gone.key(1, 2024, &[]), gone.present()), (COMPACTED, SETUP_MODE));
                assert!(gone.holds(&[(A, OLD)]));
                // an equal set of another name is done there too; a mode request always stores
                assert_eq!(station.asked(A, 0x07, OLD), NOTHING);
                let requested = if data == [3] { NO_MODE } else { NO_ROOM };
                assert_eq!((station.asked_mode(2), station.asked_mode(3)), (requested, requested));
            }
        });
    }
}

/// j11: "a lock on PlatMode does not bar PK": sets and deletes of PK take PlatMode with them; a lock on PK bars them, with 6.
#[test]
fn locks_and_the_key() {
    for phase in [BOOT, AFTER_END_OF_DXE, RUNTIME] {
        let barred = |answer| if phase == BOOT { answer } else { refused(Rule::Locked) };
        in_mode(AUDIT_MODE, &Setup::PLAIN, |station| {
            let mut locked = station.locked(&[PLAT_MODE]).in_phase(phase);
            assert_eq!((locked.key(3, 2024, OURKEY), locked.present()), (COMPACTED, DEPLOYED_MODE));
            assert_eq!((locked.key(1, 2025, &[]), locked.present()), (COMPACTED, SETUP_MODE));
            assert_eq!(station.locked(&[PK]).in_phase(phase).asked_key(3, 2024, OURKEY), barred(COMPACTED));
        });
        with(&Setup::PLAIN, &[byte(&[7])], |station| {
            let mut locked = station.locked(&[PLAT_MODE]).in_phase(phase);
            assert_eq!(locked.asked_mode(AUDIT_MODE), barred(REPLACING));
            assert_eq!((locked.key(3, 2024, OURKEY), locked.value(PLAT_MODE)), (COMPACTED, None));
        });
    }
}

/// j11, e9: rules for PlatMode stop neither a request nor PK; one for PK stops its sets and deletes, and no request.
#[test]
fn rules_for_settings() {
    let forbidding = [Setting::any(PLAT_MODE).sized(100, 200), Setting::any(PLAT_MODE).read_only(), Setting::any(PLAT_MODE).between(9, 9)];
    in_mode(USER_MODE, &Setup::PLAIN, |station| {
        let ruled = station.ruled(&forbidding);
        assert_eq!((ruled.asked_mode(2), ruled.asked_mode(3)), (COMPACTED, STORED));
        let fixed = station.ruled(&[Setting::any(PK).read_only()]);
        assert_eq!((fixed.asked_mode(2), fixed.asked_mode(3)), (COMPACTED, STORED));
        assert_eq!((fixed.asked_key(1, 2024, &[]), fixed.asked_key(1, 2024, NEW)), (refused(Rule::Setting), refused(Rule::Setting)));
    });
    in_mode(AUDIT_MODE, &Setup::PLAIN, |station| {
        assert_eq!(station.ruled(&forbidding).asked_key(3, 2024, OURKEY), COMPACTED);
        let sized = station.ruled(&[Setting::any(PK).sized(4, 4)]);
        assert_eq!((sized.asked_key(3, 2024, OURKEY), sized.asked_key(3, 2024, &[1; 5])), (COMPACTED, refused(Rule::Setting)));
        // 21 before 13
        assert_eq!(sized.with_share(0).asked_key(3, 2024, &[1; 5]), refused(Rule::Setting));
    });
    in_mode(DEPLOYED_MODE, &Setup::PLAIN, |station| assert_eq!(station.ruled(&forbidding).asked_key(1, 2024, &[]), COMPACTED));
}

/// j12: "the book in 01 takes PK's change, if any, then PlatMode's; a stored mode goes to the end even where its byte stays".
#[test]
fn the_order_of_values() {
    with(&Setup::PLAIN, &[byte(&[2]), (RATE, 0x07, OLD), (PK, 0x27, OURKEY), (A, 0x03, OLD)], |mut station| {
        assert_eq!(station.mode(AUDIT_MODE), COMPACTED);
        assert!(station.holds(&[(RATE, OLD), (A, OLD), (PLAT_MODE, &[2])]));
        assert_eq!(station.key(3, 2024, NEW), COMPACTED);
        assert!(station.holds(&[(RATE, OLD), (A, OLD), (PK, NEW), (PLAT_MODE, &[3])]));
        assert_eq!(station.set(RATE, 0x07, NEW), Answer::Done(77));
        assert_eq!(station.key(1, 2025, &[]), COMPACTED);
        assert!(station.holds(&[(A, OLD), (RATE, NEW)]));
    });
}

/// Sides: "PlatMode is ours, like the key names": the modem's request is 22, before 6, 24 and 13, also where its names are under PK's GUID.
#[test]
fn sides() {
    for vendor in [MODEMS, *PK.vendor] {
        let modem = Tenant { share: 500, reserve: 0, vendor };
        let setup = Setup { share: 400, modem, ..Setup::NOTHING };
        for from in MODES {
            in_mode(from, &setup, |station| {
                let locked = station.locked(&[PLAT_MODE, PK]);
                for to in [0, 2, 3, u32::MAX] {
                    assert_eq!(station.by(MODEM).asked_mode(to), refused(Rule::Tenant));
                    assert_eq!(locked.in_phase(RUNTIME).by(MODEM).asked_mode(to), refused(Rule::Tenant));
                    assert_eq!(station.with_share(0).by(MODEM).asked_mode(to), refused(Rule::Tenant));
                    for side in [OURS, 2, 0x101, u32::MAX] {
                        assert_eq!(station.by(side).asked_mode(to), station.asked_mode(to), "side {side}");
                    }
                }
                // its bytes are in our share
                if from == SETUP_MODE {
                    let taken = taken(&station.values()) + ENTRY as u32;
                    assert_eq!((station.with_share(taken).asked_mode(2), station.with_share(taken - 1).asked_mode(2)), (STORED, NO_ROOM));
                }
                // the modem's own names under PK's GUID are others
                let own = Key { name: b"p\0l\0a\0t\0m\0o\0d\0e\0\0\0", vendor: &vendor };
                assert_eq!(station.by(MODEM).asked(own, 0x07, &[2]), STORED);
                assert_eq!(station.clone().by(MODEM).lock(PLAT_MODE), refused(Rule::Tenant));
                assert_eq!(station.by(MODEM).asked(PLAT_MODE, 0x07, &[2]), refused(Rule::Tenant));
            });
        }
    }
    // a start-up counts it as ours: 80 bytes of PlatMode and 72 of PK
    with(&Setup::PLAIN, &[byte(&[3]), (PK, 0x27, OURKEY)], |station| {
        for (share, modem, answer) in
            [(152, 0, NOTHING), (151, 0, refused(Rule::Tenant)), (0, 152, refused(Rule::Tenant)), (72, 80, refused(Rule::Tenant))]
        {
            let setup = Setup { share, modem: Tenant { share: modem, reserve: 0, vendor: *PK.vendor }, ..Setup::NOTHING };
            assert_eq!(station.clone().start_up(&setup), answer, "shares {share} and {modem}");
        }
    });
}

/// j13: a lock on PlatMode takes one of our eight places, and is accepted again unchanged.
#[test]
fn the_lock_itself() {
    with(&Setup::PLAIN, &[], |mut station| {
        assert_eq!((station.lock(PLAT_MODE), station.lock(PK), station.lock(PLAT_MODE)), (NOTHING, NOTHING, NOTHING));
        assert_eq!(station.session.count, 2);
        for letter in b'a'..b'g' {
            assert_eq!(station.lock(Key { name: &[letter, 0, 0, 0], ..A }), NOTHING);
        }
        assert_eq!((station.lock(A), station.lock(PLAT_MODE)), (refused(Rule::LockSpace), NOTHING));
        assert_eq!((station.in_phase(RUNTIME).lock(PLAT_MODE), station.session.count), (refused(Rule::LockPhase), 8));
    });
    // also where the modem's names are under its GUID: eight of ours leave it none
    let modem = Tenant { share: 0, reserve: 0, vendor: *PK.vendor };
    with(&Setup { modem, ..Setup::PLAIN }, &[], |mut station| {
        for letter in b'a'..b'i' {
            assert_eq!(station.lock(Key { name: &[letter, 0, 0, 0], ..A }), NOTHING);
        }
        assert_eq!((station.lock(PLAT_MODE), station.lock(PK)), (refused(Rule::LockSpace), refused(Rule::LockSpace)));
        assert_eq!(station.by(MODEM).lock(Key { name: b"x\0\0\0", ..PK }), NOTHING);
    });
}

/// The order 1, 2, 22, 6, 24, 13: a request that breaks several is told the first.
#[test]
fn order_of_a_request() {
    in_mode(USER_MODE, &Setup::PLAIN, |station| {
        let starved = station.with_share(0);
        let locked = starved.locked(&[PLAT_MODE]).in_phase(RUNTIME);
        assert_eq!(
            (locked.by(MODEM).asked_mode(9), locked.asked_mode(9), locked.asked_mode(2)),
            (refused(Rule::Tenant), refused(Rule::Locked), refused(Rule::Locked))
        );
        assert_eq!(
            (starved.asked_mode(9), starved.asked_mode(1), starved.asked_mode(2), starved.asked_mode(3)),
            (NO_MODE, NO_MODE, NO_ROOM, NO_ROOM)
        );
        // PK locked: to deployed it is not lost
        let key = starved.locked(&[PK]).in_phase(RUNTIME);
        assert_eq!((key.asked_mode(2), key.asked_mode(3), key.asked_mode(9)), (refused(Rule::Locked), NO_ROOM, NO_MODE));
    });
    // deployed, target audit, PK locked: nothing is lost, so 24
    in_mode(DEPLOYED_MODE, &Setup::PLAIN, |station| assert_eq!(station.locked(&[PK]).in_phase(RUNTIME).asked_mode(2), NO_MODE));
}

/// "A mode alone is stored as a set stores", 3F decides; where both change together FC does: stopped before it a start-up finds the old mode, and from it on the new.
#[test]
fn what_decides() {
    let values = [&[(A, 0x07, OLD)], &values_in(USER_MODE)[1..]].concat();
    with(&Setup::PLAIN, &values, |station| {
        let stopped = |n: u64, to: u32| {
            let mut one = station.clone();
            let answer = (one.calls.mode)(Context::with(n), &one.session, &mut one.image, to);
            assert_eq!(answer, Answer::Stopped, "after {n} to {to}");
            assert!(matches!(one.start_up(&Setup::PLAIN), Answer::Done(_)), "after {n} to {to}");
            one
        };
        for n in 0..80 {
            assert_eq!(stopped(n, DEPLOYED_MODE).present(), USER_MODE, "after {n}");
        }
        for n in (0..5).chain([100, DECIDED - 2, DECIDED - 1, DECIDED, DECIDED + 1, DECIDED + 2, 8000]).chain(8190..8197) {
            let one = stopped(n, AUDIT_MODE);
            assert_eq!(one.present(), if n < DECIDED { USER_MODE } else { AUDIT_MODE }, "after {n}");
            assert_eq!(one.value(PK).is_some(), n < DECIDED, "after {n}");
        }
        // n is of no account where it is refused
        assert_eq!((station.calls.mode)(Context::with(0), &station.session, &mut station.image.clone(), 7), NO_MODE);
        // pages: at 312 each of header, name and data is cut at page ends; a width that is none counts as 1
        assert_eq!(station.tail(), 312);
        for (width, alone, together) in
            [(1, 80, 8197), (2, 42, 4101), (4, 23, 2053), (8, 14, 1029), (16, 10, 517), (0, 80, 8197), (3, 80, 8197), (32, 80, 8197)]
        {
            let answer = |to| (station.calls.mode)(Context::NO_LIMIT.paged(width), &station.session, &mut station.image.clone(), to);
            assert_eq!((answer(DEPLOYED_MODE), answer(AUDIT_MODE)), (Answer::Done(alone), Answer::Done(together)), "w = {width}");
        }
        // a dead byte of the record, of the spare's front and of the region's; one that has no bit to fall
        for (dead, answer) in [(BLOCK, refused(Rule::Worn)), (2 * BLOCK, refused(Rule::Worn)), (0, refused(Rule::Worn)), (3 * BLOCK - 1, COMPACTED)] {
            let context = Context::worn(u64::MAX, &[dead as u32]);
            assert_eq!((station.calls.mode)(context, &station.session, &mut station.image.clone(), AUDIT_MODE), answer, "{dead} dead");
        }
    });
}

/// "A mode alone is stored as a set stores": beside a set of a name of the same length with attributes 0x07, on images by chance, in which PlatMode has that name.
#[test]
fn alone_as_a_set_stores() {
    let twin = Key { name: b"P\0l\0a\0t\0M\0o\0d\0f\0\0\0", ..PK };
    let renamed = |image: &[u8]| {
        let mut image = image.to_vec();
        while let Some(at) = image.windows(18).position(|window| window == PLAT_MODE.name) {
            image[at..][..18].copy_from_slice(twin.name);
        }
        image
    };
    let mut tally = [0; 3];
    rounds(2, 1500, |r| {
        let image = if r.once_in(2) { generate::filled(r, 1) } else { generate::crafted::<varstore::paper::layout::Authenticated>(r, 1) };
        let values = match (PAPER.check)(&image).answer {
            NOTHING => Book::of(&image).values,
            _ => return,
        };
        let (from, to) = (mode_of(&values), r.pick(&[2, 3]));
        let stray = values.iter().find(|value| value.name.key() == PLAT_MODE);
        if !may_go(from, to) || (from, to) == (USER_MODE, AUDIT_MODE) || stray.is_some_and(|value| value.attributes != 0x07) {
            return;
        }
        let session = (PAPER.session_new)(&Setup { share: r.pick(&[u32::MAX, u32::MAX, taken(&values)]), ..Setup::PLAIN });
        let context = Context::with(r.pick(&[u64::MAX, u64::MAX, 70, 4100])).paged(generate::width(r));
        for calls in ALL {
            let (mut one, mut other) = (image.clone(), renamed(&image));
            let asked = common::cases::asked(twin, 0x07, &[to as u8]);
            let answers = ((calls.mode)(context, &session, &mut one, to), (calls.set)(context, &session, &mut other, &asked.request()));
            assert_eq!(answers.0, answers.1, "{}: to {to} over {stray:02X?}", calls.who);
            same_bytes("image", &renamed(&one), &other);
            tally[match answers.0 {
                Answer::Done(_) => 0,
                Answer::Stopped => 1,
                Answer::Refused(_) => 2,
            }] += 1;
        }
    });
    println!("done, stopped, refused: {tally:?}");
    assert!(tally.iter().all(|count| *count > 20), "{tally:?}");
}

/// What is lent may begin at any address.
#[test]
fn any_address() {
    in_mode(USER_MODE, &Setup::PLAIN, |station| {
        for to in [2, 3] {
            let mut wanted = station.clone();
            let answer = wanted.mode(to);
            for shift in 0..8 {
                let mut image = vec![0xC6; shift];
                image.extend_from_slice(&station.image);
                assert_eq!((station.calls.present_mode)(&image[shift..]).mode, USER_MODE);
                assert_eq!((station.calls.mode)(Context::NO_LIMIT, &station.session, &mut image[shift..], to), answer);
                assert!(image[shift..] == wanted.image && image[..shift].iter().all(|byte| *byte == 0xC6), "{shift} bytes on");
            }
        }
    });
}

/// The content of a refused request is as before; the session is only read.
#[test]
fn what_is_only_read() {
    for (calls, call) in [(ENGINE, engine::mode as fn(Context, &Session, &mut [u8], u32, &mut [u8; 28672]) -> Answer), (LENT, engine::lent::mode)] {
        let entries: Vec<_> = values_in(USER_MODE).iter().map(|(key, attributes, data)| (*key, ADDED, *attributes, &ZEROS, *data)).collect();
        let station = Station::new(calls, &Setup::PLAIN, image(&entries));
        let session = station.session;
        for (to, answer) in [(0, NO_MODE), (2, COMPACTED), (3, STORED)] {
            let mut content = [0xA5; 28672];
            assert_eq!(call(Context::NO_LIMIT, &station.session, &mut station.image.clone(), to, &mut content), answer);
            assert!(session == station.session);
            assert!(answer != NO_MODE || content == [0xA5; 28672], "the content of {answer:?}");
        }
    }
}

/// Mode requests, and sets and deletes of PK, by chance on images by chance: one that is done leaves the values and the mode that the tests' own book has, in its order; one
/// that is refused 24 asked for another transition, and whatever else refuses it would refuse it in its place.
#[test]
fn changes_by_chance() {
    let mut tally: BTreeMap<String, usize> = BTreeMap::new();
    rounds(4, 400, |r| {
        let image = generate::image(r).0;
        if (PAPER.check)(&image).answer != NOTHING {
            return;
        }
        let mut station = Station::new(r.pick(&ALL), &Setup::PLAIN, image);
        for _ in 0..12 {
            let call = change(r, &station.image);
            station.session = (station.calls.session_new)(&Setup { custom: r.below(2) as u32, ..Setup::alone(station.image.len()) });
            terms(r, &mut station.session, &station.image, &call);
            let (before, mut after) = (Book::of(&station.image), station.image.clone());
            let (answer, _) = call.by(&station.calls, Context::NO_LIMIT, &station.session, &mut after);
            let mut book = before.clone();
            match answer {
                Answer::Done(_) => {
                    call.feed(&mut book);
                    assert!(Book::of(&after) == book, "the values after {call:?}: {:02X?}, and not {:02X?}", Book::of(&after), book);
                    if let Some(deed) = deed(&call, &before, &book) {
                        *tally.entry(deed.into()).or_default() += 1;
                    }
                }
                Answer::Refused(rule) => *tally.entry(format!("{} refused {}", call.what(), rule.number())).or_default() += 1,
                Answer::Stopped => panic!("nothing stops it"),
            }
            assert_eq!((station.calls.present_mode)(&after).mode, mode_of(&book.values));
            if let Call::Mode { to, side } = call {
                // a name that is listed is accepted unchanged
                let boot = Session { phase: BOOT, ..station.session };
                let is_later = station.session.phase != BOOT;
                let locked = |key: Key| is_later && (PAPER.lock)(boot, OURS, key).answer == NOTHING && (PAPER.lock)(boot, OURS, key).session == boot;
                let from = mode_of(&before.values);
                let expected = match () {
                    _ if side == MODEM => Some(Rule::Tenant),
                    _ if locked(PLAT_MODE) || ((from, to) == (USER_MODE, AUDIT_MODE) && locked(PK)) => Some(Rule::Locked),
                    _ if !may_go(from, to) => Some(Rule::Mode),
                    _ => None,
                };
                match expected {
                    Some(rule) => assert_eq!(answer, refused(rule), "from {from}: {call:?}"),
                    None => assert!(matches!(answer, Answer::Done(1..) | NO_ROOM), "from {from}: {call:?} is {answer:?}"),
                }
            }
            if !r.once_in(3) {
                station.image = after;
            }
        }
    });
    println!("{tally:?}");
    for deed in DEEDS {
        assert!(tally.get(deed).is_some_and(|count| *count > 5), "{deed}: {tally:?}");
    }
    for thing in [
        "mode refused 6",
        "mode refused 13",
        "mode refused 22",
        "mode refused 24",
        "set refused 6",
        "set refused 9",
        "set refused 10",
        "set refused 13",
    ] {
        assert!(tally.contains_key(thing), "{thing}: {tally:?}");
    }
}

/// Sessions of another writer: any numbers, or bytes by chance; both forms of the call and of the plan agree with the second implementation.
#[test]
fn any_session() {
    let mut r = Random::new(0x6A);
    for turn in 0..800 {
        let image = generate::filled(&mut r, 1);
        let mut session = generate::session(&mut r);
        let any = r.number() as u32;
        match r.below(6) {
            0 => session.phase = any,
            1 => session.count = any,
            2 => session.setup.rules = any,
            3 => session.setup.modem.vendor = if r.once_in(2) { *PK.vendor } else { [0; 16] },
            4 => session.sizes[r.below(16)] = any,
            _ => session.locks.iter_mut().for_each(|byte| *byte = r.byte()),
        }
        let (to, side) = (r.pick(&[2, 3, 2, 3, any]), if r.once_in(4) { any } else { OURS });
        let context = Context { side, ..Context::worn(r.number() >> r.below(64), &[any]).paged(generate::width(&mut r)) };
        let [paper, engine, lending] = ALL.map(|calls| {
            let mut image = image.clone();
            ((calls.mode)(context, &session, &mut image, to), image)
        });
        assert!(paper == engine && paper == lending, "turn {turn}: {:?}, {:?}, {:?}", paper.0, engine.0, lending.0);
        let [one, other] = [engine::plan_mode, engine::lent::plan_mode].map(|plan| {
            lent(|content| plan(&session, side, &image, to, content).map(|plan| (plan.stores(1, content).collect::<Vec<_>>(), plan.deciding)))
        });
        assert!(one == other, "turn {turn}: the plans");
    }
}
