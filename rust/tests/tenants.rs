//! 02 (f): a second tenant in the same region. Whose a name is, and 22 for the other side's; what next-name shows; shares, reserves and locks of each side (13 and 16);
//! 22 at start-up, over pending spares too; that nothing which one side asks alters what the other is told or sees; that runs keep to their shares. Sizes are worked out
//! by hand, and every case is tried on both implementations.

mod common;

use common::book::{Book, Value};
use common::cuts::{begun, Cut, Run, Way};
use common::generate::{self, Asked, Name, BLOCK};
use common::modes;
use common::profiles::Profile;
use common::random::Random;
use common::rounds::rounds;
use common::station::{with_setup, Station};
use common::stored::Call;
use common::tenants::is_modems;
use common::{A, B, NEW, OLD, RATE, RECORD, RECORDS, VENDOR};
use varstore::calls::{Calls, Read, BOTH, PAPER};
use varstore::interface::{Answer, Context, Guid, Key, Reply, Request, Rule, Session, Setup, Tenant, AFTER_END_OF_DXE, MODEM, OURS, PLACE, RUNTIME};
use varstore::paper::entry::{self, Contents};
use varstore::paper::layout::Authenticated;
use varstore::paper::region;
use varstore::paper::request::{DB, DBT, DBX, KEK, PK};

/// The modem's GUID, two of its names, and a name of ours with a text that it has too.
const MODEMS: Guid = [0x11, 0x12, 0x13, 0x14, 0x15, 0x16, 0x17, 0x18, 0x19, 0x1A, 0x1B, 0x1C, 0x1D, 0x1E, 0x1F, 0x20];
const APN: Key = Key { name: b"a\0p\0n\0\0\0", vendor: &MODEMS };
const PIN: Key = Key { name: b"p\0i\0n\0\0\0", vendor: &MODEMS };
const OUR_APN: Key = Key { name: APN.name, vendor: &VENDOR };
const EMPTY: &[u8] = &[0, 0];

/// 28 + 2,000 + 1,000 + 1,000 leave 68 of one block. RATE's entry with four bytes of data is 76, APN's and PIN's are 72, a record's is 92; A's and B's have 64 beside
/// their data.
const SHARED: Setup = Setup { records: 1000, share: 2000, modem: Tenant { share: 1000, reserve: 0, vendor: MODEMS }, ..Setup::NOTHING };

const fn refused(rule: Rule) -> Answer {
    Answer::Refused(rule)
}

const FOREIGN: Answer = refused(Rule::Tenant);
const NO_ROOM: Answer = refused(Rule::Room);

impl Station {
    /// The key after one, as a side is shown it: the GUID and name.
    fn next(&self, key: Key) -> Result<Vec<u8>, Rule> {
        let mut buffer = [0; 144];
        let context = Context::NO_LIMIT.by(self.side);
        let reply = (self.calls.next_name)(context, &self.session, &self.image, key, &mut buffer);
        match reply.answer {
            Answer::Refused(rule) => Err(rule),
            _ => Ok(buffer[..reply.size as usize].to_vec()),
        }
    }

    /// What every call that names a name answers: set, get, next-name, lock. The store keeps what it has.
    fn answers(&self, key: Key) -> [Answer; 4] {
        let next = self.next(key).map_or_else(Answer::Refused, |_| Answer::Done(0));
        [self.asked(key, 0x07, OLD), self.get(key).0.answer, next, self.clone().lock(key)]
    }
}

/// GUID and name.
fn named(key: Key) -> Result<Vec<u8>, Rule> {
    Ok([key.vendor, key.name].concat())
}

/// RATE, APN, a record, PIN and A stand, in this order.
fn stocked(case: impl Fn(Station)) {
    with_setup(&SHARED, |mut station| {
        assert_eq!(station.set(RATE, 0x07, OLD), Answer::Done(75));
        station.side = MODEM;
        assert_eq!(station.set(APN, 0x07, OLD), Answer::Done(73));
        station.side = OURS;
        assert_eq!(station.set(RECORD, 0x0F, OLD), Answer::Done(91));
        station.side = MODEM;
        assert_eq!(station.set(PIN, 0x03, OLD), Answer::Done(73));
        station.side = OURS;
        assert_eq!(station.set(A, 0x07, OLD), Answer::Done(69));
        case(station);
    });
}

/// "22 .. when a call names the other side's name": whether it stands or not.
#[test]
fn names_of_the_other_side() {
    stocked(|station| {
        let modem = station.by(MODEM);
        let absent = Key { name: b"x\0\0\0", vendor: &MODEMS };
        for key in [APN, PIN, absent] {
            assert_eq!(station.answers(key), [FOREIGN; 4]);
        }
        for key in [RATE, A, B, OUR_APN, RECORD, PK, Key { vendor: &[0; 16], ..RATE }] {
            assert_eq!(modem.answers(key), [FOREIGN; 4]);
        }
        assert_eq!(station.asked(APN, 0, &[]), FOREIGN);
        assert_eq!(modem.asked(RATE, 0, &[]), FOREIGN);
        assert_eq!(station.answers(RATE), [Answer::Done(0); 4]);
        assert_eq!(modem.answers(APN), [Answer::Done(0); 4]);
        assert_eq!((station.get(RATE).1, modem.get(APN).1), (OLD.to_vec(), OLD.to_vec()));
    });
}

/// Other numbers than the modem's are ours.
#[test]
fn other_sides() {
    stocked(|station| {
        for side in [OURS, 2, 3, 0x100, 0x101, 0x1_0001, 0x8000_0001, u32::MAX] {
            let other = station.by(side);
            assert_eq!((other.answers(RATE), other.answers(APN)), ([Answer::Done(0); 4], [FOREIGN; 4]), "side {side}");
            assert_eq!(other.next(Key { name: EMPTY, vendor: &MODEMS }), named(RATE), "side {side}");
        }
    });
}

/// "after 3", and before 4 and all that follows; 1 and 2 come first. Of a lock before 15.
#[test]
fn place_of_22() {
    stocked(|station| {
        let ill = Key { name: b"x\0\0", vendor: &MODEMS };
        assert_eq!(station.answers(ill), [refused(Rule::Name); 4]);
        // next-name alone takes the empty name, which is no side's
        let name = refused(Rule::Name);
        assert_eq!(station.answers(Key { name: EMPTY, vendor: &MODEMS }), [name, name, Answer::Done(0), name]);
        let request = Request { key: APN, attributes: 0x07, data: OLD, presence: 0, verdict: 0 };
        let set = |image: &mut [u8]| (station.calls.set)(Context::NO_LIMIT, &station.session, image, &request);
        assert_eq!(set(&mut [0xFF; 100]), refused(Rule::Length));
        assert_eq!(set(&mut [0xFF; 3 * BLOCK]), refused(Rule::Unready));
        // 4, 17, 7, 8, 11, 12 and 13 would be broken too
        for (attributes, data) in
            [(0x13, OLD), (0x40, OLD), (0x0F, OLD), (0x03, OLD), (0x27, OLD), (0, &[][..]), (0x07, &[1; 2049]), (0x07, &[1; 1900])]
        {
            assert_eq!(station.asked(APN, attributes, data), FOREIGN, "{attributes:#X}");
            assert_eq!(station.given(Setup { share: 0, ..SHARED }).by(MODEM).asked(A, attributes, data), FOREIGN, "{attributes:#X}");
        }
        assert_eq!(station.by(MODEM).asked(PK, 0x07, OLD), FOREIGN, "before 5");
        // 6 and 15, after the boot phase
        let mut locked = station.by(MODEM);
        assert_eq!(locked.lock(APN), Answer::Done(0));
        for phase in [AFTER_END_OF_DXE, RUNTIME] {
            let later = locked.in_phase(phase);
            assert_eq!((later.asked(APN, 0x07, NEW), later.clone().lock(APN)), (refused(Rule::Locked), refused(Rule::LockPhase)));
            assert_eq!((later.by(OURS).asked(APN, 0x07, NEW), later.by(OURS).lock(APN)), (FOREIGN, FOREIGN));
            assert_eq!(later.by(OURS).lock(ill), refused(Rule::Name));
        }
        // 14: a buffer of no bytes
        let reply = (station.calls.get)(Context::NO_LIMIT, &station.session, &station.image, APN, &mut []);
        assert_eq!((reply.answer, reply.needed), (FOREIGN, 0));
    });
}

/// "Next-name shows a side only its own values": in flash order, and at runtime those with RT.
#[test]
fn next_names() {
    stocked(|station| {
        let begin = Key { name: EMPTY, vendor: &VENDOR };
        let modem = station.by(MODEM);
        assert_eq!([begin, RATE, RECORD, A].map(|key| station.next(key)), [named(RATE), named(RECORD), named(A), Err(Rule::Absent)]);
        assert_eq!([begin, APN, PIN].map(|key| modem.next(key)), [named(APN), named(PIN), Err(Rule::Absent)]);
        // the empty name is no side's, whatever its GUID
        for vendor in [&VENDOR, &MODEMS, &RECORDS, &[0; 16]] {
            let begin = Key { name: EMPTY, vendor };
            assert_eq!((station.next(begin), modem.next(begin)), (named(RATE), named(APN)));
        }
        assert_eq!((station.next(B), modem.next(Key { name: b"x\0\0\0", vendor: &MODEMS })), (Err(Rule::Absent), Err(Rule::Absent)));
        let later = modem.in_phase(RUNTIME);
        assert_eq!([begin, APN, PIN].map(|key| later.next(key)), [named(APN), Err(Rule::Absent), Err(Rule::Absent)]);
        // under another GUID of the modem the values are ours
        let other = station.given(Setup { modem: Tenant { vendor: VENDOR, ..SHARED.modem }, ..SHARED });
        assert_eq!([begin, APN, RECORD, PIN].map(|key| other.next(key)), [named(APN), named(RECORD), named(PIN), Err(Rule::Absent)]);
        assert_eq!([begin, RATE, A].map(|key| other.by(MODEM).next(key)), [named(RATE), named(A), Err(Rule::Absent)]);
    });
}

/// "key names and error records always included": where the modem has been given their GUIDs, other names under them are the modem's.
#[test]
fn keys_and_records_are_ours() {
    for (vendor, ours) in [(*PK.vendor, &[PK, KEK][..]), (*DB.vendor, &[DB, DBX, DBT]), (RECORDS, &[RECORD])] {
        let setup = Setup { custom: 1, modem: Tenant { vendor, ..SHARED.modem }, ..SHARED };
        with_setup(&setup, |mut station| {
            station.presence = 1;
            let modem = station.by(MODEM);
            for &key in ours {
                let attributes = if key == RECORD { 0x0F } else { 0x67 };
                let data = if key == RECORD { OLD.to_vec() } else { common::signed(2024, OLD) };
                station.verdict = 3;
                assert!(matches!(station.asked(key, attributes, &data), Answer::Done(1..)), "{key:X?}");
                assert_eq!(modem.asked(key, attributes, &data), FOREIGN, "{key:X?}");
                // one character more or less, or another one
                let longer = [&key.name[..key.name.len() - 2], b"0\0\0\0"].concat();
                let shorter = [&key.name[..key.name.len() - 4], &[0, 0]].concat();
                let mut other = key.name.to_vec();
                other[0] ^= 0x20;
                for name in [longer, shorter, other] {
                    let near = Key { name: &name, vendor: &vendor };
                    if !ours.contains(&near) {
                        assert_eq!((station.asked(near, 0x07, OLD), modem.would_store(near, 0x07, OLD)), (FOREIGN, Ok(())), "{near:X?}");
                    }
                }
                // and under the GUID of others it is ours
                let elsewhere = Key { vendor: &VENDOR, ..key };
                assert_eq!((station.would_store(elsewhere, 0x07, OLD), modem.asked(elsewhere, 0x07, OLD)), (Ok(()), FOREIGN), "{key:X?}");
            }
        });
    }
}

/// A GUID is compared whole; a zero one is a GUID like others.
#[test]
fn vendors() {
    with_setup(&SHARED, |station| {
        for bit in 0..128 {
            let mut vendor = MODEMS;
            vendor[bit / 8] ^= 1 << (bit % 8);
            let key = Key { vendor: &vendor, ..APN };
            assert_eq!((station.would_store(key, 0x07, OLD), station.by(MODEM).asked(key, 0x07, OLD)), (Ok(()), FOREIGN), "bit {bit}");
        }
        let zero = station.given(Setup { modem: Tenant { vendor: [0; 16], ..SHARED.modem }, ..SHARED });
        let key = Key { vendor: &[0; 16], ..RATE };
        assert_eq!((zero.asked(key, 0x07, OLD), zero.by(MODEM).would_store(key, 0x07, OLD)), (FOREIGN, Ok(())));
    });
}

/// "Rule 13 .. reads a side's sum without error records, with its reserve at runtime, against its share": up to the share exactly, and not by the other's numbers.
#[test]
fn shares() {
    with_setup(&SHARED, |station| {
        let with = |share, modem, reserves: [u32; 2]| {
            let [reserve, other] = reserves;
            station.given(Setup { share, reserve, modem: Tenant { share: modem, reserve: other, vendor: MODEMS }, ..SHARED })
        };
        for (share, fits) in [(0, false), (75, false), (76, true), (77, true), (u32::MAX, true)] {
            let expected = if fits { Ok(()) } else { Err(Rule::Room) };
            assert_eq!(with(share, 0, [0, 0]).would_store(RATE, 0x07, OLD), expected, "share {share}");
            assert_eq!(with(share, u32::MAX, [0, 4096]).in_phase(RUNTIME).would_store(RATE, 0x07, OLD), expected, "share {share}");
            assert_eq!(
                with(share.saturating_add(100), 0, [100, 0]).in_phase(RUNTIME).would_store(RATE, 0x07, OLD),
                expected,
                "share {share} and 100"
            );
        }
        for (share, fits) in [(0, false), (71, false), (72, true), (73, true), (u32::MAX, true)] {
            let expected = if fits { Ok(()) } else { Err(Rule::Room) };
            let asks = |station: Station| station.by(MODEM).would_store(APN, 0x07, OLD);
            assert_eq!(asks(with(0, share, [0, 0])), expected, "share {share}");
            assert_eq!(asks(with(u32::MAX, share, [4096, 0]).in_phase(RUNTIME)), expected, "share {share}");
            assert_eq!(asks(with(0, share.saturating_add(100), [0, 100]).in_phase(RUNTIME)), expected, "share {share} and 100");
            assert_eq!(asks(with(0, share, [0, 100]).in_phase(AFTER_END_OF_DXE)), expected, "a reserve counts at runtime");
        }
        // reserves count as 4,096 at most: with 4,172 bytes RATE is set whatever the reserve
        for reserve in [4096, 4097, 0x1_0000, u32::MAX] {
            for (share, expected) in [(4096 + 75, Err(Rule::Room)), (4096 + 76, Ok(()))] {
                assert_eq!(with(share, 0, [reserve, 0]).in_phase(RUNTIME).would_store(RATE, 0x07, OLD), expected, "{share}, {reserve}");
            }
            for (share, expected) in [(4096 + 71, Err(Rule::Room)), (4096 + 72, Ok(()))] {
                assert_eq!(with(0, share, [0, reserve]).in_phase(RUNTIME).by(MODEM).would_store(APN, 0x07, OLD), expected, "{share}, {reserve}");
            }
        }
    });
}

/// A share that is full: what is replaced by the same size is set, deletes make room, and the other side goes on.
#[test]
fn a_full_share() {
    const FULL: Setup = Setup { share: 152, modem: Tenant { share: 144, ..SHARED.modem }, ..SHARED };
    with_setup(&FULL, |mut station| {
        let gain = Key { name: b"G\0A\0I\0N\0\0\0", ..RATE };
        assert_eq!((station.set(RATE, 0x07, OLD), station.set(gain, 0x07, OLD)), (Answer::Done(75), Answer::Done(75)));
        assert_eq!((station.set(A, 0x07, &[1]), station.set(RATE, 0x07, &[1; 7]), station.set(RATE, 0x47, &[1; 3])), (NO_ROOM, NO_ROOM, NO_ROOM));
        assert_eq!((station.set(RATE, 0x07, NEW), station.set(RATE, 0x47, &[1, 2])), (Answer::Done(77), Answer::Done(79)));
        station.side = MODEM;
        assert_eq!((station.set(APN, 0x07, OLD), station.set(PIN, 0x07, OLD)), (Answer::Done(73), Answer::Done(73)));
        assert_eq!(station.set(Key { name: b"x\0\0\0", ..APN }, 0x07, &[1]), NO_ROOM);
        assert_eq!(station.set(APN, 0x07, NEW), Answer::Done(75));
        station.side = OURS;
        assert_eq!((station.delete(gain), station.set(A, 0x07, &[1])), (Answer::Done(1), Answer::Done(66)));
        station.side = MODEM;
        assert_eq!(station.set(Key { name: b"x\0\0\0", ..APN }, 0x07, &[1]), NO_ROOM);
        // shares that were lowered: no deletes and nothing that stores nothing meets 13
        let mut lowered = station.given(Setup { share: 0, modem: Tenant { share: 0, ..FULL.modem }, ..FULL });
        assert_eq!(
            (lowered.set(APN, 0x07, NEW), lowered.set(APN, 0x47, &[]), lowered.delete(APN)),
            (Answer::Done(0), Answer::Done(0), Answer::Done(1))
        );
        assert_eq!(lowered.set(PIN, 0x07, NEW), NO_ROOM);
        lowered.side = OURS;
        assert_eq!((lowered.set(RATE, 0x47, &[]), lowered.set(RATE, 0x07, OLD), lowered.delete(RATE)), (Answer::Done(0), NO_ROOM, Answer::Done(1)));
    });
}

/// "and still 28 plus all values against L": in a session whose shares do not fit. The region is exactly full with 28 + 2,112 + 1,956.
#[test]
fn all_values_against_the_region() {
    const LARGE: Setup = Setup { share: u32::MAX, records: u32::MAX, modem: Tenant { share: u32::MAX, ..SHARED.modem }, ..SHARED };
    let other_b = Key { name: B.name, vendor: &MODEMS };
    with_setup(&LARGE, |mut station| {
        assert_eq!(station.set(A, 0x07, &[1; 2048]), Answer::Done(2113));
        station.side = MODEM;
        assert_eq!(station.set(other_b, 0x07, &[2; 1893]), NO_ROOM);
        assert_eq!(station.set(other_b, 0x07, &[2; 1892]), Answer::Done(1957));
        assert_eq!(station.set(APN, 0x07, &[1]), NO_ROOM);
        station.side = OURS;
        assert_eq!((station.set(B, 0x07, &[1]), station.set(RECORD, 0x0F, &[1])), (NO_ROOM, NO_ROOM));
        assert_eq!(station.set(A, 0x07, &[3; 2048]), Answer::Done(8197));
        // every number the largest: at runtime the reserves are 4,096 each, and no sum wraps
        let largest = Setup { custom: u32::MAX, reserve: u32::MAX, modem: Tenant { reserve: u32::MAX, ..LARGE.modem }, rules: u32::MAX, ..LARGE };
        let mut runtime = station.given(largest).in_phase(RUNTIME);
        assert_eq!(runtime.set(A, 0x07, &[4; 2048]), Answer::Done(8197));
        assert_eq!(runtime.by(MODEM).set(other_b, 0x07, &[4; 1892]), Answer::Done(8197));
        assert_eq!(runtime.by(MODEM).set(other_b, 0x07, &[4; 1893]), NO_ROOM);
        assert_eq!(runtime.start_up(&largest), FOREIGN);
        assert_eq!(runtime.session.setup, Setup { custom: 1, reserve: 4096, modem: Tenant { reserve: 4096, ..largest.modem }, ..largest });
    });
}

/// "(an error record's set meets only this)": a record is not held to our share, nor is it in its sum; a value of another writer under a record's name is.
#[test]
fn records_beside_the_shares() {
    with_setup(&Setup { share: 0, ..SHARED }, |mut station| {
        assert_eq!((station.set(RECORD, 0x0F, OLD), station.set(RATE, 0x07, OLD)), (Answer::Done(91), NO_ROOM));
        let mut runtime = station.given(Setup { share: 76, reserve: 4096, ..SHARED }).in_phase(RUNTIME);
        assert_eq!((runtime.set(RECORD, 0x0F, NEW), runtime.set(RATE, 0x07, OLD)), (Answer::Done(93), NO_ROOM));
        let mut station = station.given(Setup { share: 76, ..SHARED });
        assert_eq!((station.set(RATE, 0x07, OLD), station.set(A, 0x07, &[1])), (Answer::Done(75), NO_ROOM));
    });
    // 92 bytes of another writer, and 76
    let image = image(&[(RECORD, 0x07, OLD)]);
    for calls in BOTH {
        for (share, expected) in [(167, Err(Rule::Room)), (168, Ok(()))] {
            let station = Station::new(calls, &Setup { share, ..SHARED }, image.clone());
            assert_eq!(station.would_store(RATE, 0x07, OLD), expected, "{}", calls.who);
        }
        let start = |share, records, vendor| {
            let setup = Setup { share, records, modem: Tenant { vendor, ..SHARED.modem }, ..SHARED };
            (calls.start_up)(Context::NO_LIMIT, &mut image.clone(), &setup).answer
        };
        for vendor in [MODEMS, RECORDS] {
            assert_eq!([start(91, 1000, vendor), start(92, 0, vendor)], [FOREIGN, Answer::Done(0)], "{}", calls.who);
        }
    }
}

/// "eight locks" for each side, "or no free place".
#[test]
fn eight_locks_each() {
    with_setup(&SHARED, |mut station| {
        let own = |side: u32, letter: u8| (vec![letter, 0, 0, 0], if side == MODEM { MODEMS } else { VENDOR });
        for count in 1..=8 {
            for side in [OURS, MODEM] {
                let (name, vendor) = own(side, b'a' + count);
                let key = Key { name: &name, vendor: &vendor };
                station.side = side;
                assert_eq!((station.lock(key), station.lock(key)), (Answer::Done(0), Answer::Done(0)), "{count} of side {side}");
            }
            assert_eq!(station.session.count, 2 * u32::from(count));
        }
        for side in [OURS, MODEM] {
            let mut full = station.by(side);
            let ((more, vendor), (listed, _)) = (own(side, b'z'), own(side, b'c'));
            assert_eq!(full.lock(Key { name: &more, vendor: &vendor }), refused(Rule::LockSpace));
            assert_eq!(full.lock(Key { name: &listed, vendor: &vendor }), Answer::Done(0));
            assert!(full.session == station.session);
        }
    });
    // eight of one side in a row, and then eight of the other
    for first in [OURS, MODEM] {
        with_setup(&SHARED, |mut station| {
            for (side, count) in [(first, 8), (1 - first, 8)] {
                station.side = side;
                let vendor = if side == MODEM { MODEMS } else { VENDOR };
                for letter in 1..=count + 1 {
                    let answer = station.lock(Key { name: &[letter, 1, 0, 0], vendor: &vendor });
                    assert_eq!(answer, if letter > count { refused(Rule::LockSpace) } else { Answer::Done(0) }, "{letter} of side {side}");
                }
            }
        });
    }
}

/// A session whose lock list holds these, with their sizes.
fn listing(places: &[(Key, u32)]) -> Session {
    let mut session = (PAPER.session_new)(&SHARED);
    session.count = places.len() as u32;
    for (place, (key, size)) in places.iter().enumerate() {
        session.sizes[place] = *size;
        session.locks[place * PLACE..][..key.name.len()].copy_from_slice(key.name);
        session.locks[place * PLACE + 128..][..16].copy_from_slice(key.vendor);
    }
    session
}

/// Lists of another writer: a name that is not well formed is no side's but takes a place, a repeated one counts each time, and the session's own GUID says whose each is.
#[test]
fn foreign_lock_lists() {
    with_setup(&SHARED, |station| {
        let with = |places: &[(Key, u32)]| Station { session: listing(places), ..station.clone() };
        let locks = |station: Station| [(OURS, B), (MODEM, PIN)].map(|(side, key)| station.by(side).lock(key));
        let (space, done) = (refused(Rule::LockSpace), Answer::Done(0));
        // RATE's size is 10, APN's is 8; with 9 a name ends in the middle of a character, with 2, 0 and 200 it is none
        for size in [0, 2, 7, 9, 12, 128, 129, 200, u32::MAX] {
            assert_eq!(locks(with(&[(RATE, size); 15])), [done, done], "15 of size {size}");
            assert_eq!(locks(with(&[(APN, size); 15])), [done, done], "15 of size {size}");
            assert_eq!(locks(with(&[(RATE, size); 16])), [space, space], "16 of size {size}");
        }
        assert_eq!(locks(with(&[(RATE, 10); 7])), [done, done]);
        assert_eq!(locks(with(&[(RATE, 10); 8])), [space, done]);
        assert_eq!(locks(with(&[(RATE, 10); 15])), [space, done]);
        assert_eq!(locks(with(&[(RATE, 10); 16])), [space, space]);
        assert_eq!(locks(with(&[(APN, 8); 7])), [done, done]);
        assert_eq!(locks(with(&[(APN, 8); 8])), [done, space]);
        assert_eq!(with(&[(RATE, 10); 16]).lock(RATE), done, "listed");
        // seven of ours, and a place that is no side's
        assert_eq!(locks(with(&[&[(RATE, 10); 7][..], &[(RATE, 9)]].concat())), [done, done]);
        assert_eq!(locks(with(&[&[(RATE, 10); 7][..], &[(APN, 8); 8]].concat())), [done, space]);
        // keys and records are ours under the modem's GUID too
        let mut records = with(&[(RECORD, 26); 8]);
        records.session.setup.modem.vendor = RECORDS;
        assert_eq!(records.lock(B), space);
        // places beyond the count do not count, and a count above 16 is 16
        for (count, expected) in [(7, [done, done]), (8, [space, done]), (17, [space, space]), (u32::MAX, [space, space])] {
            let mut counted = with(&[(RATE, 10); 16]);
            counted.session.count = count;
            assert_eq!(locks(counted), expected, "count {count}");
        }
        // the same list where the modem has our GUID
        let mut turned = with(&[(RATE, 10); 8]);
        turned.session.setup.modem.vendor = VENDOR;
        assert_eq!([(OURS, PIN), (MODEM, B)].map(|(side, key)| turned.by(side).lock(key)), [done, space]);
    });
}

/// An image of b = 1 whose region has these values.
fn image(values: &[(Key, u32, &[u8])]) -> Vec<u8> {
    let mut image = region::header::<Authenticated>(BLOCK).to_vec();
    for (key, attributes, data) in values {
        entry::write::<Authenticated>(&mut image, *key, &Contents { attributes: *attributes, stamp: &[0; 16], old: data, new: &[] });
    }
    image.resize(3 * BLOCK, 0xFF);
    image
}

/// RATE, APN and a record, 76, 72 and 92 bytes, and what admits just these.
const VALUES: [(Key, u32, &[u8]); 3] = [(RATE, 0x07, OLD), (APN, 0x07, OLD), (RECORD, 0x0F, OLD)];
const JUST: Setup = Setup { records: 92, share: 76, modem: Tenant { share: 72, reserve: 0, vendor: MODEMS }, ..Setup::NOTHING };

/// Setups around what admits just these values, and whether they do: "a side above its share, the error records above H, or shares that do not fit".
fn around() -> Vec<(Setup, bool)> {
    let modem = |share, reserve| Tenant { share, reserve, vendor: MODEMS };
    vec![
        (JUST, true),
        (Setup { share: 75, ..JUST }, false),
        (Setup { modem: modem(71, 0), ..JUST }, false),
        (Setup { records: 91, ..JUST }, false),
        // reserves do not count
        (Setup { reserve: u32::MAX, modem: modem(72, u32::MAX), ..JUST }, true),
        // 28 + 3,904 + 72 + 92
        (Setup { share: 3904, ..JUST }, true),
        (Setup { share: 3905, ..JUST }, false),
        (Setup { modem: modem(3900, 0), ..JUST }, true),
        (Setup { modem: modem(3901, 0), ..JUST }, false),
        (Setup { records: 3920, ..JUST }, true),
        (Setup { records: 3921, ..JUST }, false),
        (Setup { share: u32::MAX, ..JUST }, false),
        (Setup { modem: modem(u32::MAX, 0), ..JUST }, false),
        (Setup { records: u32::MAX, ..JUST }, false),
        // sums that would wrap
        (Setup { share: u32::MAX - 91 - 72 - 27, ..JUST }, false),
        (Setup { share: 1 << 31, modem: modem(1 << 31, 0), ..JUST }, false),
        (Setup { share: u32::MAX, records: u32::MAX, modem: modem(u32::MAX, u32::MAX), custom: u32::MAX, reserve: u32::MAX, ..JUST }, false),
        // another GUID: 148 bytes are ours
        (Setup { modem: Tenant { share: 0, reserve: 0, vendor: [0; 16] }, share: 147, ..JUST }, false),
        (Setup { modem: Tenant { share: 0, reserve: 0, vendor: [0; 16] }, share: 148, ..JUST }, true),
        (Setup::NOTHING, false),
    ]
}

/// A start-up of so many stores: where it is refused 22 it changes nothing, no n stops it and no byte fails, and its session is fresh all the same. It is no side's.
fn start(calls: &Calls, before: &[u8], setup: &Setup, admitted: bool, stores: u64) {
    let contexts = [Context::NO_LIMIT, Context::with(0), Context::worn(u64::MAX, &[BLOCK as u32]), Context::NO_LIMIT.by(MODEM)];
    for context in contexts {
        let mut image = before.to_vec();
        let started = (calls.start_up)(context, &mut image, setup);
        assert_eq!(started.answer == FOREIGN, !admitted, "{}: {:?} with {context:?} and {setup:?}", calls.who, started.answer);
        assert!(admitted || image == before, "{}: the image with {context:?} and {setup:?}", calls.who);
        assert!(started.session == (calls.session_new)(setup), "{}: a fresh session of {setup:?}", calls.who);
        if admitted && context.count == 0 && context.limit >= stores {
            assert_eq!(started.answer, Answer::Done(stores), "{}: {setup:?}", calls.who);
        }
    }
}

/// 22 on the region's values: of a start-up that finds nothing to do, one that compacts a dirty tail, and one that erases spare or work block.
#[test]
fn start_ups() {
    let clean = image(&VALUES);
    let mut dirty = clean.clone();
    dirty[BLOCK - 1] = 0;
    let mut spare = clean.clone();
    spare[3 * BLOCK - 1] = 0;
    let mut work = clean.clone();
    work[BLOCK] = 0xFC;
    for calls in BOTH {
        for (setup, admitted) in around() {
            start(&calls, &clean, &setup, admitted, 0);
            start(&calls, &dirty, &setup, admitted, 8197);
            start(&calls, &spare, &setup, admitted, 1);
            start(&calls, &work, &setup, admitted, 1);
        }
    }
}

/// "(in the spare if pending)": not on the region's values, which are given up; nothing is resumed where it is refused.
#[test]
fn start_ups_over_pending_spares() {
    let (full, bare) = (image(&VALUES), image(&[]));
    let over = |region: &[u8], spare: &[u8]| [&region[..BLOCK], &[0xFC], &[0xFF; BLOCK - 1], &spare[..BLOCK]].concat();
    for calls in BOTH {
        for (setup, admitted) in around() {
            start(&calls, &over(&bare, &full), &setup, admitted, 4099);
            start(&calls, &over(&full, &full), &setup, admitted, 4099);
            start(&calls, &over(&[0; BLOCK], &full), &setup, admitted, 4099);
        }
        // of an empty spare only what does not fit is refused, whatever the region holds
        start(&calls, &over(&full, &bare), &Setup::NOTHING, true, 4099);
        start(&calls, &over(&full, &bare), &Setup { share: 4068, ..Setup::NOTHING }, true, 4099);
        start(&calls, &over(&full, &bare), &Setup { share: 4069, ..Setup::NOTHING }, false, 4099);
        // a spare that is no clean region is not pending: the region's values count, and spare and work block are erased
        let mut torn = full.clone();
        torn[BLOCK - 1] = 0;
        start(&calls, &over(&bare, &torn), &Setup::NOTHING, true, 2);
        start(&calls, &over(&full, &torn), &Setup::NOTHING, false, 2);
        start(&calls, &over(&full, &torn), &JUST, true, 2);
    }
}

/// A set that compacts is cut behind its deciding store: a start-up that is given less than the new values take is refused, and one that is given enough resumes.
#[test]
fn a_cut_set_and_lowered_shares() {
    with_setup(&SHARED, |mut station| {
        assert_eq!((station.set(A, 0x07, &[1; 900]), station.set(B, 0x07, &[2; 900])), (Answer::Done(965), Answer::Done(965)));
        station.side = MODEM;
        assert_eq!((station.set(APN, 0x07, &[3; 800]), station.set(APN, 0x07, &[4; 800])), (Answer::Done(869), Answer::Done(871)));
        let request = Request { key: APN, attributes: 0x07, data: &[5; 932], presence: 0, verdict: 0 };
        let before = Book::of(&station.image);
        assert_eq!((station.calls.set)(Context::with(4098).by(MODEM), &station.session, &mut station.image, &request), Answer::Stopped);
        // 60 + 8 + 932 stand in the spare
        let lowered = Setup { modem: Tenant { share: 999, ..SHARED.modem }, ..SHARED };
        let cut = station.image.clone();
        assert_eq!(station.start_up(&lowered), FOREIGN);
        assert!(station.image == cut);
        assert_eq!(station.start_up(&SHARED), Answer::Done(4099));
        let mut book = before;
        book.set(&request);
        assert_eq!(Book::of(&station.image), book);
    });
}

/// 22 comes after 1 and 2.
#[test]
fn start_ups_refused_before() {
    let mut unsound = image(&VALUES);
    unsound[28 + 2] = 0;
    for calls in BOTH {
        for (mut image, rule) in [(unsound.clone(), Rule::Unready), (vec![0xFF; 3 * BLOCK], Rule::Unready), (vec![0xFF; 100], Rule::Length)] {
            assert_eq!((calls.start_up)(Context::NO_LIMIT, &mut image, &Setup::NOTHING).answer, refused(rule), "{}", calls.who);
        }
    }
}

/// "In 01's cases our share is L less 28, the rest 0": no sound region without records is refused, and 13 is 01's.
#[test]
fn a_station_without_a_modem() {
    for blocks in 1..=7 {
        let length = BLOCK * (2 * blocks + 1);
        assert_eq!(Setup::alone(length), Setup { share: (BLOCK * blocks - 28) as u32, ..Setup::NOTHING });
        for calls in BOTH {
            let mut station = Station::formatted(calls, &Setup::alone(length), blocks);
            let mut left = BLOCK * blocks - 28;
            for letter in 1.. {
                let size = left.min(2112);
                if size < 68 {
                    break;
                }
                let (name, data) = ([letter, 0, 0, 0], vec![letter; size - 64]);
                let key = Key { name: &name, vendor: &VENDOR };
                if size < 2112 {
                    assert_eq!(station.asked(key, 0x07, &vec![1; size - 63]), NO_ROOM);
                    assert_eq!(station.at_runtime(1).asked(key, 0x07, &data), NO_ROOM);
                }
                assert!(matches!(station.set(key, 0x07, &data), Answer::Done(1..)));
                left -= size;
            }
            assert_eq!(station.start_up(&Setup::alone(length)), Answer::Done(0));
            assert_eq!(station.set(Key { vendor: &[0; 16], ..RATE }, 0x07, OLD), FOREIGN, "a zero GUID is a GUID like others");
        }
    }
}

/// What a side asks, or a phase, which is given to both.
#[derive(Clone, Debug)]
enum Act {
    Set(Asked),
    Profile(Profile),
    Mode { to: u32, side: u32 },
    Get(u32, Name),
    Many(u32, Vec<Name>),
    Next(u32, Name),
    Lock(u32, Name),
    Phase(u32),
}

impl Act {
    /// Whether the modem asks it; none asks a phase.
    fn is_modems(&self) -> Option<bool> {
        match self {
            Act::Set(asked) => Some(asked.side == MODEM),
            Act::Profile(profile) => Some(profile.side == MODEM),
            Act::Mode { side, .. } => Some(*side == MODEM),
            Act::Get(side, _) | Act::Next(side, _) | Act::Lock(side, _) | Act::Many(side, _) => Some(*side == MODEM),
            Act::Phase(_) => None,
        }
    }
}

/// What the side that asks is told, the number of stores apart.
#[derive(Clone, PartialEq, Eq, Debug)]
struct Told {
    refused: Option<Rule>,
    reply: [u32; 3],
    /// Of several names at once.
    items: Vec<Reply>,
    buffer: Vec<u8>,
}

/// A store in a session of a finished start-up, in which acts are played to their end.
#[derive(Clone)]
struct World {
    calls: Calls,
    session: Session,
    image: Vec<u8>,
}

impl World {
    fn play(&mut self, act: &Act) -> Told {
        let bare = |answer| match answer {
            Answer::Done(_) => None,
            Answer::Refused(rule) => Some(rule),
            Answer::Stopped => panic!("nothing stops it"),
        };
        let plain = |answer| Told { refused: bare(answer), reply: [0; 3], items: vec![], buffer: vec![] };
        let read = |call: Read, side, name: &Name| {
            let mut buffer = vec![0xA5; 2048];
            let reply = call(Context::NO_LIMIT.by(side), &self.session, &self.image, name.key(), &mut buffer);
            Told { refused: bare(reply.answer), reply: [reply.size, reply.attributes, reply.needed], items: vec![], buffer }
        };
        let several = |side, names: &[Name]| {
            let (mut buffer, keys) = (vec![0xA5; 1000], names.iter().map(Name::key).collect::<Vec<_>>());
            let replies = (self.calls.get_many)(Context::NO_LIMIT.by(side), &self.session, &self.image, &keys, &mut buffer);
            Told { refused: bare(replies.answer), reply: [0; 3], items: replies.items, buffer }
        };
        match act {
            Act::Set(asked) => plain((self.calls.set)(Context::NO_LIMIT.by(asked.side), &self.session, &mut self.image, &asked.request())),
            Act::Profile(profile) => plain((self.calls.profile)(Context::NO_LIMIT.by(profile.side), &self.session, &mut self.image, &profile.file)),
            Act::Mode { to, side } => plain((self.calls.mode)(Context::NO_LIMIT.by(*side), &self.session, &mut self.image, *to)),
            Act::Get(side, name) => read(self.calls.get, *side, name),
            Act::Many(side, names) => several(*side, names),
            Act::Next(side, name) => read(self.calls.next_name, *side, name),
            Act::Lock(side, name) => {
                let listed = (self.calls.lock)(self.session, *side, name.key());
                self.session = listed.session;
                plain(listed.answer)
            }
            Act::Phase(to) => {
                self.session = (self.calls.phase)(self.session, *to);
                plain(Answer::Done(0))
            }
        }
    }

    /// What a side is told of its own acts, and its values after each of them: names, attributes, stamps, data, and their order.
    fn heard(&self, modem: bool, acts: &[Act]) -> Vec<(Told, Vec<Value>)> {
        let (mut world, mut heard) = (self.clone(), vec![]);
        for act in acts {
            let told = world.play(act);
            if act.is_modems() != Some(!modem) {
                let own = |value: &Value| is_modems(&world.session.setup, value.name.key()) == modem;
                heard.push((told, Book::of(&world.image).values.into_iter().filter(own).collect()));
            }
        }
        heard
    }
}

/// Names of the values that stand, or any: the empty one to begin with too.
fn some_name(r: &mut Random, values: &[Value]) -> Name {
    match r.below(4) {
        0 => generate::name(r),
        1 => Name { name: EMPTY.to_vec(), vendor: [r.byte(); 16] },
        _ if values.is_empty() => generate::name(r),
        _ => values[r.below(values.len())].name.clone(),
    }
}

/// An act of either side, on a store that held these values; a lock once in so many times, and more often.
fn some_act(r: &mut Random, setup: &Setup, image: &[u8], values: &[Value], locks: usize) -> Act {
    let name = some_name(r, values);
    let side = generate::side(r, setup, name.key());
    match r.below(18) {
        _ if r.once_in(locks) => Act::Lock(side, name),
        0 => Act::Get(side, name),
        1 => Act::Many(side, (0..r.below(12)).map(|_| some_name(r, values)).collect()),
        2..=4 => Act::Next(side, name),
        5 if r.once_in(4) => Act::Phase(r.pick(&[AFTER_END_OF_DXE, RUNTIME])),
        6..=8 => Act::Profile(generate::profile(r, setup, image)),
        9 | 10 => match modes::change(r, image) {
            Call::Mode { to, side } => Act::Mode { to, side },
            Call::Set(asked) => Act::Set(asked),
            other => panic!("no change of mode: {other:?}"),
        },
        _ => {
            let mut asked = generate::asked(r);
            if !values.is_empty() && r.once_in(3) {
                asked.name = values[r.below(values.len())].name.clone();
            }
            if r.once_in(2) {
                let most = r.pick(&[8, 60, 400]);
                (asked.attributes, asked.data) = (r.pick(&[0x07, 0x07, 0x03, 0x47]), generate::data(r, most));
            }
            asked.presence = 1;
            asked.side = generate::side(r, setup, asked.name.key());
            Act::Set(asked)
        }
    }
}

/// An image and the setup of a start-up that was done on it, where the modem has names.
fn shared(r: &mut Random) -> (Vec<u8>, Setup) {
    loop {
        let blocks = generate::blocks(r);
        let mut image = if r.once_in(4) { generate::empty(blocks) } else { generate::filled(r, blocks) };
        let setup = Setup { custom: 1, ..generate::setup(r, &image) };
        // room for both to set something, where nothing stands
        let setup = match r.once_in(3) {
            true => {
                let third = Setup::alone(image.len()).share / 3;
                Setup { share: third, records: third, modem: Tenant { share: third, ..setup.modem }, ..setup }
            }
            false => setup,
        };
        if let Answer::Done(_) = (PAPER.start_up)(Context::NO_LIMIT, &mut image, &setup).answer {
            return (image, setup);
        }
    }
}

/// "nothing that one side sets or deletes alters an answer (but for its number of stores), value, stamp or list order that the other sees": two histories of one finished
/// start-up in which one side asks the same, with the phase given, and the other asks other things, or nothing.
#[test]
fn non_interference() {
    let (mut histories, mut heard, mut rooms, mut locks, mut profiles, mut modes) = (0, 0, 0, 0, [0; 3], [0; 3]);
    rounds(4, 200, |r| {
        let (image, setup) = shared(r);
        let values = Book::of(&image).values;
        let many = r.pick(&[2, 10, 10]);
        let acts: Vec<Act> = (0..r.below(60)).map(|_| some_act(r, &setup, &image, &values, many)).collect();
        for calls in BOTH {
            let world = World { calls, session: (calls.session_new)(&setup), image: image.clone() };
            for modem in [false, true] {
                let kept = |act: &&Act| act.is_modems() != Some(!modem);
                let alone: Vec<Act> = acts.iter().filter(kept).cloned().collect();
                let mut other = vec![];
                for act in &alone {
                    let between = (0..r.below(4)).map(|_| some_act(r, &setup, &image, &values, many)).filter(|act| act.is_modems() == Some(!modem));
                    other.extend(between);
                    other.push(act.clone());
                }
                let expected = world.heard(modem, &acts);
                for (what, history) in [("alone", &alone), ("beside other acts", &other)] {
                    let found = world.heard(modem, history);
                    let differs = (0..expected.len()).find(|&place| expected[place] != found[place]);
                    if let Some(place) = differs {
                        panic!(
                            "{}: the modem's is {modem}: {what}, {:?} is told {:?}, not {:?}",
                            calls.who, alone[place], found[place].0, expected[place].0
                        );
                    }
                    assert_eq!(expected.len(), found.len());
                    histories += 1;
                }
                heard += expected.len();
                for ((told, _), act) in expected.iter().zip(&alone) {
                    let place = [None, Some(Rule::Room)].iter().position(|refused| *refused == told.refused).unwrap_or(2);
                    match act {
                        Act::Profile(_) => profiles[place] += 1,
                        Act::Mode { .. } => modes[place] += 1,
                        _ => {}
                    }
                }
                rooms += expected.iter().filter(|(told, _)| told.refused == Some(Rule::Room)).count();
                locks += expected.iter().filter(|(told, _)| told.refused == Some(Rule::LockSpace)).count();
            }
        }
    });
    println!("{histories} pairs of histories, {heard} acts, {rooms} without room, {locks} without a lock");
    println!("done, without room and else refused: profiles {profiles:?}, mode requests {modes:?}");
    assert!(rooms > 200 && locks > 20, "{rooms} acts without room, {locks} without a lock");
    assert!(profiles[0] > 200 && profiles[1] > 20, "profiles: {profiles:?}");
    assert!(modes[0] > 50 && modes[1] > 5 && modes[2] > 50, "mode requests: {modes:?}");
}

/// The premises are needed: where shares do not fit, or values stand above one, a side is told of the other.
#[test]
fn interference_without_a_start_up() {
    for calls in BOTH {
        let setup = Setup { share: 4068, modem: Tenant { share: 4068, ..SHARED.modem }, ..SHARED };
        assert_eq!((calls.start_up)(Context::NO_LIMIT, &mut generate::empty(1), &setup).answer, FOREIGN, "{}", calls.who);
        let mut station = Station::formatted(calls, &setup, 1).by(MODEM);
        assert!(matches!(station.set(APN, 0x07, &[1; 2048]), Answer::Done(1..)));
        assert_eq!(station.by(OURS).asked(A, 0x07, &[1; 2048]), NO_ROOM, "{}", calls.who);
    }
}

/// "shares" that are usable: a run whose sets are asked with a setup's shares keeps to them, cut or not; so a start-up that is given the same is done.
#[test]
fn shares_are_kept() {
    let (mut cuts, mut modems) = (0, 0);
    rounds(4, 400, |r| {
        let (image, setup) = shared(r);
        let former = image[..image.len() / BLOCK / 2 * BLOCK].to_vec();
        let mut run = Run::new(image, former);
        run.session = (PAPER.session_new)(&setup);
        for _ in 0..r.below(40) {
            (run.way, run.width) = (r.pick(&Way::BOTH), generate::width(r));
            run.session.phase = r.pick(&[0, 0, 1, 2]);
            let mut asked = generate::asked_on(r, &run.image);
            asked.presence = 1;
            asked.side = generate::side(r, &setup, asked.name.key());
            let profile = generate::profile(r, &setup, &run.image);
            let (modem, call) = match r.below(8) {
                0 => (false, Call::StartUp(setup)),
                1 | 2 => (profile.side == MODEM, Call::Profile(profile)),
                3 | 4 => (false, modes::change(r, &run.image)),
                _ => (asked.side == MODEM, Call::Set(asked)),
            };
            let Ok(list) = run.stores(&call) else { continue };
            let after = if r.once_in(2) { list.len() } else { r.below(list.len() + 1) };
            let mut before = run.image.clone();
            list.make(after as u64, &mut before);
            let left = list.get(after).map_or(vec![], |store| begun(store, &before, true, r));
            let begun = if left.is_empty() { None } else { Some(r.pick(&left)) };
            run.cut(&call, Cut { after, begun }, r);
            cuts += usize::from(after < list.len());
            modems += usize::from(modem && !list.is_empty());
            let mut started = run.clone();
            let answer = started.make(&Call::StartUp(setup), u64::MAX);
            assert!(matches!(answer, Answer::Done(_)), "{answer:?} with {setup:?} after {:?} of {call:?}", run.cuts);
            assert!(Book::of(&started.image) == run.book, "the book");
            if after < list.len() {
                run = Run { cuts: vec![], ..started };
            }
        }
    });
    println!("{cuts} cuts, {modems} sets and profiles by the modem");
    assert!(cuts > 300 && modems > 80, "{cuts} cuts, {modems} sets and profiles by the modem");
}
