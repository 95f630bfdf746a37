//! What a UEFI host is told of room, by the calls that it then makes: a new value is stored just if its header, name and data take no more bytes than remain, in either
//! class, at boot and at runtime; the numbers of empty and of full stores are worked out by hand; the two forms of the call agree on each.

mod common;

use common::generate::BLOCK;
use common::random::Random;
use common::station::Station;
use common::{A, B, OLD, RATE, RECORD, RECORDS, VENDOR};
use varstore::calls::ENGINE;
use varstore::engine::{self, Room};
use varstore::interface::{Answer, Context, Guid, Key, Rule, Setup, Tenant, MODEM, OURS, RUNTIME};

const MODEMS: Guid = [0x11; 16];

fn station(records: u32, blocks: usize) -> Station {
    Station::formatted(ENGINE, &Setup::alone(BLOCK * (2 * blocks + 1)).with_records(records), blocks)
}

fn query(station: &Station, attributes: u32) -> Room {
    let context = Context::NO_LIMIT.by(station.side);
    let by_value = engine::query(context, &station.session, &station.image, attributes);
    let lent = engine::lent::query(context, &station.session, &station.image, attributes);
    assert_eq!(by_value, lent, "the session by value and in the host's memory");
    by_value
}

fn room(storage: u32, remaining: u32, largest: u32) -> Room {
    Room { answer: Answer::Done(0), storage, remaining, largest }
}

fn refused(rule: Rule) -> Room {
    Room { answer: Answer::Refused(rule), storage: 0, remaining: 0, largest: 0 }
}

/// 4,096 less 28 is 4,068; the largest name and data are 128 and 2,048; H and R are taken off; entries are in whole words.
#[test]
fn an_empty_store() {
    assert_eq!(query(&station(0, 1), 0x07), room(4068, 4068, 2176));
    assert_eq!(query(&station(0, 7), 0x07), room(28644, 28644, 2176));
    assert_eq!(query(&station(0, 1), 0x0F), room(0, 0, 0));
    assert_eq!(query(&station(1000, 1), 0x0F), room(1000, 1000, 940));
    assert_eq!(query(&station(1000, 1), 0x03), room(3068, 3068, 2176));
    assert_eq!(query(&station(1001, 1), 0x0F), room(1001, 1000, 940));
    assert_eq!(query(&station(0xFFFF_FFFF, 1), 0x0F), room(4068, 4068, 2176));
    assert_eq!(query(&station(0xFFFF_FFFF, 1), 0x07), room(0, 0, 0));
    assert_eq!(query(&station(0, 1).at_runtime(3000), 0x07), room(1068, 1068, 1008));
    assert_eq!(query(&station(0, 1).at_runtime(5000), 0x07), room(0, 0, 0), "R counts as 4,096");
    assert_eq!(query(&station(100, 1).at_runtime(3000), 0x0F), room(100, 100, 40), "R is not for error records");
}

/// RATE takes 76 bytes, a record with one byte 88.
#[test]
fn values_take_their_rounded_sizes() {
    let mut store = station(200, 1);
    assert_eq!(store.set(RATE, 0x07, OLD), Answer::Done(75));
    assert_eq!(query(&store, 0x07), room(3868, 3792, 2176));
    assert!(matches!(store.set(RECORD, 0x0F, &[1]), Answer::Done(_)));
    assert_eq!(query(&store, 0x0F), room(200, 112, 52));
    assert_eq!(query(&store, 0x07), room(3868, 3792, 2176), "a record takes H, not what others have");
    assert!(matches!(store.delete(RATE), Answer::Done(1)));
    assert_eq!(query(&store, 0x07), room(3868, 3868, 2176), "a deleted value takes nothing");
    assert_eq!(query(&store.with_h(80), 0x0F), room(80, 0, 0), "H below what is there");
}

#[test]
fn refusals() {
    let store = station(0, 1);
    for attributes in [0, 0x01, 0x08, 0x13, 0x40, 0x80] {
        assert_eq!(query(&store, attributes), refused(Rule::Attributes), "{attributes:#X}");
    }
    assert_eq!(query(&store.at_runtime(0), 0x03), refused(Rule::Attributes), "without RT at runtime");
    let mut longer = store.clone();
    longer.image.push(0xFF);
    assert_eq!(query(&longer, 0x00), refused(Rule::Length));
    let mut unready = store.clone();
    unready.image[BLOCK] = 0xFC;
    assert_eq!(query(&unready, 0x00), refused(Rule::Unready));
}

/// 02 (f): each side is told of its own share, less its own reserve at runtime and what its own values take; and of L, where shares do not fit in it.
#[test]
fn by_side() {
    let modem = Tenant { share: 1000, reserve: 300, vendor: MODEMS };
    let mut store = Station::formatted(ENGINE, &Setup { share: 2000, reserve: 500, records: 1000, modem, ..Setup::NOTHING }, 1);
    assert_eq!([OURS, MODEM].map(|side| query(&store.by(side), 0x07)), [room(2000, 2000, 1940), room(1000, 1000, 940)]);
    assert_eq!([OURS, MODEM].map(|side| query(&store.by(side).in_phase(RUNTIME), 0x07)), [room(1500, 1500, 1440), room(700, 700, 640)]);
    assert_eq!(store.set(RATE, 0x07, OLD), Answer::Done(75));
    assert_eq!([OURS, MODEM].map(|side| query(&store.by(side), 0x07)), [room(2000, 1924, 1864), room(1000, 1000, 940)]);
    store.side = MODEM;
    assert_eq!(store.set(Key { vendor: &MODEMS, ..RATE }, 0x07, OLD), Answer::Done(75));
    assert_eq!([OURS, MODEM].map(|side| query(&store.by(side), 0x07)), [room(2000, 1924, 1864), room(1000, 924, 864)]);
    // 4,068 less 152
    store.session.setup.modem.share = u32::MAX;
    assert_eq!(query(&store, 0x07).remaining, 3916);
}

/// A new value of so many bytes, of sizes around what remains.
fn is_told_right(store: &Station, key: Key, attributes: u32, told: &mut [u32; 2]) {
    let room = query(store, attributes);
    let beside = 60 + key.name.len() as u32;
    let edge = room.remaining.saturating_sub(beside);
    for size in [1, 2, 3, edge.saturating_sub(1), edge, edge + 1, edge + 2, edge + 5, 2048] {
        if (1..=2048).contains(&size) {
            let stored = store.would_store(key, attributes, &vec![0x5A; size as usize]);
            let fits = beside + size <= room.remaining;
            told[fits as usize] += 1;
            match stored {
                Ok(()) => assert!(fits, "{size} bytes were stored, {room:?}"),
                Err(Rule::Room | Rule::RecordRoom) => assert!(!fits, "{size} bytes were refused, {room:?}"),
                Err(other) => panic!("{other:?} for {size} bytes"),
            }
            assert_eq!(key.name.len() as u32 + size <= room.largest, fits, "name and data of {} bytes, {room:?}", key.name.len() as u32 + size);
        }
    }
}

#[test]
fn a_new_value_is_stored_just_if_it_fits() {
    let mut random = Random::new(34);
    let mut told = [0; 2];
    for turn in 0..300 {
        let records = [0, 88, 300, 1000, 2000][random.below(5)];
        let mut store = station(records, 1 + turn % 2);
        for number in 0..random.below(12) {
            let name = [b'N', 0, b'0' + number as u8, 0, 0, 0];
            let data = vec![number as u8; 1 + random.below(700)];
            let _ = store.set(Key { name: &name, vendor: &VENDOR }, 0x07, &data);
            let mut record = RECORD.name.to_vec();
            record[22] = b'2' + number as u8 % 8;
            let _ = store.set(Key { name: &record, vendor: &RECORDS }, 0x0F, &data[..1 + random.below(data.len().min(200))]);
        }
        for store in [store.clone(), store.at_runtime([0, 500, 3000][random.below(3)])] {
            is_told_right(&store, A, 0x07, &mut told);
            is_told_right(&store, B, 0x47, &mut told);
            is_told_right(&store, RECORD, 0x0F, &mut told);
            // the modem under the same name, with what its share and all values leave
            let mut shared = store.by(MODEM);
            shared.session.setup.modem = Tenant { share: [70, 300, 1000, 5000][random.below(4)], reserve: [0, 100][random.below(2)], vendor: MODEMS };
            is_told_right(&shared, Key { vendor: &MODEMS, ..A }, 0x07, &mut told);
        }
    }
    assert!(told.iter().all(|&count| count > 2000), "both were told often: {told:?}");
}
