//! The paper's worked values, each with the sentence that it checks, in every implementation.

mod common;

use common::station::{each, Station};
use common::{signed, stamped, A, AUTUMN, B, NEW, OLD, RATE, SPRING, VENDOR};
use varstore::calls::lent;
use varstore::engine;
use varstore::interface::{Answer, Context, Key, Reply, Request, Rule, Setup, AFTER_END_OF_DXE, OURS, RUNTIME};
use varstore::paper::{self, request};
use varstore::plan::{Content, Operation, Plan, OPERATIONS};

/// The offset of the first entry's state, of b = 1's work block, and of its spare.
const STATE: usize = 28 + 2;
const WORK: usize = 4096;
const SPARE: usize = 8192;

/// Runs a case on a store that holds RATE.
fn on_rate(case: fn(Station)) {
    each(|mut station| {
        assert_eq!(station.set(RATE, 0x07, OLD), Answer::Done(75));
        case(station);
    });
}

impl Station {
    fn set_until(&mut self, limit: u64, key: Key, attributes: u32, data: &[u8]) -> Answer {
        self.set_in(Context::with(limit), key, attributes, data)
    }

    /// PK is enrolled, so that the mode is user; from then on its verdict is given.
    fn enrol(&mut self) {
        self.verdict = 3;
        assert_eq!(self.set(request::PK, 0x27, &stamped(&SPRING, OLD)), Answer::Done(71));
        self.verdict = 1;
    }

    fn is_blank(&self, from: usize, to: usize) -> bool {
        self.image[from..to].iter().all(|&byte| byte == 0xFF)
    }
}

fn refused(number: u32) -> Answer {
    Answer::Refused(Rule::numbered(number).expect("a rule"))
}

/// "New: 75 stores; entry 28 to 104 with padding."
#[test]
fn new_value() {
    each(|mut station| {
        assert_eq!(station.set(RATE, 0x07, OLD), Answer::Done(75));
        assert_eq!(station.tail(), 104);
        assert_eq!(station.image[28..32], [0xAA, 0x55, 0x3F, 0x00]);
        assert_eq!(station.image[102..104], [0xFF, 0xFF]);
        assert_eq!(station.get(RATE).1, OLD);
    });
}

/// "Replaced by other data, same length, tail free: 77 stores. Same data: 0."
#[test]
fn replaced_value() {
    on_rate(|mut station| {
        assert_eq!(station.set(RATE, 0x07, OLD), Answer::Done(0));
        assert_eq!(station.set(RATE, 0x07, NEW), Answer::Done(77));
        assert_eq!(station.image[STATE], 0x3C);
        assert_eq!(station.get(RATE).1, NEW);
    });
}

/// "Deleted: 1 store, state 3D. Deleted again: 11."
#[test]
fn deleted_value() {
    on_rate(|mut station| {
        assert_eq!(station.delete(RATE), Answer::Done(1));
        assert_eq!(station.image[STATE], 0x3D);
        assert_eq!(station.delete(RATE), refused(11));
        assert_eq!(station.get(RATE).0.answer, refused(11));
    });
}

/// "Name sizes 4 and 128 pass; 2, 5, 130: 3."
#[test]
fn name_sizes() {
    each(|mut station| {
        for (size, answer) in [(4, Answer::Done(69)), (128, Answer::Done(193)), (2, refused(3)), (5, refused(3)), (130, refused(3))] {
            let mut name: Vec<u8> = b"x\0".iter().copied().cycle().take(size).collect();
            name[size - 2..].fill(0);
            assert_eq!(station.set(Key { name: &name, vendor: &VENDOR }, 0x07, OLD), answer, "name size {size}");
        }
    });
}

/// "Attributes 0x13 and 0x40: 4. PK with 0x07: 5."
#[test]
fn attributes() {
    each(|mut station| {
        assert_eq!(station.set(RATE, 0x13, OLD), refused(4));
        assert_eq!(station.set(RATE, 0x40, OLD), refused(4));
        assert_eq!(station.set(request::PK, 0x07, OLD), refused(5));
    });
}

/// "Name size 4 with 2,048 data, then another with 1,892: the region is exactly full; 1,893 instead: 13; 2,049: 12."
#[test]
fn exactly_full() {
    each(|mut station| {
        assert_eq!(station.set(A, 0x07, &[1; 2048]), Answer::Done(2113));
        assert_eq!(station.set(B, 0x07, &[2; 2049]), refused(12));
        assert_eq!(station.set(B, 0x07, &[2; 1893]), refused(13));
        assert_eq!(station.set(B, 0x07, &[2; 1892]), Answer::Done(1957));
        assert_eq!(station.tail(), 4096);
    });
}

/// "Full as above, first value replaced by 2,048 other bytes: 8,197 stores, not 13." The changed value stands last; the next record is F8.
#[test]
fn replaced_where_full() {
    each(|mut station| {
        station.set(A, 0x07, &[1; 2048]);
        station.set(B, 0x07, &[2; 1892]);
        assert_eq!(station.set(A, 0x07, &[3; 2048]), Answer::Done(8197));
        assert_eq!(station.image[28 + 60], b'B');
        assert_eq!(station.image[WORK..WORK + 2], [0xF8, 0xFF]);
        assert!(station.is_blank(SPARE, 3 * 4096));
        assert_eq!(station.get(A).1, [3; 2048]);
        assert_eq!(station.get(B).1, [2; 1892]);
    });
}

/// "Erase the work block if 64 records are used": then 8,198 stores.
#[test]
fn work_block_used_up() {
    each(|mut station| {
        station.set(A, 0x07, &[1; 2048]);
        station.set(B, 0x07, &[2; 1892]);
        station.image[WORK..WORK + 64].fill(0xF8);
        assert_eq!(station.set(A, 0x07, &[3; 2048]), Answer::Done(8198));
        assert_eq!(station.image[WORK..WORK + 2], [0xF8, 0xFF]);
    });
}

/// "Equal stamps in user mode, the wanted verdict given: 10." A later one is accepted, and without its verdict it is 9.
#[test]
fn equal_stamps() {
    each(|mut station| {
        station.verdict = 3;
        assert_eq!(station.set(request::PK, 0x27, &signed(2024, OLD)), Answer::Done(71));
        assert_eq!(station.set(request::PK, 0x27, &signed(2025, NEW)), refused(9));
        station.verdict = 1;
        assert_eq!(station.set(request::PK, 0x27, &signed(2024, NEW)), refused(10));
        assert_eq!(station.set(request::PK, 0x27, &signed(2025, NEW)), Answer::Done(73));
        assert_eq!(station.get(request::PK).1, NEW);
    });
}

/// "Work block ending in FC, spare all FF: start-up erases the work block."
#[test]
fn spare_complete_but_blank() {
    on_rate(|mut station| {
        station.image[WORK] = 0xFC;
        assert_eq!(station.get(RATE).0.answer, refused(2));
        assert_eq!(station.start_up(&Setup::PLAIN), Answer::Done(1));
        assert!(station.is_blank(WORK, SPARE));
        assert_eq!(station.start_up(&Setup::PLAIN), Answer::Done(0));
        assert_eq!(station.get(RATE).1, OLD);
    });
}

/// "The program `varlist` ... After the first case": the text that the paper's implementation gives of what either wrote.
#[test]
fn varlist() {
    on_rate(|station| {
        let text = "region 4096 used 104 live 1\n0102030405060708090A0B0C0D0E0F10 52004100540045000000 07 4\n";
        assert_eq!(paper::varlist(&station.image), text);
        assert_eq!(paper::varlist(&station.image[1..]), "refused 1\n");
        assert_eq!(paper::varlist(&[0; 3 * 4096]), "refused 2\n");
    });
}

/// "A name's value is its 3F entry, else its 3E entry": a 3E alone is replaced by 76 stores, deleted to 3C, and equal to the same data.
#[test]
fn being_replaced_alone() {
    on_rate(|mut station| {
        station.image[STATE] = 0x3E;
        assert_eq!(station.get(RATE).1, OLD);
        assert_eq!(station.set(RATE, 0x07, OLD), Answer::Done(0));
        assert_eq!(station.clone().set(RATE, 0x07, NEW), Answer::Done(76));
        assert_eq!(station.delete(RATE), Answer::Done(1));
        assert_eq!(station.image[STATE], 0x3C);
    });
}

/// Plausible errors: "Taking the 3E entry while a 3F stands", and "Deleting the 3F entry before a leftover 3E: the old value comes back."
#[test]
fn leftover_first() {
    on_rate(|mut station| {
        assert_eq!(station.set_until(76, RATE, 0x07, NEW), Answer::Stopped);
        assert_eq!((station.image[STATE], station.image[STATE + 76]), (0x3E, 0x3F));
        assert_eq!(station.get(RATE).1, NEW);
        assert_eq!(station.clone().set(RATE, 0x07, OLD), Answer::Done(78));
        assert_eq!(station.set_until(1, RATE, 0, &[]), Answer::Stopped);
        assert_eq!((station.image[STATE], station.image[STATE + 76]), (0x3C, 0x3F));
        assert_eq!(station.delete(RATE), Answer::Done(1));
        assert_eq!(station.get(RATE).0.answer, refused(11));
    });
}

/// Plausible error: "Trusting sizes of an entry in state FF". A replace stopped before state 7F leaves an entry that counts as 60 bytes.
#[test]
fn unfinished_header() {
    on_rate(|mut station| {
        assert_eq!(station.set_until(1 + 59, RATE, 0x07, NEW), Answer::Stopped);
        assert_eq!(station.tail(), 104 + 60);
        assert_eq!(station.get(RATE).1, OLD);
        assert_eq!(station.start_up(&Setup::PLAIN), Answer::Done(0));
        assert_eq!(station.set(RATE, 0x07, NEW), Answer::Done(76));
    });
}

/// A start-up compacts with no change if the tail is not all FF.
#[test]
fn tail_not_blank() {
    on_rate(|mut station| {
        station.image[4000] = 0;
        assert_eq!(station.get(RATE).0.answer, refused(2));
        assert_eq!(station.start_up(&Setup::PLAIN), Answer::Done(8197));
        assert_eq!((station.tail(), station.get(RATE).1), (104, OLD.to_vec()));
    });
}

/// Plausible error: "Believing a record in a work block whose erase was cut". The FC stands behind an unused record: nothing is pending.
#[test]
fn torn_work_block() {
    on_rate(|mut station| {
        let region: Vec<u8> = station.image[..4096].to_vec();
        assert_eq!(station.set(RATE, 0x07, NEW), Answer::Done(77));
        station.image[SPARE..].copy_from_slice(&region);
        station.image[WORK + 5] = 0xFC;
        assert_eq!(station.start_up(&Setup::PLAIN), Answer::Done(2));
        assert_eq!(station.get(RATE).1, NEW);
    });
}

/// "If pending, resume at the erase of the region": 1 + 4,096 + 1 + 1 stores.
#[test]
fn resumed() {
    each(|mut station| {
        station.set(A, 0x07, &[1; 2048]);
        station.set(B, 0x07, &[2; 1892]);
        for (limit, stores, found) in [(4097, 1, 1), (4098, 4099, 3), (8195, 4099, 3), (8196, 1, 3), (8197, 0, 3)] {
            let mut cut = station.clone();
            let answer = if limit == 8197 { Answer::Done(8197) } else { Answer::Stopped };
            assert_eq!(cut.set_until(limit, A, 0x07, &[3; 2048]), answer);
            assert_eq!(cut.start_up(&Setup::PLAIN), Answer::Done(stores), "stopped after {limit}");
            assert_eq!(cut.get(A).1, [found; 2048], "stopped after {limit}");
            assert_eq!(cut.get(B).1, [2; 1892], "stopped after {limit}");
        }
    });
}

/// "Append joins the data, and creates if absent"; "An empty append changes nothing"; the data would exceed 2,048 bytes: 12.
#[test]
fn appended() {
    each(|mut station| {
        assert_eq!(station.set(RATE, 0x47, &[]), Answer::Done(0));
        assert_eq!(station.set(RATE, 0x47, OLD), Answer::Done(75));
        assert_eq!(station.set(RATE, 0x47, OLD), Answer::Done(81));
        assert_eq!(station.get(RATE).1, [OLD, OLD].concat());
        assert_eq!(station.set(RATE, 0x47, &[0; 2041]), refused(12));
        assert_eq!(station.set(RATE, 0x07, &[]), Answer::Done(1));
    });
}

/// 02 (b): "Two dbx lists signed in spring and autumn reach a station in the wrong order": the spring one is appended, and the later stamp kept. A set
/// that does not append still meets 10, and an append still meets 9.
#[test]
fn appended_in_either_order() {
    each(|mut station| {
        station.enrol();
        for (first, second) in [(AUTUMN, SPRING), (SPRING, AUTUMN)] {
            let mut station = station.clone();
            assert_eq!(station.set(request::DBX, 0x27, &stamped(&first, OLD)), Answer::Done(73));
            assert_eq!(station.set(request::DBX, 0x27, &stamped(&first, NEW)), refused(10));
            station.verdict = 3;
            assert_eq!(station.set(request::DBX, 0x67, &stamped(&second, NEW)), refused(9));
            station.verdict = 2;
            assert_eq!(station.set(request::DBX, 0x67, &stamped(&second, NEW)), Answer::Done(79));
            assert_eq!((station.get(request::DBX).1, station.stamp(request::DBX)), ([OLD, NEW].concat(), AUTUMN));
            assert_eq!(station.set(request::DBX, 0x27, &stamped(&AUTUMN, OLD)), refused(10));
        }
    });
}

/// 02 (b): "the old one if neither is later": its sixteen bytes, of which another writer may have left others than zeros behind the second.
#[test]
fn appended_with_an_equal_stamp() {
    each(|mut station| {
        let foreign = [&AUTUMN[..7], &[0xEE; 9]].concat();
        assert_eq!(station.set(request::KEK, 0x27, &stamped(&AUTUMN, OLD)), Answer::Done(73));
        station.image[28 + 16..][..16].copy_from_slice(&foreign);
        for (stamp, stores) in [(AUTUMN, 79), (SPRING, 83)] {
            assert_eq!(station.set(request::KEK, 0x67, &stamped(&stamp, NEW)), Answer::Done(stores));
            assert_eq!(station.stamp(request::KEK)[..], foreign[..]);
        }
        let mut later = AUTUMN;
        later[6] = 1;
        assert_eq!(station.set(request::KEK, 0x67, &stamped(&later, NEW)), Answer::Done(87));
        assert_eq!((station.get(request::KEK).1, station.stamp(request::KEK)), ([OLD, NEW, NEW, NEW].concat(), later));
    });
}

/// 02 (b): "with 0x20 the stored stamp becomes the later of the two", also where no verdict is wanted: in setup mode, and in custom mode with presence.
/// Without 0x40 it is the set's own, as in 01.
#[test]
fn appended_where_no_verdict_is_wanted() {
    each(|mut station| {
        let append_and_set = |station: &mut Station| {
            assert_eq!(station.set(request::DB, 0x27, &stamped(&AUTUMN, OLD)), Answer::Done(71));
            assert_eq!(station.set(request::DB, 0x67, &stamped(&SPRING, NEW)), Answer::Done(77));
            assert_eq!((station.get(request::DB).1, station.stamp(request::DB)), ([OLD, NEW].concat(), AUTUMN));
            assert_eq!(station.set(request::DB, 0x27, &stamped(&SPRING, NEW)), Answer::Done(73));
            assert_eq!(station.stamp(request::DB), SPRING);
        };
        append_and_set(&mut station.clone());
        station.enrol();
        (station.verdict, station.session.setup.custom, station.presence) = (0, 1, 1);
        append_and_set(&mut station);
    });
}

/// 02 (b): "an empty append still changes nothing", whatever its stamp. Where no value stands there are no two stamps: a creating append stores its own.
/// Without 0x20 the stamp is zeros, also over another writer's.
#[test]
fn appended_nothing_and_to_nothing() {
    each(|mut station| {
        station.verdict = 3;
        assert_eq!(station.set(RATE, 0x67, &stamped(&SPRING, &[])), Answer::Done(0));
        assert_eq!(station.set(RATE, 0x67, &stamped(&SPRING, OLD)), Answer::Done(75));
        assert_eq!(station.stamp(RATE), SPRING);
        station.verdict = 4;
        let before = station.image.clone();
        for stamp in [AUTUMN, SPRING, [0; 16]] {
            assert_eq!(station.set(RATE, 0x67, &stamped(&stamp, &[])), Answer::Done(0));
        }
        assert!(station.image == before);
        assert_eq!(station.set(A, 0x47, OLD), Answer::Done(69));
        station.image[104 + 16..][..16].copy_from_slice(&AUTUMN);
        assert_eq!(station.set(A, 0x47, NEW), Answer::Done(75));
        assert_eq!((station.get(A).1, station.stamp(A)), ([OLD, NEW].concat(), [0; 16]));
    });
}

/// "The name is locked and the phase is not boot": 6; at runtime values without RT are absent to get, a set without RT is 4, and a delete of such a value is 7.
#[test]
fn phases_and_locks() {
    on_rate(|mut station| {
        assert_eq!(station.set(A, 0x03, OLD), Answer::Done(69));
        let listed = (station.calls.lock)(station.session, OURS, RATE);
        assert_eq!((listed.answer, listed.session.count, listed.session.sizes[0]), (Answer::Done(0), 1, 10));
        station.session = listed.session;
        assert_eq!(station.set(RATE, 0x07, NEW), Answer::Done(77));
        station.session = (station.calls.phase)(station.session, AFTER_END_OF_DXE);
        assert_eq!(station.set(RATE, 0x07, OLD), refused(6));
        assert_eq!((station.calls.lock)(station.session, OURS, RATE).answer, refused(15));
        station.session = (station.calls.phase)(station.session, RUNTIME);
        assert_eq!(station.get(A).0.answer, refused(11));
        assert_eq!(station.set(A, 0x03, OLD), refused(4));
        assert_eq!(station.delete(A), refused(7));
        assert_eq!(station.delete(B), refused(11));
    });
}

/// 02 (f): "16, eight of that side's names or no free place"; "a name already listed is accepted unchanged".
#[test]
fn eight_locks() {
    each(|station| {
        let mut session = station.session;
        for letter in b'a'..b'a' + 8 {
            let listed = (station.calls.lock)(session, OURS, Key { name: &[letter, 0, 0, 0], vendor: &VENDOR });
            assert_eq!(listed.answer, Answer::Done(0));
            session = listed.session;
        }
        let again = (station.calls.lock)(session, OURS, Key { name: b"c\0\0\0", vendor: &VENDOR });
        assert_eq!((again.answer, again.session), (Answer::Done(0), session));
        let more = (station.calls.lock)(session, OURS, RATE);
        assert_eq!((more.answer, more.session), (refused(16), session));
    });
}

/// "Get and next-name write the front of the buffer and no more, and also give the size written."
#[test]
fn names_in_order() {
    on_rate(|mut station| {
        station.set(A, 0x03, OLD);
        let next = |key: Key| {
            let mut buffer = [0xA5; 40];
            let reply = (station.calls.next_name)(Context::NO_LIMIT, &station.session, &station.image, key, &mut buffer);
            (reply.answer, buffer[..reply.size as usize].to_vec(), buffer[reply.size as usize..].iter().all(|&byte| byte == 0xA5))
        };
        let begin = Key { name: &[0, 0], vendor: &[0; 16] };
        assert_eq!(next(begin), (Answer::Done(0), [&VENDOR, RATE.name].concat(), true));
        assert_eq!(next(RATE), (Answer::Done(0), [&VENDOR, A.name].concat(), true));
        assert_eq!(next(A), (refused(11), vec![], true));
        assert_eq!(next(B), (refused(11), vec![], true));
    });
}

/// Rule 14 says how much would do, and keeps the buffer.
#[test]
fn short_buffer() {
    on_rate(|station| {
        for length in 0..6 {
            let mut buffer = vec![0xA5; length];
            let reply = (station.calls.get)(Context::NO_LIMIT, &station.session, &station.image, RATE, &mut buffer);
            let (answer, size, attributes, needed) = if length < 4 { (refused(14), 0, 0, 4) } else { (Answer::Done(0), 4, 7, 0) };
            assert_eq!(reply, Reply { answer, size, attributes, needed });
            assert_eq!(buffer[..size as usize], OLD[..size as usize]);
            assert!(buffer[size as usize..].iter().all(|&byte| byte == 0xA5));
        }
    });
}

/// The deciding store is 3F in the tail, the state's of a delete, FC of a compaction; a set that stores nothing has none.
#[test]
fn deciding_stores() {
    on_rate(|mut station| {
        let deciding = |station: &Station, key, attributes, data| {
            let request = Request { key, attributes, data, presence: 0, verdict: 0 };
            let list = paper::set_stores(1, OURS, &station.session, &station.image, &request).expect("accepted");
            (list.len(), list.deciding(), list.deciding().and_then(|index| list.get(index)))
        };
        assert_eq!(deciding(&station, RATE, 0x07, NEW), (77, Some(75), Some(paper::Store::byte(106, 0x3F))));
        assert_eq!(deciding(&station, RATE, 0, &[]), (1, Some(0), Some(paper::Store::byte(STATE, 0x3D))));
        assert_eq!(deciding(&station, RATE, 0x07, OLD), (0, None, None));
        station.set(A, 0x07, &[1; 2048]);
        assert_eq!(deciding(&station, A, 0x07, &[3; 2048]), (8197, Some(4097), Some(paper::Store::byte(WORK, 0xFC))));
    });
}

/// The engine's plan of a call on the store that holds RATE: the operations that are not nothing, and the one that decides.
fn planned(plan: impl FnOnce(&mut Content) -> Result<Plan, Rule>) -> (Vec<Operation>, Option<Operation>) {
    let plan = lent(plan).expect("accepted");
    let operations = plan.operations.into_iter().filter(|operation| *operation != Operation::Nothing).collect();
    (operations, plan.deciding.map(|number| plan.operations[number]))
}

/// A plan has one operation for each part of a sentence of the paper: "In the tail ..", "Delete ..", and a compaction's; no operation of a start-up decides.
#[test]
fn planned_operations() {
    on_rate(|mut station| {
        let Station { session, image, .. } = station.clone();
        let mark = |at, value| Operation::Mark { at, value };
        let program = |at, from, len| Operation::Program { at, from, len };
        let erase = |first, count| Operation::Erase { first, count };
        let set = |attributes, data| {
            let request = Request { key: RATE, attributes, data, presence: 0, verdict: 0 };
            planned(|content| engine::plan_set(&session, OURS, &image, &request, content))
        };
        let header = [Operation::Header { at: 104, from: 0 }];
        let written = [mark(106, 0x7F), program(164, 60, 10), program(174, 70, 4), mark(106, 0x3F), mark(STATE, 0x3C)];
        assert_eq!(set(0x07, NEW), ([&[mark(STATE, 0x3E)], &header[..], &written].concat(), Some(mark(106, 0x3F))));
        assert_eq!(set(0, &[]), (vec![mark(STATE, 0x3D)], Some(mark(STATE, 0x3D))));
        assert_eq!(set(0x07, OLD), (vec![], None));
        assert_eq!(planned(|content| engine::plan_format(&image, content)), (vec![erase(0, 3), program(0, 0, 28)], None));
        assert_eq!(planned(|content| engine::plan_start_up(&image, &Setup::PLAIN, content)), (vec![], None));
        station.image[4000] = 0;
        let filled = [mark(WORK, 0xFE), program(SPARE, 0, 4096), mark(WORK, 0xFC)];
        let copied = [erase(0, 1), program(0, 0, 4096), mark(WORK, 0xF8), erase(2, 1)];
        assert_eq!(planned(|content| engine::plan_start_up(&station.image, &Setup::PLAIN, content)), ([&filled[..], &copied].concat(), None));
    });
}

/// "header bytes in rising order without state": 59 stores.
#[test]
fn stores_of_a_header() {
    let mut content = [0; size_of::<Content>()];
    (0..).zip(&mut content[..200]).for_each(|(value, byte)| *byte = value);
    let mut operations = [Operation::Nothing; OPERATIONS];
    operations[2] = Operation::Header { at: 1000, from: 7 };
    operations[4] = Operation::Mark { at: 1002, value: 0x7F };
    let plan = Plan { deciding: Some(4), operations };
    let header = (0..60).filter(|place| *place != 2).map(|place| paper::Store::byte(1000 + place, 7 + place as u8));
    assert!(plan.stores(1, &content).eq(header.chain([paper::Store::byte(1002, 0x7F)])));
    assert_eq!((plan.count(1), plan.deciding_store(1)), (60, Some(59)));
}

/// "Stopped exactly if its list of stores is longer than n: the image is then as after the first n"; a byte store only clears bits.
#[test]
fn every_stop_of_a_compaction() {
    each(|mut station| {
        station.set(A, 0x07, &[1; 2048]);
        station.set(B, 0x07, &[2; 1892]);
        let request = Request { key: A, attributes: 0x07, data: &[3; 2048], presence: 0, verdict: 0 };
        let list = paper::set_stores(1, OURS, &station.session, &station.image, &request).expect("accepted");
        let mut after = station.image.clone();
        for (n, store) in list.iter().enumerate() {
            assert_eq!(list.get(n), Some(store));
            let mut stopped = station.clone();
            assert_eq!(stopped.set_until(n as u64, A, 0x07, &[3; 2048]), Answer::Stopped);
            assert!(stopped.image == after, "image after the first {n} stores");
            if let paper::Store::Program(at, page) = store {
                let v = page.bytes()[0];
                assert_eq!((page.bytes().len(), after[at] & v), (1, v), "store {n} raises no bit");
            }
            store.make(&mut after);
        }
        assert_eq!(station.set(A, 0x07, &[3; 2048]), Answer::Done(list.len() as u64));
        assert!(station.image == after);
    });
}
