//! 02 (k), "How fast the flash wears". First runs whose numbers are worked out by hand; then long runs by chance; then a station that sets one value a day for ten years. The
//! account is `common/wear.rs`; every run of the other tests is held to its bounds too.
//!
//! An entry takes 60 bytes, its name and its data, rounded up to a multiple of 4: under a name of one character (4 bytes) 64 and its data. A region of one block has 4,096
//! bytes, and 4,068 without its header.

mod common;

use std::collections::BTreeMap;

use common::cases::{asked, by_the_key, compacting, crowded, decided, delete, empty, enrolled, mode, profile, set, C};
use common::cuts::{begun, places, Begun, Cut, Garbage, Run, Way, START_UP};
use common::failing::WORN;
use common::generate::{self, Asked};
use common::modes;
use common::random::Random;
use common::rounds::{once, rounds};
use common::stored::Call;
use common::wear::{tail, Opened, Outgrown, Window};
use common::{stamped, A, B, NEW, OLD, SPRING, VENDOR};
use varstore::calls::{ENGINE, PAPER};
use varstore::interface::{Answer, Key, Rule, Setup, AUDIT_MODE};
use varstore::paper::request::DBX;

/// The window as it is now: what opened it, the tail that was left, what calls have had to store since.
fn window(run: &Run) -> (Opened, usize, usize) {
    let Window { opened, left, since, .. } = run.wear.window;
    (opened, left, since)
}

/// By how much the last call has outgrown its window; it compacts because the tail is too short.
fn excess(run: &Run) -> usize {
    run.wear.outgrown.expect("a call that finds the tail too short").excess
}

/// The call to its end, in place: the tail has room, or none is needed.
fn in_place(run: &mut Run, call: &Call) {
    run.whole(call);
    assert_eq!((run.wear.outgrown, run.wear.due), (None, run.wear.shorts + run.wear.others), "{call:?} compacts");
}

/// A run of one block after one compaction because the tail was too short. A of 1,900 bytes takes 1,964. Two of them leave 140 bytes; a third is a compaction, and leaves
/// 4,068 - 1,964 = 2,104.
fn once_compacted() -> Run {
    let mut run = empty(1);
    in_place(&mut run, &set(A, &[1; 1900]));
    in_place(&mut run, &set(A, &[2; 1900]));
    assert_eq!((tail(&run.image), window(&run)), (140, (Opened::AtTheBeginning, 4068, 3928)));
    assert_eq!(run.whole(&set(A, &[3; 1900])), 8197);
    assert_eq!((excess(&run), window(&run)), (3 * 1964 - 4068, (Opened::ForAShortTail, 2104, 0)));
    assert_eq!(tail(&run.image), 2104);
    run
}

/// Set A of 2,000 bytes (2,064), delete A, set B of 2,000 bytes with n = 0, set B again. The stopped compaction has left no tail: to take L less the header and the values, 4,068
/// as there are none, would be wrong, since B alone is to be stored after it. The image's own tail was 2,004.
#[test]
fn a_stopped_compaction_has_left_no_tail() {
    let mut run = empty(1);
    in_place(&mut run, &set(A, &[1; 2000]));
    in_place(&mut run, &delete(A));
    assert_eq!((run.book.values.len(), tail(&run.image)), (0, 2004));
    assert_eq!(run.make(&set(B, &[2; 2000]), 0), Answer::Stopped);
    // 2,064 + 2,064 - 4,068; the window goes on
    assert_eq!((excess(&run), window(&run)), (60, (Opened::AtTheBeginning, 4068, 4128)));
    assert_eq!(run.whole(&set(B, &[2; 2000])), 8197);
    assert_eq!((excess(&run), window(&run)), (3 * 2064 - 4068, (Opened::ForAShortTail, 4068 - 2064, 0)));
    assert_eq!((run.wear.shorts, run.wear.due, run.wear.stored), (1, 2, 3 * 2064));
}

/// All sizes are multiples of 4, and so is every tail that is left: more than it is 4 bytes more. A's 1,964 bytes leave 140; B of 76 bytes takes them, B of 77 takes 144.
#[test]
fn four_bytes_more_than_the_tail() {
    let mut run = once_compacted();
    in_place(&mut run, &set(A, &[4; 1900]));
    let mut fitting = run.clone();
    in_place(&mut fitting, &set(B, &[5; 76]));
    assert_eq!((tail(&fitting.image), window(&fitting)), (0, (Opened::ForAShortTail, 2104, 2104)));
    assert_eq!(run.whole(&set(B, &[5; 77])), 8197);
    assert_eq!((excess(&run), run.wear.smallest), (4, Some(4)));
    assert_eq!(window(&run), (Opened::ForAShortTail, 2104 - 144, 0));
}

/// "for an append, its data and those then standing under the name": A of 1,000 bytes takes 1,064, and appends of 10 bytes take 1,076, 1,084 and 1,096. Alone each would take 76,
/// and all of them 1,292 of 4,068 bytes.
#[test]
fn appends_count_with_what_stands() {
    let mut run = empty(1);
    let append = |key, data: &[u8]| Call::Set(asked(key, 0x47, data));
    in_place(&mut run, &set(A, &[1; 1000]));
    in_place(&mut run, &append(A, &[2; 10]));
    in_place(&mut run, &append(A, &[3; 10]));
    assert_eq!((tail(&run.image), window(&run)), (844, (Opened::AtTheBeginning, 4068, 3224)));
    assert_eq!(run.whole(&append(A, &[4; 10])), 8197);
    assert_eq!((excess(&run), window(&run)), (3224 + 1096 - 4068, (Opened::ForAShortTail, 4068 - 1096, 0)));
    // one that creates; one without data; one whose descriptor is not stored: 60, a name of 8 bytes, 4 bytes of data
    in_place(&mut run, &append(B, &[5; 10]));
    in_place(&mut run, &append(B, &[]));
    in_place(&mut run, &Call::Set(asked(DBX, 0x67, &stamped(&SPRING, NEW))));
    assert_eq!(window(&run), (Opened::ForAShortTail, 2972, 76 + 72));
    in_place(&mut run, &Call::Set(Asked { verdict: 2, ..asked(DBX, 0x67, &stamped(&SPRING, OLD)) }));
    assert_eq!((run.wear.window.since, tail(&run.image)), (148 + 76, 2972 - 224));
}

/// Deletes, equal data and what is refused have nothing to store.
#[test]
fn calls_that_count_nothing() {
    let mut run = empty(1).with(A, OLD);
    assert_eq!(run.wear.stored, 68);
    in_place(&mut run, &set(A, OLD));
    in_place(&mut run, &delete(A));
    for (call, rule) in [
        (set(A, &[1; 2049]), Rule::DataSize),
        (delete(A), Rule::Absent),
        (Call::Set(asked(A, 0x40, OLD)), Rule::Attributes),
        (profile(&[(A, OLD), (A, NEW)]), Rule::Twice),
        (mode(7), Rule::Mode),
    ] {
        assert_eq!(run.make(&call, u64::MAX), Answer::Refused(rule));
    }
    assert_eq!((window(&run), run.wear.stored, run.wear.due), ((Opened::AtTheBeginning, 4068, 68), 68, 0));
    // for want of room, which is no compaction: 4,068 - 2,112 - 1,956
    let mut full = empty(1).with(A, &[1; 2048]).with(B, &[2; 1892]);
    assert_eq!(full.make(&set(C, &[1; 10]), u64::MAX), Answer::Refused(Rule::Room));
    assert_eq!((window(&full), full.wear.due), ((Opened::AtTheBeginning, 4068, 4068), 0));
}

/// "stopped, cut or failed ones too": each counts its 564 bytes, and takes none of the tail, 60 or all.
#[test]
fn stopped_cut_and_failed_sets_count_in_full() {
    let mut run = empty(1);
    let sets = |value: u8| set(A, &[value; 500]);
    let takes = |run: &Run, calls: usize, left: usize| assert_eq!((run.wear.window.since, tail(&run.image)), (564 * calls, left), "{calls} calls");
    // n = 0; a start id; a header with its state, which is 59 byte stores and one
    for (calls, n, left) in [(1, 0, 4068), (2, 10, 4008), (3, 60, 3444)] {
        assert_eq!(run.make(&sets(1), n), Answer::Stopped);
        takes(&run, calls, left);
    }
    // the first byte of the data is dead, then the first of the header: the entry begins at 4,096 - 3,444 = 652, the next at 1,216
    for (calls, dead, left) in [(4, 652 + 64, 2880), (5, 1216, 2880)] {
        run.dead = vec![dead];
        assert_eq!(run.make(&sets(1), u64::MAX), WORN);
        takes(&run, calls, left);
    }
    run.dead.clear();
    once(|r| run.cut(&sets(1), Cut { after: 60, begun: None }, r));
    takes(&run, 6, 2316);
    for (calls, left) in [(7, 1752), (8, 1188), (9, 624), (10, 60)] {
        in_place(&mut run, &sets(calls as u8));
        takes(&run, calls, left);
    }
    // the last of them need not go beyond its plan
    assert_eq!((run.make(&sets(11), 0), excess(&run)), (Answer::Stopped, 11 * 564 - 4068));
    assert_eq!((run.wear.power_failures, run.wear.shorts, run.wear.due), (1, 0, 1));
}

/// A of 1,864 bytes takes 1,928 beside 2,064 of a former one, and leaves 76; PlatMode's entry takes 60 + 18 + 1, which is 80.
#[test]
fn a_mode_request_that_compacts() {
    let mut run = empty(1);
    in_place(&mut run, &set(A, &[1; 2000]));
    in_place(&mut run, &set(A, &[2; 1864]));
    assert_eq!((run.whole(&mode(AUDIT_MODE)), excess(&run)), (8197, 4));
    assert_eq!(window(&run), (Opened::ForAShortTail, 4068 - 1928 - 80, 0));
    // one that the tail has room for counts too
    let mut run = empty(1);
    in_place(&mut run, &mode(AUDIT_MODE));
    assert_eq!(window(&run), (Opened::AtTheBeginning, 4068, 80));
}

/// A profile and a change of mode and PK together are compactions that nothing is counted for; each begins a window. Those without effect end none.
#[test]
fn other_compactions() {
    let mut run = empty(1).with(A, OLD);
    run.whole(&profile(&[(B, OLD)]));
    // A and B take 68 each
    let window_of_profile = (Opened::Otherwise, 4068 - 136, 0);
    assert_eq!((window(&run), run.wear.stored), (window_of_profile, 68));
    run.whole(&profile(&[(B, OLD)]));
    assert_eq!(run.make(&profile(&[(B, NEW)]), 0), Answer::Stopped);
    assert_eq!(run.make(&profile(&[(C, &[])]), u64::MAX), Answer::Refused(Rule::Absent));
    assert_eq!((window(&run), run.wear.others, run.wear.due), (window_of_profile, 1, 2));
    in_place_since(&mut run, &mode(AUDIT_MODE), 80);
    // up to the spare's last byte; a start-up erases the spare
    assert_eq!(run.make(&enrolled(NEW), decided(1) - 1), Answer::Stopped);
    run.recover();
    assert_eq!((window(&run), run.wear.busy), ((Opened::Otherwise, 4068 - 136, 80), 1));
    // PK takes 60, a name of 6 bytes, 4 of data, which is 72 rounded; PlatMode 80
    run.whole(&enrolled(NEW));
    let joint = (Opened::Otherwise, 4068 - 136 - 72 - 80, 0);
    assert_eq!((window(&run), run.wear.others, run.wear.stored), (joint, 2, 148));
    assert_eq!(run.make(&mode(AUDIT_MODE), u64::MAX), Answer::Refused(Rule::Mode));
    assert_eq!(window(&run), joint);
    // PK replaced is one entry; PK and PlatMode deleted are a compaction, though the tail has room
    in_place_since(&mut run, &by_the_key(OLD), 72);
    let gone = Call::Set(Asked { verdict: 1, ..asked(varstore::paper::request::PK, 0x27, &common::signed(2026, &[])) });
    run.whole(&gone);
    assert_eq!((window(&run), run.wear.others), ((Opened::Otherwise, 4068 - 136, 0), 3));
    assert_eq!(run.wear.shorts, 0);
}

fn in_place_since(run: &mut Run, call: &Call, more: usize) {
    let (opened, left, since) = window(run);
    run.whole(call);
    assert_eq!(window(run), (opened, left, since + more), "{call:?}");
}

/// A profile leaves 2,104 - 68 = 2,036 bytes beside A and B; A's 1,964 take all but 72 of them, and C of 9 bytes takes 76.
#[test]
fn a_tail_that_another_compaction_left() {
    let mut run = once_compacted();
    run.whole(&profile(&[(B, OLD)]));
    assert_eq!(window(&run), (Opened::Otherwise, 2036, 0));
    in_place(&mut run, &set(A, &[4; 1900]));
    assert_eq!(tail(&run.image), 72);
    assert_eq!((run.whole(&set(C, &[1; 9])), excess(&run)), (8197, 4));
    assert_eq!((run.wear.shorts, run.wear.others), (2, 1));
}

/// A set is cut in its start id, so that a start-up compacts: the tail is 2,104 again, and the window goes on. 1,964 + 68 before it, 1,964 + 144 after it.
#[test]
fn a_window_across_a_start_up() {
    let mut run = once_compacted();
    in_place(&mut run, &set(A, &[4; 1900]));
    once(|r| run.cut(&set(B, OLD), Cut { after: 1, begun: None }, r));
    assert_eq!(run.make(&START_UP, u64::MAX), Answer::Done(8197));
    run.check_book();
    assert_eq!((tail(&run.image), window(&run)), (2104, (Opened::ForAShortTail, 2104, 2032)));
    in_place(&mut run, &set(A, &[5; 1900]));
    assert_eq!((run.whole(&set(B, &[6; 77])), excess(&run)), (8197, 2032 + 1964 + 144 - 2104));
    assert_eq!((run.wear.shorts, run.wear.busy, run.wear.power_failures), (2, 1, 1));
    // three compactions, the start-up's among them: each erases region and spare, and uses one record
    assert_eq!(run.wear.erases(), [3, 0, 3]);
}

/// A compaction that is cut when decided is made, and a start-up finishes it: the tail is then the one that it left. One that is cut just before is not made.
#[test]
fn a_cut_compaction() {
    for (after, made) in [(decided(1) - 1, false), (decided(1), true), (decided(1) + 2000, true)] {
        let mut run = once_compacted();
        in_place(&mut run, &set(A, &[4; 1900]));
        once(|r| run.cut(&set(B, &[5; 77]), Cut { after: after as usize, begun: None }, r));
        assert_eq!((excess(&run), run.wear.shorts), (4, 1 + usize::from(made)));
        // A stands in its fourth entry, beside the third; or A and B stand alone
        let (left, since, there) = if made { (2104 - 144, 0, 2104 - 144) } else { (2104, 1964 + 144, 140) };
        assert_eq!(window(&run), (Opened::ForAShortTail, left, since), "cut after {after}");
        run.recover();
        assert_eq!((tail(&run.image), window(&run)), (there, (Opened::ForAShortTail, left, since)), "cut after {after}");
    }
}

/// "the tail that the first compaction left", looked at in the image: after a whole one; after one that lacks only the erase of a spare block that is FF, or an erase that was
/// begun and has left FF; not after one that lacks more.
#[test]
fn tails_that_compactions_left() {
    let looked = |mut run: Run| {
        run.make(&delete(C), u64::MAX);
        run.wear.looked
    };
    once(|r| {
        for (blocks, stores) in [(1, 8197), (2, 16391)] {
            let run = crowded(blocks);
            let last = blocks as u64 + 1;
            let mut whole = run.clone();
            assert_eq!((whole.whole(&compacting()), looked(whole)), (stores, 1));
            // the values of either take less than a block, so that the second block of a spare is FF
            assert_eq!(looked(run.clone().stopped(&compacting(), stores - 1)), blocks - 1, "{blocks} blocks");
            assert_eq!(looked(run.clone().stopped(&compacting(), stores - last)), 0, "{blocks} blocks");
            for (garbage, expected) in [(Garbage::Blank, 1), (Garbage::Zeros, 0)] {
                let mut run = run.clone();
                run.cut(&compacting(), Cut { after: stores as usize - 1, begun: Some(Begun::Block(garbage)) }, r);
                assert_eq!(looked(run), expected, "{garbage:?} in {blocks} blocks");
            }
        }
    });
}

/// Compactions that are stopped after their record's FE erase no block of the region, but use a record each. On 64 used records the first erases the work block, and so does
/// every 64th after it.
#[test]
fn records_of_compactions_that_are_not_made() {
    let mut run = crowded(1).recorded(64);
    for turn in 0..130 {
        let erased = if turn % 64 == 0 { 2 } else { 1 };
        assert_eq!(run.make(&compacting(), erased), Answer::Stopped);
        assert_eq!(run.wear.erases(), [0, turn / 64 + 1, 0], "turn {turn}");
    }
    assert_eq!((run.wear.due, run.wear.shorts), (130, 0));
}

/// An erase of the work block that is begun may leave all 64 records used, so that the next compaction begins with an erase too. Therefore a power failure counts as 64 records
/// in the bound: without it five erases would be too many.
#[test]
fn an_erase_of_the_work_block_that_is_begun() {
    once(|r| {
        let mut run = crowded(1).recorded(64);
        for turn in 1..=5 {
            run.cut(&compacting(), Cut { after: 0, begun: Some(Begun::Block(Garbage::Untouched)) }, r);
            assert_eq!((run.wear.erases_of_work(), run.wear.due, run.wear.power_failures), (turn, turn, turn));
        }
        assert!(64 * run.wear.erases_of_work() > 64 + run.wear.due);
    });
}

/// What has come of windows in the runs: how many were outgrown, and the smallest excess.
#[derive(Default)]
struct Outcomes {
    times: BTreeMap<&'static str, (usize, usize)>,
    calls: usize,
    /// Erases of a block of region or spare, and the planners' figure, where they are nearest.
    nearest: (usize, usize),
    tails: usize,
}

impl Outcomes {
    fn outgrown(&mut self, Outgrown { window, excess }: Outgrown, made: bool) {
        let opened = match window.opened {
            Opened::AtTheBeginning => "opened at the beginning",
            Opened::ForAShortTail => "opened for a short tail",
            Opened::Otherwise => "opened otherwise",
        };
        let across = if window.busy > 0 { "across a start-up" } else { "without a start-up" };
        for thing in [opened, across, if made { "made" } else { "not made" }] {
            let (times, smallest) = self.times.entry(thing).or_insert((0, usize::MAX));
            (*times, *smallest) = (*times + 1, excess.min(*smallest));
        }
    }

    fn ended(&mut self, run: &Run) {
        let (erases, figure) = (run.wear.most_erases(), run.wear.figure());
        if erases * self.nearest.1 >= self.nearest.0 * figure {
            self.nearest = (erases, figure);
        }
        self.tails += run.wear.looked;
    }
}

/// Six names of one character.
fn one_of_six(r: &mut Random) -> Vec<u8> {
    vec![b'A' + r.below(6) as u8, 0, 0, 0]
}

/// Most often a set of few bytes under one of six names; else an append, a delete, a profile, or a change of mode or PK.
fn some_call(run: &Run, r: &mut Random) -> Call {
    let name = one_of_six(r);
    let key = Key { name: &name, vendor: &VENDOR };
    let data = |r: &mut Random| {
        let most = r.pick(&[120, 120, 120, 120, 120, 600]);
        vec![r.byte(); 1 + r.below(most)]
    };
    match r.below(24) {
        0 => profile(&[(key, &data(r)), (common::RATE, &data(r))]),
        1 => match modes::change(r, &run.image) {
            Call::Set(asked) => Call::Set(Asked { presence: 1, ..asked }),
            request => request,
        },
        2 => delete(key),
        3 | 4 => Call::Set(asked(key, 0x47, &data(r))),
        _ => set(key, &data(r)),
    }
}

/// A long run of a region that is full to some degree: whole calls, and stopped, failed and cut ones; a start-up where one is needed, and elsewhere.
fn long_run(outcomes: &mut Outcomes, r: &mut Random) {
    let blocks = if r.once_in(4) { 2 } else { 1 };
    let mut run = empty(blocks);
    run.session = (ENGINE.session_new)(&Setup { custom: 1, ..Setup::alone(run.image.len()) });
    let names = [b"X\0\0\0", b"Y\0\0\0", b"Z\0\0\0"];
    for name in names.iter().take(r.below(2 * blocks)) {
        run = run.with(Key { name: &name[..], vendor: &VENDOR }, &vec![7; 1000 + r.below(1049)]);
    }
    for _ in 0..200 {
        (run.way, run.width) = (r.pick(&Way::BOTH), r.pick(&[1, 8, 16, 16]));
        let ready = (PAPER.check)(&run.image).answer == Answer::Done(0);
        let call = if !ready || r.once_in(100) { START_UP } else { some_call(&run, r) };
        let list = run.stores(&call).ok().filter(|list| !list.is_empty() && r.once_in(8));
        let shorts = run.wear.shorts;
        match (list, r.below(3)) {
            (Some(list), 0) => {
                let turns = places(&list, list.len() + 1, r);
                let after = r.pick(&turns);
                let mut image = run.image.clone();
                list.make(after as u64, &mut image);
                let left = list.get(after).map_or(vec![], |store| begun(store, &image, false, r));
                let begun = if left.is_empty() { None } else { Some(r.pick(&left)) };
                run.cut(&call, Cut { after, begun }, r);
            }
            (Some(list), 1) => drop(run.make(&call, r.below(list.len() + 1) as u64)),
            (Some(list), _) => {
                run.dead = generate::dead(r, Some(&list), run.image.len());
                run.make(&call, u64::MAX);
                run.dead.clear();
            }
            (None, _) => drop(run.make(&call, u64::MAX)),
        }
        outcomes.calls += 1;
        if let Some(outgrown) = run.wear.outgrown {
            outcomes.outgrown(outgrown, run.wear.shorts > shorts);
        }
    }
    run.recover();
    outcomes.ended(&run);
}

/// Every window is outgrown, and some by the least that is possible: sizes and tails are multiples of 4, so that more than a tail is 4 bytes more.
#[test]
fn long_runs() {
    let mut outcomes = Outcomes::default();
    rounds(0, 300, |r| long_run(&mut outcomes, r));
    let Outcomes { times, calls, nearest, tails } = &outcomes;
    let smallest = times.values().map(|(_, smallest)| *smallest).min();
    println!("{calls} calls; windows outgrown, how often and by how much at least: {times:?}; tails looked at: {tails}");
    println!("smallest excess: {smallest:?}; erases nearest to the planners' figure: {} of {}", nearest.0, nearest.1);
    for thing in
        ["opened at the beginning", "opened for a short tail", "opened otherwise", "across a start-up", "without a start-up", "made", "not made"]
    {
        assert!(times.contains_key(thing), "no window {thing}");
    }
    assert_eq!(smallest, Some(4));
    assert!(*tails > 100 && nearest.0 > 0, "{tails} tails, {nearest:?} erases");
}

/// A station that sets 100 bytes a day under DAYS, for ten years of 365 days; b = 1, and nothing else is stored.
///
/// DAYS has 4 characters and a zero character, 10 bytes: an entry takes 60 + 10 + 100 = 170, rounded 172. In 4,068 bytes there is room for 23 of them (3,956). The 24th day is
/// the first compaction; it leaves 4,068 - 172 = 3,896 bytes, room for 22 more (3,784), so that every 23rd day after it is one: days 24, 47, .., 24 + 157 * 23 = 3,635. The next
/// would be day 3,658. These are 158. Each erases the block of the region once and that of the spare once, and uses one record: the 65th and the 129th find 64 used and erase
/// the work block, 2 times.
///
/// The bound: 3,650 days have 3,650 * 172 = 627,800 bytes to store. 1 + 627,800 / 3,897 = 162 compactions at most, rounded down (161 * 3,897 = 627,417), and as many erases of
/// either block; of the work block (64 + 162) / 64 = 3.
#[test]
fn a_value_a_day_for_ten_years() {
    const DAYS: Key = Key { name: b"D\0A\0Y\0S\0\0\0", vendor: &VENDOR };
    for way in Way::BOTH {
        let mut run = Run { way, ..empty(1) };
        let mut compactions = vec![];
        for day in 1..=3650u32 {
            let measured = [&day.to_le_bytes()[..], &[0; 96]].concat();
            let stores = run.whole(&set(DAYS, &measured));
            if run.wear.outgrown.is_some() {
                compactions.push(day);
                // 22 days fit in the tail that was left, or 23 in the first; the next does not. The 65th and the 129th erase the work block
                assert_eq!(
                    (excess(&run), stores),
                    (if day == 24 { 24 * 172 - 4068 } else { 23 * 172 - 3896 }, 8197 + u64::from(compactions.len() % 64 == 1 && day > 24))
                );
            }
        }
        let wear = &run.wear;
        assert!(compactions.iter().copied().eq((24..=3650).step_by(23)));
        assert_eq!((compactions.len(), wear.shorts, wear.others, wear.busy), (158, 158, 0, 0));
        assert_eq!(wear.erases(), [158, 2, 158]);
        assert_eq!((wear.stored, wear.least, wear.smallest), (627_800, 3896, Some(60)));
        let (most, of_work) = (wear.figure(), (64 + wear.figure()) / 64);
        assert_eq!((most, of_work), (162, 3));
        println!(
            "3,650 sets of 172 bytes: {} compactions, {:?} erases of region, work block and spare; at most {most}, {of_work} and {most}",
            wear.shorts,
            wear.erases()
        );
    }
}
