//! 02 (h): bytes that no longer clear. A call fails at the first store that would have to clear a bit at a dead address: here each store of each kind of call in
//! turn, with n around it; then a start-up with the dead byte is done or fails, and one without is done, and the image's list of values equals the book. What is
//! expected is worked out from the list of stores, one store at a time. Random runs of a chip whose bytes die one after the other are played too.
//!
//! `SOAK` is the time in seconds of the random test, and a failure prints its seed: `SEED=n cargo test --release --test worn` begins with it.

mod common;

use std::collections::BTreeMap;

use common::cases::{
    asked, being_replaced, compacting, crowded, decided, delete, empty, joint_changes, mode, profile, profiling, record, set, with_dirty_tail,
    with_leftover,
};
use common::cuts::{places, Run, Way, START_UP};
use common::failing::{fail_at, one_by_one, WORN};
use common::generate::{self, BLOCK};
use common::modes;
use common::random::Random;
use common::rounds::{once, rounds};
use common::stored::{carry_out, Call};
use common::tenants::admitting;
use common::wear::Wear;
use common::{signed, A, B, NEW, OLD, RATE, RECORD, VENDOR};
use varstore::calls::{lent, Calls, BOTH, ENGINE};
use varstore::interface::{Answer, Context, Key, Rule, Setup, AUDIT_MODE, DEAD, DEPLOYED_MODE};
use varstore::paper::layout::Authenticated;
use varstore::paper::{self, request, Made, Store};

/// The offset of the state of RATE's entry, the first one: state 7F is store 59 of its 75, behind the other header bytes.
const STATE: u32 = 28 + 2;

fn fail_everywhere(run: &Run, call: &Call, count: usize) {
    fail_at(run, call, count, |list, _| (0..list.len()).collect());
}

/// At the ends of a compaction's operations, and many places between them.
fn fail_in_compaction(run: &Run, call: &Call, count: usize) {
    fail_at(run, call, count, |list, r| places(list, 41, r));
}

#[test]
fn tail_writes() {
    fail_everywhere(&empty(1), &set(RATE, OLD), 75);
    fail_everywhere(&empty(2).with(A, NEW).with(B, &[2; 100]), &set(RATE, OLD), 75);
    fail_everywhere(&empty(1).with(RATE, OLD).with(A, OLD), &set(RATE, NEW), 77);
    fail_everywhere(&empty(1).with(RATE, OLD).with(A, OLD), &Call::Set(asked(RATE, 0x47, NEW)), 81);
    fail_everywhere(&empty(1).with(A, OLD), &Call::Set(asked(request::PK, 0x27, &signed(2024, OLD))), 71);
    fail_everywhere(&with_leftover(), &set(RATE, OLD), 78);
    fail_everywhere(&being_replaced(), &set(RATE, NEW), 76);
    fail_everywhere(&empty(1).with(A, OLD).with_space(1000), &record(RECORD, OLD), 91);
}

/// "Name size 4 with 2,048 data, then another with 1,892: the region is exactly full".
#[test]
fn tail_write_that_fills_the_region() {
    fail_in_compaction(&empty(1).with(A, &[1; 2048]), &set(B, &[2; 1892]), 1957);
}

#[test]
fn deletes() {
    fail_everywhere(&empty(1).with(RATE, OLD).with(A, OLD), &delete(RATE), 1);
    fail_everywhere(&with_leftover(), &delete(RATE), 2);
    fail_everywhere(&being_replaced(), &delete(RATE), 1);
}

#[test]
fn compactions() {
    fail_in_compaction(&crowded(1), &compacting(), 8197);
    fail_in_compaction(&crowded(1).recorded(63), &compacting(), 8197);
    fail_in_compaction(&crowded(1).recorded(64), &compacting(), 8198);
    fail_in_compaction(&empty(1).with(A, &[1; 2048]).with(B, &[2; 1892]), &set(A, &[3; 2048]), 8197);
}

#[test]
fn compaction_of_two_blocks() {
    fail_in_compaction(&crowded(2), &compacting(), 16391);
}

/// 02 (l): the whole profile fails, at that store; the book has all of its items where FC was made before it, else none.
#[test]
fn profiles() {
    fail_in_compaction(&crowded(1), &profiling(), 8197);
    fail_in_compaction(&crowded(1).recorded(64), &profiling(), 8198);
    fail_in_compaction(&crowded(2), &profiling(), 16391);
    fail_in_compaction(&empty(1).with(RATE, OLD), &profile(&[(A, NEW), (RATE, &[])]), 8197);
}

/// 02 (j): a mode alone fails as a set does; where mode and PK change together the whole change fails, at that store.
#[test]
fn changes_of_mode() {
    fail_everywhere(&empty(1).with(A, OLD), &mode(AUDIT_MODE), 80);
    fail_everywhere(&empty(1).with(A, OLD).in_user_mode(), &mode(DEPLOYED_MODE), 80);
    fail_everywhere(&empty(1).in_audit_mode().with_stray(9).with(A, OLD), &mode(AUDIT_MODE), 82);
    for (run, call) in joint_changes(|| empty(1).with(RATE, OLD).with(A, OLD)) {
        fail_in_compaction(&run, &call, 8197);
        fail_in_compaction(&run.recorded(64), &call, 8198);
    }
}

#[test]
fn resumptions() {
    for copied in [0, 1, 2000] {
        fail_in_compaction(&crowded(1).stopped(&compacting(), decided(1) + copied), &START_UP, BLOCK + 3);
    }
    fail_in_compaction(&crowded(2).stopped(&compacting(), decided(2)), &START_UP, 2 * BLOCK + 5);
}

#[test]
fn start_ups_that_tidy() {
    fail_in_compaction(&with_dirty_tail(1), &START_UP, 8197);
    fail_in_compaction(&with_dirty_tail(1).recorded(64), &START_UP, 8198);
    fail_in_compaction(&with_dirty_tail(1).stopped(&START_UP, 3000), &START_UP, 8198);
    fail_everywhere(&crowded(1).stopped(&compacting(), 3000), &START_UP, 1);
}

/// "Erases never fail": a start-up that only erases is done with any byte of its blocks dead.
#[test]
fn erases_do_not_fail() {
    let cut = crowded(1).stopped(&compacting(), 3000);
    for dead in [2 * BLOCK, 2 * BLOCK + 5, 3 * BLOCK - 1] {
        let mut run = Run { dead: vec![dead as u32], ..cut.clone() };
        assert_eq!(run.make(&START_UP, u64::MAX), Answer::Done(1));
        run.check_book();
    }
}

/// A format erases, and then fails in the header; FF may stay where it is, and no byte of the header is FF.
#[test]
fn formats() {
    for (calls, blocks) in BOTH.into_iter().flat_map(|calls| [(calls, 1), (calls, 2)]) {
        let before = crowded(blocks).image;
        let erases = 2 * blocks + 1;
        let list = paper::format_stores(1, &before).expect("an image");
        for dead in (0..40).chain([BLOCK - 1, BLOCK, 2 * BLOCK, before.len() - 1, before.len()]) {
            for n in (0..erases + 30).map(|n| n as u64).chain([u64::MAX]) {
                let mut image = before.clone();
                let answer = (calls.format)(Context::worn(n, &[dead as u32]), &mut image);
                let expected = match dead {
                    0..28 if n > (erases + dead) as u64 => WORN,
                    _ if n < (erases + 28) as u64 => Answer::Stopped,
                    _ => Answer::Done(erases as u64 + 28),
                };
                assert_eq!(answer, expected, "{}: format up to {n} with {dead} dead", calls.who);
                let made = if answer == WORN { erases + dead } else { usize::try_from(n).unwrap_or(usize::MAX) };
                assert!(image == one_by_one(&list, &before, made, &[]).0, "{}: image of a format up to {n} with {dead} dead", calls.who);
            }
        }
    }
}

/// RATE, set new on an empty store.
fn set_rate(calls: &Calls, context: Context, image: &mut [u8]) -> Answer {
    (calls.set)(context, &(calls.session_new)(&Setup::PLAIN), image, &asked(RATE, 0x07, OLD).request())
}

/// What RATE's set answers with dead addresses, in both implementations.
fn rate_with(context: Context, expected: Answer) {
    for calls in BOTH {
        assert_eq!(set_rate(&calls, context, &mut generate::empty(1)), expected, "{} with {context:?}", calls.who);
    }
}

/// "up to 16 dead addresses (more are ignored)": repeated ones and ones outside the image take up places.
#[test]
fn sixteen_addresses() {
    let others: Vec<u32> = (5000..5015).collect();
    let done = Answer::Done(75);
    rate_with(Context::worn(u64::MAX, &[]), done);
    rate_with(Context::worn(u64::MAX, &[STATE]), WORN);
    rate_with(Context::worn(u64::MAX, &[&others[..], &[STATE]].concat()), WORN);
    rate_with(Context::worn(u64::MAX, &[&others[..], &[5015, STATE]].concat()), done);
    rate_with(Context::worn(u64::MAX, &[&[99_999; 15][..], &[STATE]].concat()), WORN);
    rate_with(Context::worn(u64::MAX, &[&[99_999; 16][..], &[STATE]].concat()), done);
    rate_with(Context::worn(u64::MAX, &[&[5000; 16][..], &[STATE]].concat()), done);
    rate_with(Context::worn(u64::MAX, &[STATE; 40]), WORN);
    for count in [16, 17, 18, 0x100, 0x1_0000, 0x8000_0000, u32::MAX] {
        let mut context = Context { count, ..Context::worn(u64::MAX, &others) };
        rate_with(context, done);
        context.dead[DEAD - 1] = STATE;
        rate_with(context, WORN);
    }
}

/// Places behind the count are not looked at.
#[test]
fn places_that_are_not_given() {
    for count in 0..DEAD {
        let mut context = Context { count: count as u32, ..Context::worn(u64::MAX, &[5000; DEAD]) };
        context.dead[count..].fill(STATE);
        rate_with(context, Answer::Done(75));
        context.dead[count.saturating_sub(1)] = STATE;
        rate_with(context, if count == 0 { Answer::Done(75) } else { WORN });
    }
}

/// "offsets in the image": numbers outside it are no byte of it, whatever they are modulo its length.
#[test]
fn addresses_outside() {
    for dead in [3 * BLOCK as u32, 3 * BLOCK as u32 + STATE, 0x1_0000 + STATE, 0x8000_0000 + STATE, u32::MAX, u32::MAX - STATE] {
        rate_with(Context::worn(u64::MAX, &[dead]), Answer::Done(75));
    }
}

/// "A stop before it comes first": n = 59 stops before the state's store, which is store 59; n = 60 meets it, and the header's 59 bytes stand.
#[test]
fn a_stop_before_the_state() {
    for (n, expected, made) in [(58, Answer::Stopped, 58), (59, Answer::Stopped, 59), (60, WORN, 59), (75, WORN, 59), (u64::MAX, WORN, 59)] {
        for calls in BOTH {
            let (mut image, mut stopped) = (generate::empty(1), generate::empty(1));
            assert_eq!(set_rate(&calls, Context::worn(n, &[STATE]), &mut image), expected, "{} up to {n}", calls.who);
            assert_eq!(set_rate(&calls, Context::with(made), &mut stopped), Answer::Stopped);
            assert!(image == stopped, "{} up to {n}", calls.who);
        }
    }
}

/// Several bytes are dead: the first in the order of stores tells, which is not the order of addresses nor the one they are given in.
#[test]
fn the_first_in_the_order_of_stores() {
    let (header, name) = (28 + 59, 28 + 60);
    for (dead, made) in [([name, STATE], 59), ([header, STATE], 58), ([name, header], 58), ([101, name], 60), ([102, 101], 73), ([28, STATE], 0)] {
        for dead in [dead, [dead[1], dead[0]]] {
            for calls in BOTH {
                let (mut image, mut stopped) = (generate::empty(1), generate::empty(1));
                assert_eq!(set_rate(&calls, Context::worn(u64::MAX, &dead), &mut image), WORN, "{} with {dead:?} dead", calls.who);
                assert_eq!(set_rate(&calls, Context::with(made), &mut stopped), Answer::Stopped);
                assert!(image == stopped, "{} with {dead:?} dead", calls.who);
            }
        }
    }
}

/// A dead byte that need not clear a bit is none of the call's business: padding, an FF of the data, an FF of a compaction, and every byte that a delete does not
/// store.
#[test]
fn a_bit_that_need_not_fall() {
    for way in Way::BOTH {
        let done = |run: Run, call: &Call, dead: &[u32], count: u64| {
            let mut run = Run { way, dead: dead.to_vec(), ..run };
            assert_eq!(run.make(call, u64::MAX), Answer::Done(count), "{call:?} with {dead:?} dead");
            run
        };
        done(empty(1), &set(RATE, OLD), &[102, 103, 104, 4095, 4096, 8192, 12287], 75);
        let data: Vec<u32> = (98..98 + 16).collect();
        done(empty(1), &set(RATE, &[0xFF; 40]), &data, 111);
        let entry: Vec<u32> = (28..36).filter(|&at| at != STATE).chain(96..104).collect();
        let run = done(empty(1).with(RATE, OLD), &delete(RATE), &entry, 1);
        // the rest of the new region is FF: its values take some 3,100 bytes
        let ends = [BLOCK as u32 - 1, 2 * BLOCK as u32 + 4095, 2 * BLOCK as u32 + 3500];
        done(crowded(1), &compacting(), &ends, 8197);
        done(run.stopped(&set(A, OLD), 1), &START_UP, &[200, 2 * BLOCK as u32 + 28], 8197);
    }
}

/// A dead state byte: the entry's own marks fail one by one, 3E, 3D and 3C, and nothing else of the call comes to pass.
#[test]
fn marks_on_a_dead_state() {
    for calls in BOTH {
        let mut image = generate::empty(1);
        assert_eq!(set_rate(&calls, Context::NO_LIMIT, &mut image), Answer::Done(75));
        let session = (calls.session_new)(&Setup::PLAIN);
        let before = image.clone();
        for (attributes, data) in [(0x07, NEW), (0, &[][..]), (0x47, NEW)] {
            let asked = asked(RATE, attributes, data);
            assert_eq!((calls.set)(Context::worn(u64::MAX, &[STATE]), &session, &mut image, &asked.request()), WORN, "{}", calls.who);
            assert!(image == before, "{}", calls.who);
        }
        // the replacement is decided, and the old entry's 3C fails: a leftover, which a later start-up leaves and a later set clears first
        image[STATE as usize] = 0x3E;
        let asked = asked(RATE, 0x07, NEW);
        assert_eq!((calls.set)(Context::worn(u64::MAX, &[STATE]), &session, &mut image, &asked.request()), WORN, "{}", calls.who);
        assert_eq!((image[STATE as usize], image[STATE as usize + 76]), (0x3E, 0x3F), "{}", calls.who);
        let mut buffer = [0; 4];
        let reply = (calls.get)(Context::NO_LIMIT, &session, &image, RATE, &mut buffer);
        assert_eq!((reply.answer, &buffer[..]), (Answer::Done(0), NEW), "{}", calls.who);
        assert_eq!((calls.start_up)(Context::worn(u64::MAX, &[STATE]), &mut image, &Setup::PLAIN).answer, Answer::Done(0), "{}", calls.who);
    }
}

/// "also when it is refused or stopped": a start-up that fails makes a fresh session.
#[test]
fn session_of_a_failed_start_up() {
    let dirty = with_dirty_tail(1).image;
    let given = Setup { custom: 7, reserve: 5000, ..Setup::PLAIN }.with_records(500);
    for calls in BOTH {
        let started = (calls.start_up)(Context::worn(u64::MAX, &[BLOCK as u32]), &mut dirty.clone(), &given);
        assert_eq!(started.answer, WORN, "{}", calls.who);
        assert!(started.session == (calls.session_new)(&Setup { custom: 1, reserve: 4096, ..given }), "{}", calls.who);
    }
}

/// Get and next-name make no stores; other rules are broken before the first store.
#[test]
fn calls_without_stores() {
    let run = empty(1).with(RATE, OLD).with(A, OLD);
    let dead: Vec<u32> = (28..28 + 16).collect();
    let context = Context::worn(0, &dead);
    for calls in BOTH {
        let (mut buffer, mut image) = ([0; 144], run.image.clone());
        assert_eq!((calls.get)(context, &run.session, &image, RATE, &mut buffer).answer, Answer::Done(0), "{}", calls.who);
        assert_eq!((calls.next_name)(context, &run.session, &image, RATE, &mut buffer).answer, Answer::Done(0), "{}", calls.who);
        assert_eq!((calls.start_up)(context, &mut image, &Setup::PLAIN).answer, Answer::Done(0), "{}", calls.who);
        let context = Context::worn(u64::MAX, &[108, 180, STATE]);
        let absent = Key { name: b"Q\0\0\0", vendor: &VENDOR };
        for (key, attributes, size, answer) in [
            (RATE, 0x07, 2049, Answer::Refused(Rule::DataSize)),
            (RATE, 0x03, 4, Answer::Refused(Rule::Standing)),
            (absent, 0, 0, Answer::Refused(Rule::Absent)),
            (RATE, 0x47, 0, Answer::Done(0)),
            (RATE, 0x07, 4, WORN),
        ] {
            let asked = asked(key, attributes, &vec![9; size]);
            assert_eq!((calls.set)(context, &run.session, &mut image, &asked.request()), answer, "{} of {asked:?}", calls.who);
            assert!(image == run.image);
        }
    }
}

/// A host whose part has a byte that dies: it carries out the plan, which knows nothing of dead bytes, finds the byte by reading back, and goes no further. What
/// then stands is what the call leaves that is given the address; and the next start-up, planned on the part, is as after a power cut.
#[test]
fn a_host_that_reads_back() {
    let mut cases =
        vec![(empty(1).with(A, OLD), set(RATE, OLD)), (with_leftover(), set(RATE, OLD)), (crowded(1), compacting()), (crowded(1), profiling())];
    cases.push((empty(1).with(A, OLD), mode(AUDIT_MODE)));
    cases.extend(joint_changes(|| empty(1).with(RATE, OLD)));
    for (run, call) in cases {
        once(|r| {
            let list = run.stores(&call).expect("an accepted call");
            for number in places(&list, 97, r) {
                let Some(Store::Program(dying, _)) = list.get(number) else { continue };
                let mut part = run.image.clone();
                let (plan, made) = lent(|content| {
                    let plan = call.plan(&run.session, &run.image, content).expect("an accepted call");
                    (plan, carry_out(&plan, content, &Context::worn(u64::MAX, &[dying as u32]), &mut part))
                });
                let (image, failing) = one_by_one(&list, &run.image, usize::MAX, &[dying as u32]);
                assert_eq!(made, Made { stores: failing.unwrap_or(list.len()), failed: failing.is_some() });
                assert!(part == image, "the part with {dying} dying");
                let mut told = run.image.clone();
                let (answer, _) = call.by(&ENGINE, Context::worn(u64::MAX, &[dying as u32]), &run.session, &mut told);
                assert_eq!(answer == WORN, made.failed, "{dying} dying");
                assert!(told == part, "the image with {dying} dying");
                let mut book = run.book.clone();
                if plan.deciding_store(1).is_some_and(|deciding| deciding < made.stores) {
                    call.feed(&mut book);
                }
                let wear = Wear::of(&part);
                Run { way: Way::Planned, image: part, book, wear, dead: vec![dying as u32], ..run.clone() }.recover_worn();
            }
        });
    }
}

/// An image as a done start-up left it, of one or two blocks.
fn some_image(r: &mut Random) -> Vec<u8> {
    let blocks = if r.once_in(4) { 2 } else { 1 };
    let mut image = if r.once_in(2) { generate::filled(r, blocks) } else { generate::crafted::<Authenticated>(r, blocks) };
    let setup = admitting(&image);
    match (ENGINE.start_up)(Context::NO_LIMIT, &mut image, &setup).answer {
        Answer::Done(_) => image,
        _ => generate::empty(blocks),
    }
}

/// A set, profile or change of mode that little refuses, or a start-up.
fn some_call(run: &mut Run, r: &mut Random) -> Call {
    if r.once_in(4) {
        return START_UP;
    }
    run.session = (ENGINE.session_new)(&generate::lenient(r, run.image.len()));
    if r.once_in(4) {
        return Call::Profile(generate::profile(r, &run.session.setup, &run.image));
    }
    if r.once_in(4) {
        return modes::change(r, &run.image);
    }
    let mut asked = generate::asked_on(r, &run.image);
    asked.presence = 1;
    Call::Set(asked)
}

/// A chip that grows old: its bytes die one after the other, often where the next call is to store, and stay dead. Every call is given them; one that fails is
/// followed by a start-up, which may fail too. After every start-up that is done the image's list of values equals the book; on a chip without dead bytes the
/// last one is.
#[test]
fn bytes_that_die_in_a_run() {
    let mut tally: BTreeMap<String, usize> = BTreeMap::new();
    rounds(3, 100, |r| {
        let image = some_image(r);
        let former = image[..(image.len() / BLOCK / 2) * BLOCK].to_vec();
        let mut run = Run::new(image, former);
        for _ in 0..r.below(40) {
            run.way = r.pick(&Way::BOTH);
            let call = some_call(&mut run, r);
            if r.once_in(3) && run.dead.len() < DEAD {
                let dying = generate::dead(r, run.stores(&call).ok().as_ref(), run.image.len());
                run.dead.extend(dying.first());
            }
            let n = if r.once_in(6) { r.below(9000) as u64 } else { u64::MAX };
            let answer = run.make(&call, n);
            let what = call.what();
            *tally.entry(format!("{what} {}", kind(answer))).or_default() += 1;
            if let (Answer::Done(_), "start-up") = (answer, what) {
                run.check_book();
            } else if answer == WORN && run.make(&START_UP, u64::MAX) == WORN {
                *tally.entry("start-up failed behind a failed call".into()).or_default() += 1;
            }
        }
        run.recover_worn();
    });
    println!("{tally:?}");
    let profiled = ["profile done", "profile failed", "profile stopped", "mode done", "mode failed", "mode stopped"];
    for thing in
        ["set done", "set failed", "set stopped", "start-up done", "start-up failed", "start-up failed behind a failed call"].iter().chain(&profiled)
    {
        assert!(tally.contains_key(*thing), "no {thing} in the runs");
    }
}

fn kind(answer: Answer) -> &'static str {
    match answer {
        Answer::Done(_) => "done",
        Answer::Stopped => "stopped",
        Answer::Refused(Rule::Worn) => "failed",
        Answer::Refused(_) => "refused",
    }
}
