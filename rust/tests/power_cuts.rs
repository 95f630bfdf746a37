//! Power cuts: a call is cut after each number of its stores, whole or with the next store begun; then a start-up is done, the image's list of
//! values equals the book, and a second start-up makes no stores. Each test's name says what is cut. The stores are made by the engine's calls, and
//! by a host that carries out the engine's plans.
//!
//! `SOAK` is the time in seconds of each random test, and a failure prints its seed: `SEED=n cargo test --release --test power_cuts` begins with it.

mod common;

use std::collections::BTreeMap;

use common::book::{Book, Value};
use common::cases::{
    asked, being_replaced, by_the_key, compacting, crowded, decided, delete, empty, enrolled, joint_changes, mode, profile, profiling, record, set,
    with_dirty_tail, with_leftover,
};
use common::cuts::{begun, places, Begun, Cut, Garbage, Run, Way, START_UP};
use common::generate::{self, Asked, Name, BLOCK};
use common::modes::{self, deed, mode_of, DEEDS};
use common::random::Random;
use common::rounds::{once, rounds};
use common::settings::{check_broken, is_ruled};
use common::stored::Call;
use common::tenants::admitting;
use common::wear::{Opened, Outgrown};
use common::{same_bytes, signed, stamped, A, AUTUMN, B, NEW, OLD, RATE, RECORD, RECORDS, SPRING};
use varstore::calls::{lent, Calls, Read, BOTH, ENGINE, PAPER};
use varstore::interface::{Answer, Context, Key, Reply, Rule, Setting, Setup, Tenant, AUDIT_MODE, DEPLOYED_MODE};
use varstore::paper::image::Parts;
use varstore::paper::layout::Authenticated;
use varstore::paper::request::{DBX, PK};
use varstore::paper::{Store, Stores};
use varstore::plan::Operation;

/// The call is cut everywhere, each time followed by a start-up. `count` is the number of its stores.
fn cut_everywhere(run: &Run, call: &Call, count: usize) {
    cut_after(run, call, count, |list, _| (0..=list.len()).collect());
}

/// The call is cut after each of some numbers of stores, and inside the next store. A begun byte store leaves all that it may in a short list, and in a
/// sample of a long one.
fn cut_after(run: &Run, call: &Call, count: usize, numbers: fn(&Stores, &mut Random) -> Vec<usize>) {
    for way in Way::BOTH {
        once(|r| {
            let run = Run { way, ..run.clone() };
            let list = run.stores(call).expect("an accepted call");
            assert_eq!(list.len(), count);
            for after in numbers(&list, r) {
                let mut cut = run.clone();
                cut.cut(call, Cut { after, begun: None }, r);
                cut.clone().recover();
                let Some(store) = list.get(after) else { continue };
                for left in begun(store, &cut.image, count <= 300 || r.once_in(64), r) {
                    let mut torn = cut.clone();
                    torn.begin(store, left, r);
                    torn.cuts = vec![Cut { after, begun: Some(left) }];
                    torn.recover();
                }
            }
        });
    }
}

#[test]
fn tail_write_of_a_new_value() {
    cut_everywhere(&empty(1), &set(RATE, OLD), 75);
    cut_everywhere(&empty(2).with(A, NEW).with(B, &[2; 100]), &set(RATE, OLD), 75);
}

#[test]
fn tail_write_of_long_data() {
    cut_everywhere(&empty(1).with(A, OLD), &set(RATE, &[0x5A; 2048]), 2119);
}

/// The entry ends with the region.
#[test]
fn tail_write_that_fills_the_region() {
    cut_everywhere(&empty(1).with(A, &[1; 2048]), &set(B, &[2; 1892]), 1957);
}

#[test]
fn tail_write_of_a_key() {
    cut_everywhere(&empty(1).with(A, OLD), &Call::Set(asked(PK, 0x27, &signed(2024, OLD))), 71);
    let mut run = empty(1).with(A, OLD);
    run.whole(&Call::Set(asked(PK, 0x27, &signed(2024, OLD))));
    let later = Asked { verdict: 1, ..asked(PK, 0x27, &signed(2025, NEW)) };
    cut_everywhere(&run, &Call::Set(later), 73);
}

#[test]
fn tail_write_that_replaces() {
    cut_everywhere(&empty(1).with(RATE, OLD).with(A, OLD), &set(RATE, NEW), 77);
}

#[test]
fn tail_write_that_appends() {
    cut_everywhere(&empty(1).with(RATE, OLD).with(A, OLD), &Call::Set(asked(RATE, 0x47, NEW)), 81);
}

/// A list of revocations with a stamp, set or appended.
fn revoked(attributes: u32, stamp: &[u8; 16], data: &[u8]) -> Call {
    Call::Set(Asked { verdict: 2, ..asked(DBX, attributes, &stamped(stamp, data)) })
}

/// A store in user mode, with a list of revocations of that stamp.
fn with_revocations(blocks: usize, stamp: &[u8; 16]) -> Run {
    let mut run = empty(blocks).with(RATE, OLD);
    run.whole(&Call::Set(asked(PK, 0x27, &signed(2024, OLD))));
    run.whole(&revoked(0x27, stamp, OLD));
    run
}

/// 02 (b): "A cut keeps data and stamp together": the book has both in one value, and after each cut it has the old ones or the new ones.
#[test]
fn tail_write_that_appends_in_either_order() {
    for (first, second) in [(AUTUMN, SPRING), (SPRING, AUTUMN)] {
        let run = with_revocations(1, &first).with(A, OLD);
        let append = revoked(0x67, &second, NEW);
        let mut after = run.clone();
        assert_eq!(after.whole(&append), 79);
        let (old, new) = (value(&run, DBX), value(&after, DBX));
        assert_eq!((old.stamp, &old.data[..]), (first, OLD));
        assert_eq!((new.stamp, new.data), (AUTUMN, [OLD, NEW].concat()));
        cut_everywhere(&run, &append, 79);
    }
}

/// The same where the tail is too short: at the ends of the compaction's operations and many places between them.
#[test]
fn compaction_that_appends_in_either_order() {
    for (first, second) in [(AUTUMN, SPRING), (SPRING, AUTUMN)] {
        let run = with_revocations(1, &first).with(A, &[1; 2000]).with(B, &[2; 1600]);
        let append = revoked(0x67, &second, &[0x5A; 60]);
        let mut after = run.clone();
        assert_eq!(after.whole(&append), 8197);
        assert_eq!(value(&after, DBX).stamp, AUTUMN);
        cut_after(&run, &append, 8197, |list, r| places(list, 61, r));
    }
}

/// An old entry that is 3E only, and one beside a leftover, give their stamps as a 3F entry does.
#[test]
fn tail_write_that_appends_to_a_value_being_replaced() {
    let run = with_revocations(1, &AUTUMN);
    let (append, again) = (revoked(0x67, &SPRING, NEW), revoked(0x67, &SPRING, OLD));
    cut_everywhere(&run.clone().stopped(&append, 1), &again, 78);
    cut_everywhere(&run.stopped(&append, 78), &again, 84);
}

/// What the book has of a name.
fn value(run: &Run, key: Key) -> Value {
    run.book.values.iter().find(|value| value.name.key() == key).expect("a value").clone()
}

/// 02 (a): a hardware error record, new, appended to, replaced and deleted.
#[test]
fn tail_writes_of_a_record() {
    let run = empty(1).with(RATE, OLD).with_space(1000);
    cut_everywhere(&run, &record(RECORD, OLD), 91);
    let run = run.with_record(RECORD, OLD).with(A, OLD);
    cut_everywhere(&run, &Call::Set(asked(RECORD, 0x4F, NEW)), 97);
    cut_everywhere(&run, &record(RECORD, NEW), 93);
    cut_everywhere(&run, &delete(RECORD), 1);
}

/// A region full of records and other values: a record is replaced, and another value is while the records stand.
fn full_of_records() -> Run {
    empty(1).with_space(2136).with_record(RECORD, &[1; 2048]).with(B, &[2; 1868])
}

/// At the ends of the compaction's operations and many places between them.
#[test]
fn compactions_of_records() {
    cut_after(&full_of_records(), &record(RECORD, &[3; 2048]), 8197, |list, r| places(list, 61, r));
    cut_after(&full_of_records(), &set(B, &[4; 1868]), 8197, |list, r| places(list, 61, r));
}

/// 02 (e): a value that its rule allows, new, appended to, replaced and deleted: after each cut it is the old one or the new one, and the rule allows both.
#[test]
fn writes_within_a_rule() {
    let rule = Setting::any(RATE).sized(4, 8).field(0, 4).between(0x64, 0x65);
    let run = empty(1).with_rules(&[rule]).with(A, OLD);
    assert_eq!(run.clone().make(&set(RATE, &[0; 4]), u64::MAX), Answer::Refused(Rule::Setting));
    cut_everywhere(&run, &set(RATE, OLD), 75);
    let run = run.with(RATE, OLD);
    cut_everywhere(&run, &Call::Set(asked(RATE, 0x47, NEW)), 81);
    cut_everywhere(&run, &set(RATE, NEW), 77);
    cut_everywhere(&run, &delete(RATE), 1);
}

/// The same where the tail is too short, at the ends of the compaction's operations and many places between them.
#[test]
fn compaction_within_a_rule() {
    let run = empty(1).with_rules(&[Setting::any(A).field(2047, 1).one_of(&[1, 3])]).with(A, &[1; 2048]).with(B, &[2; 1892]);
    assert_eq!(run.clone().make(&set(A, &[2; 2048]), u64::MAX), Answer::Refused(Rule::Setting));
    cut_after(&run, &set(A, &[3; 2048]), 8197, |list, r| places(list, 61, r));
}

/// 02 (l): "FC decides for all items together": after each cut the list of values has all the profile's changes or none. It replaces, deletes and adds, beside a value
/// with a stamp, leftovers, and a value that is 3E only.
#[test]
fn profile_of_one_block() {
    cut_everywhere(&crowded(1), &profiling(), 8197);
}

/// At the ends of its operations and many places between them.
#[test]
fn profiles_of_two_and_seven_blocks_and_with_63_and_64_records_used() {
    cut_after(&crowded(1).recorded(63), &profiling(), 8197, |list, r| places(list, 61, r));
    cut_after(&crowded(1).recorded(64), &profiling(), 8198, |list, r| places(list, 61, r));
    cut_after(&crowded(2).recorded(64), &profiling(), 16392, |list, r| places(list, 61, r));
    cut_after(&crowded(7), &profiling(), 57361, |list, r| places(list, 4001, r));
}

/// One item that would fit in the tail; one that deletes; eight new ones; and one of two that is equal, and keeps its place.
#[test]
fn profiles_of_few_and_many_items() {
    let names: Vec<Vec<u8>> = (b'a'..b'i').map(|letter| vec![letter, 0, 0, 0]).collect();
    let eight: Vec<(Key, &[u8])> = names.iter().map(|name| (Key { name, ..A }, &[8; 40][..])).collect();
    let run = empty(1).with(RATE, OLD).with(A, OLD).with(B, OLD);
    for call in [profile(&[(RATE, NEW)]), profile(&[(RATE, &[])]), profile(&eight), profile(&[(RATE, OLD), (A, NEW)])] {
        cut_after(&run, &call, 8197, |list, r| places(list, 61, r));
    }
    assert_eq!(run.clone().make(&profile(&[(RATE, OLD), (B, OLD)]), 0), Answer::Done(0));
}

/// "Full as above": both values of a full region are replaced, and one goes for another that comes before it in the file.
#[test]
fn profiles_of_a_full_region() {
    let run = empty(1).with(A, &[1; 2048]).with(B, &[2; 1892]);
    cut_after(&run, &profile(&[(B, &[3; 1892]), (A, &[4; 2048])]), 8197, |list, r| places(list, 61, r));
    cut_after(&run, &profile(&[(RATE, &[5; 1886]), (B, &[])]), 8197, |list, r| places(list, 61, r));
    assert_eq!(run.clone().make(&profile(&[(RATE, &[5; 1887]), (B, &[])]), u64::MAX), Answer::Refused(Rule::Room));
}

/// A start-up that resumes a profile, itself cut.
#[test]
fn resume_of_a_profile() {
    for copied in [0, 2000] {
        cut_after(&crowded(1).stopped(&profiling(), decided(1) + copied), &START_UP, BLOCK + 3, |list, r| places(list, 61, r));
    }
}

/// 02 (j): "A mode alone is stored as a set stores": from setup to audit and from user to deployed, new, and over a byte that counts as absent.
#[test]
fn modes_in_the_tail() {
    cut_everywhere(&empty(1), &mode(AUDIT_MODE), 80);
    cut_everywhere(&empty(2).with(A, NEW).with(B, &[2; 100]), &mode(AUDIT_MODE), 80);
    cut_everywhere(&empty(1).with(A, NEW).in_user_mode(), &mode(DEPLOYED_MODE), 80);
    cut_everywhere(&empty(1).in_audit_mode().with_stray(9).with(A, OLD), &mode(AUDIT_MODE), 82);
    cut_everywhere(&empty(1).in_deployed_mode().with_stray(2).with(A, OLD), &mode(DEPLOYED_MODE), 82);
    // what a cut request has left: a byte being replaced, and one beside its leftover
    let stray = empty(1).in_audit_mode().with_stray(9);
    cut_everywhere(&stray.clone().stopped(&mode(AUDIT_MODE), 1), &mode(AUDIT_MODE), 81);
    cut_everywhere(&empty(1).stopped(&mode(AUDIT_MODE), 70), &mode(AUDIT_MODE), 80);
    cut_everywhere(&empty(1).in_user_mode().stopped(&mode(DEPLOYED_MODE), 70), &by_the_key(NEW), 73);
}

/// The same where the tail is too short.
#[test]
fn mode_by_compaction() {
    for (run, to) in [
        (empty(1), AUDIT_MODE),
        (empty(1).recorded(64), AUDIT_MODE),
        (empty(1).in_user_mode(), DEPLOYED_MODE),
        (empty(1).in_audit_mode().with_stray(9), AUDIT_MODE),
        (empty(1).in_deployed_mode().with_stray(2), DEPLOYED_MODE),
    ] {
        let run = nearly_full(run);
        let stores = 8197 + usize::from(run.image[BLOCK + 63] != 0xFF);
        cut_after(&run, &mode(to), stores, |list, r| places(list, 61, r));
    }
}

/// A region of which 76 bytes of tail are left, and bytes to be won before it.
fn nearly_full(run: Run) -> Run {
    let run = run.with(A, &[1; 2000]);
    let used = (ENGINE.check)(&run.image).tail as usize;
    let run = run.with(A, &vec![2; BLOCK - 76 - used - 64]);
    assert_eq!((ENGINE.check)(&run.image).tail as usize, BLOCK - 76);
    run
}

/// "where mode and PK change together it is one compaction": cut anywhere, both are as before or both have changed.
#[test]
fn user_to_audit_of_one_block() {
    cut_everywhere(&empty(1).with(A, OLD).in_user_mode().with(B, OLD), &mode(AUDIT_MODE), 8197);
}

#[test]
fn audit_to_deployed_of_one_block() {
    cut_everywhere(&empty(1).with(A, OLD).in_audit_mode().with(B, OLD), &enrolled(NEW), 8197);
}

#[test]
fn deployed_to_setup_of_one_block() {
    cut_everywhere(&empty(1).with(A, OLD).in_deployed_mode().with(B, OLD), &by_the_key(&[]), 8197);
}

/// All of them, and beside a byte that counts as absent, at the ends of their operations and many places between them; no cut leaves another mode than the two.
#[test]
fn mode_and_key_together() {
    for (run, call) in joint_changes(|| empty(1).with(RATE, OLD).with(A, OLD)) {
        cut_after(&run, &call, 8197, |list, r| places(list, 61, r));
        cut_after(&run.clone().recorded(63), &call, 8197, |list, r| places(list, 401, r));
        cut_after(&run.clone().recorded(64), &call, 8198, |list, r| places(list, 401, r));
        let mut after = run.clone();
        after.whole(&call);
        let modes = [mode_of(&run.book.values), mode_of(&after.book.values)];
        assert_ne!(modes[0], modes[1], "{call:?}");
        once(|r| {
            let list = run.stores(&call).expect("accepted");
            for place in places(&list, 61, r) {
                let mut cut = run.clone();
                cut.cut(&call, Cut { after: place, begun: None }, r);
                cut.recover();
                assert_eq!((ENGINE.present_mode)(&cut.image).mode, modes[usize::from(list.deciding().is_some_and(|deciding| deciding < place))]);
            }
        });
    }
}

#[test]
fn mode_and_key_together_in_two_and_seven_blocks() {
    for (run, call) in joint_changes(|| empty(2).with(RATE, OLD).with(A, &[7; 2000])) {
        cut_after(&run.recorded(64), &call, 16392, |list, r| places(list, 401, r));
    }
    for (run, call) in joint_changes(|| empty(7).with(RATE, OLD)) {
        cut_after(&run, &call, 57361, |list, r| places(list, 16_001, r));
    }
}

/// In a full region: PK goes, and 80 bytes of it are PlatMode's.
#[test]
fn user_to_audit_in_a_full_region() {
    let mut run = empty(1);
    run.whole(&enrolled(&[0x4B; 14]));
    let run = run.with(A, &[1; 2048]).with(B, &[2; 1812]);
    assert_eq!((ENGINE.check)(&run.image).tail as usize, BLOCK);
    cut_after(&run, &mode(AUDIT_MODE), 8197, |list, r| places(list, 61, r));
    assert_eq!(run.clone().make(&mode(DEPLOYED_MODE), u64::MAX), Answer::Refused(Rule::Room));
}

/// A start-up that resumes a change of mode, itself cut.
#[test]
fn resume_of_a_change_of_mode() {
    for (run, call) in joint_changes(|| empty(1).with(RATE, OLD).with(A, OLD)) {
        cut_after(&run.stopped(&call, decided(1) + 2000), &START_UP, BLOCK + 3, |list, r| places(list, 401, r));
    }
}

#[test]
fn tail_write_beside_a_leftover() {
    cut_everywhere(&with_leftover(), &set(RATE, OLD), 78);
}

#[test]
fn tail_write_over_a_value_being_replaced() {
    cut_everywhere(&being_replaced(), &set(RATE, NEW), 76);
}

/// A tail write that was cut in its header, and one that was cut in its data, stand before the tail.
#[test]
fn tail_write_behind_cut_ones() {
    let run = empty(1).with(RATE, OLD).stopped(&set(A, &[9; 40]), 30).stopped(&set(RATE, &[7; 40]), 90);
    cut_everywhere(&run, &set(RATE, NEW), 76);
    cut_everywhere(&run, &set(A, NEW), 69);
}

#[test]
fn delete_of_a_value() {
    cut_everywhere(&empty(1).with(RATE, OLD).with(A, OLD), &delete(RATE), 1);
}

#[test]
fn delete_beside_a_leftover() {
    cut_everywhere(&with_leftover(), &delete(RATE), 2);
}

#[test]
fn delete_of_a_value_being_replaced() {
    cut_everywhere(&being_replaced(), &delete(RATE), 1);
}

fn cut_compaction(blocks: usize, used: usize) {
    let stores = 3 + 2 * blocks * (BLOCK + 1) + usize::from(used == 64);
    cut_everywhere(&crowded(blocks).recorded(used), &compacting(), stores);
}

#[test]
fn compaction_of_one_block() {
    cut_compaction(1, 0);
}

#[test]
fn compaction_of_one_block_with_63_records_used() {
    cut_compaction(1, 63);
}

#[test]
fn compaction_of_one_block_with_64_records_used() {
    cut_compaction(1, 64);
}

#[test]
fn compaction_of_two_blocks() {
    cut_compaction(2, 0);
}

#[test]
fn compaction_of_two_blocks_with_63_records_used() {
    cut_compaction(2, 63);
}

#[test]
fn compaction_of_two_blocks_with_64_records_used() {
    cut_compaction(2, 64);
}

/// At the ends of its operations and many places between them.
#[test]
fn compaction_of_seven_blocks() {
    cut_after(&crowded(7), &compacting(), 57361, |list, r| places(list, 4001, r));
}

/// One planning call tells all its stores, from operations whose number does not grow with the region; the record's FC decides.
#[test]
fn plan_of_a_compaction_of_seven_blocks() {
    let run = crowded(7);
    lent(|content| {
        let plan = compacting().plan(&run.session, &run.image, content).expect("an accepted call");
        let made: Vec<_> = plan.operations.into_iter().filter(|operation| *operation != Operation::Nothing).collect();
        let (length, mark) = (7 * BLOCK, |value| Operation::Mark { at: 7 * BLOCK, value });
        let copy = |at| Operation::Program { at, from: 0, len: length };
        let erase = |first| Operation::Erase { first, count: 7 };
        assert_eq!(made, [mark(0xFE), copy(length + BLOCK), mark(0xFC), erase(0), copy(0), mark(0xF8), erase(8)]);
        assert_eq!(plan.deciding.map(|number| plan.operations[number]), Some(mark(0xFC)));
        assert_eq!((plan.stores(1, content).count(), plan.deciding_store(1)), (57361, Some(28673)));
    });
}

/// "Full as above, first value replaced by 2,048 other bytes": the region is full before and after.
#[test]
fn compaction_of_a_full_region() {
    cut_everywhere(&empty(1).with(A, &[1; 2048]).with(B, &[2; 1892]), &set(A, &[3; 2048]), 8197);
}

#[test]
fn resume_at_the_erase_of_the_region() {
    for blocks in [1, 2] {
        cut_everywhere(&crowded(blocks).stopped(&compacting(), decided(blocks)), &START_UP, 1 + blocks * (BLOCK + 2));
    }
}

#[test]
fn resume_with_the_region_half_copied() {
    cut_everywhere(&crowded(1).stopped(&compacting(), decided(1) + 2000), &START_UP, BLOCK + 3);
}

#[test]
fn start_up_that_erases_a_spare_begun() {
    for blocks in [1, 2] {
        cut_everywhere(&crowded(blocks).stopped(&compacting(), 3000), &START_UP, blocks);
        cut_everywhere(&crowded(blocks).stopped(&compacting(), decided(blocks) - 1), &START_UP, blocks);
    }
}

#[test]
fn start_up_that_erases_a_spare_copied() {
    for blocks in [1, 2] {
        let stores = decided(blocks) + (blocks * (BLOCK + 1) + 1) as u64;
        cut_everywhere(&crowded(blocks).stopped(&compacting(), stores), &START_UP, blocks);
    }
}

/// The cut erase of a work block with 64 records used has left what is not well formed, or ends in FC.
#[test]
fn start_up_that_erases_a_torn_work_block() {
    for garbage in Garbage::ALL {
        once(|r| {
            let mut run = crowded(1).recorded(64);
            run.cut(&compacting(), Cut { after: 0, begun: Some(Begun::Block(garbage)) }, r);
            let good = matches!(garbage, Garbage::Blank | Garbage::Untouched | Garbage::BackErased | Garbage::FrontErased);
            cut_everywhere(&run, &START_UP, usize::from(!good));
        });
    }
}

#[test]
fn start_up_that_compacts_a_dirty_tail() {
    for blocks in [1, 2] {
        cut_everywhere(&with_dirty_tail(blocks), &START_UP, 3 + 2 * blocks * (BLOCK + 1));
    }
}

#[test]
fn start_up_that_compacts_a_dirty_tail_with_63_and_64_records_used() {
    cut_everywhere(&with_dirty_tail(1).recorded(63), &START_UP, 8197);
    cut_everywhere(&with_dirty_tail(1).recorded(64), &START_UP, 8198);
}

/// The cut erase was the first store of a start-up's compaction.
#[test]
fn start_up_that_compacts_a_dirty_tail_behind_a_torn_work_block() {
    for garbage in [Garbage::Zeros, Garbage::SpareComplete(1), Garbage::SpareComplete(64)] {
        once(|r| {
            let mut run = with_dirty_tail(1).recorded(64);
            run.cut(&START_UP, Cut { after: 0, begun: Some(Begun::Block(garbage)) }, r);
            cut_everywhere(&run, &START_UP, 8198);
        });
    }
}

/// A start-up's compaction was stopped while it filled the spare.
#[test]
fn start_up_that_erases_the_spare_and_compacts_a_dirty_tail() {
    for blocks in [1, 2] {
        cut_everywhere(&with_dirty_tail(blocks).stopped(&START_UP, 3000), &START_UP, blocks + 3 + 2 * blocks * (BLOCK + 1));
    }
    cut_everywhere(&with_dirty_tail(1).recorded(64).stopped(&START_UP, 3000), &START_UP, 8198);
}

/// A cut of a call: where its list turns most often, anywhere else; the next store begun half of the times.
fn random_cut(run: &Run, call: &Call, r: &mut Random) -> Cut {
    let Ok(list) = run.stores(call) else { return Cut { after: 0, begun: None } };
    let turns = if r.once_in(4) { (0..=list.len()).collect() } else { places(&list, list.len() + 1, r) };
    let after = r.pick(&turns);
    let mut image = run.image.clone();
    list.make(after as u64, &mut image);
    let left = list.get(after).map_or(vec![], |store| begun(store, &image, true, r));
    Cut { after, begun: if left.is_empty() || r.once_in(2) { None } else { Some(r.pick(&left)) } }
}

/// The calls whose cuts are recovered from by start-ups that are cut.
fn cases() -> Vec<(Run, Call)> {
    let mut cases = vec![
        (empty(1).with(A, OLD), set(RATE, OLD)),
        (with_leftover(), set(RATE, OLD)),
        (with_leftover(), delete(RATE)),
        (being_replaced(), set(RATE, NEW)),
        (with_dirty_tail(1), START_UP),
        (with_dirty_tail(1).recorded(64), START_UP),
        (with_dirty_tail(2).recorded(63), START_UP),
        (crowded(1).stopped(&compacting(), decided(1)), START_UP),
        (crowded(2).stopped(&compacting(), decided(2)), START_UP),
        (empty(1).with(A, OLD).with_space(1000).with_record(RECORD, OLD), record(RECORD, NEW)),
        (full_of_records(), record(RECORD, &[3; 2048])),
        (crowded(1), profiling()),
        (crowded(2).recorded(64), profiling()),
        (empty(1).with(A, &[1; 2048]).with(B, &[2; 1892]), profile(&[(RATE, &[5; 1886]), (B, &[])])),
        (crowded(1).stopped(&profiling(), decided(1)), START_UP),
        (empty(1).with(A, OLD), mode(AUDIT_MODE)),
        (empty(1).with(A, OLD).in_user_mode(), mode(DEPLOYED_MODE)),
        (nearly_full(empty(1)), mode(AUDIT_MODE)),
    ];
    cases.extend(joint_changes(|| empty(1).with(RATE, OLD).with(A, OLD)));
    for (first, second) in [(AUTUMN, SPRING), (SPRING, AUTUMN)] {
        cases.push((with_revocations(1, &first), revoked(0x67, &second, NEW)));
        cases.push((with_revocations(1, &first).with(A, &[1; 2000]).with(B, &[2; 1600]), revoked(0x67, &second, &[0x5A; 60])));
    }
    for (blocks, used) in [(1, 0), (1, 63), (1, 64), (2, 0), (2, 64), (7, 64)] {
        cases.push((crowded(blocks).recorded(used), compacting()));
    }
    cases
}

/// Another chip from the next call on: any width, and dead addresses, none most often.
fn other_chip(run: &mut Run, next: &Call, r: &mut Random) {
    run.width = generate::width(r);
    run.dead.clear();
    if r.once_in(3) {
        run.dead = generate::dead(r, run.stores(next).ok().as_ref(), run.image.len());
    }
}

/// A cut call, then so many cut start-ups, then one that is done; with a width of its own in each, and dead bytes in some.
fn cut_start_ups(deep: usize, seconds: u64) {
    let cases = cases();
    let count = rounds(seconds, 20, |r| {
        for (run, call) in &cases {
            let mut run = Run { way: r.pick(&Way::BOTH), ..run.clone() };
            other_chip(&mut run, call, r);
            let cut = random_cut(&run, call, r);
            run.cut(call, cut, r);
            for _ in 0..deep {
                other_chip(&mut run, &START_UP, r);
                let cut = random_cut(&run, &START_UP, r);
                run.cut(&START_UP, cut, r);
            }
            run.recover_worn();
        }
    });
    println!("{} cases", count * cases.len() as u64);
}

#[test]
fn start_up_after_a_cut() {
    cut_start_ups(1, 3);
}

#[test]
fn start_up_after_a_cut_start_up_after_a_cut() {
    cut_start_ups(2, 3);
}

#[test]
fn start_ups_three_deep() {
    cut_start_ups(3, 3);
}

/// What a call that reads hands out, alike in both implementations: the reply and the whole buffer.
fn read(run: &Run, side: u32, name: &Name, call: fn(Calls) -> Read, length: usize) -> (Reply, Vec<u8>) {
    let [paper, engine] = BOTH.map(|calls| {
        let mut buffer = vec![0xA5; length];
        let reply = call(calls)(Context::with(0).by(side), &run.session, &run.image, name.key(), &mut buffer);
        (reply, buffer)
    });
    assert_eq!(engine.0, paper.0, "reply for {name:X?}");
    same_bytes("buffer", &paper.1, &engine.1);
    engine
}

/// A get answers from the book wherever it is accepted, also before a start-up.
fn get(run: &Run, side: u32, name: &Name) -> Answer {
    let (reply, buffer) = read(run, side, name, |calls| calls.get, 2048);
    let booked = run.book.get(&run.session, name.key());
    match reply.answer {
        Answer::Done(_) => assert!(booked == Some((reply.attributes, &buffer[..reply.size as usize])), "get of {name:X?} is not in the book"),
        Answer::Refused(Rule::Absent) => assert!(booked.is_none(), "{name:X?} is in the book"),
        _ => {}
    }
    reply.answer
}

/// The same of next-name.
fn next_name(run: &Run, side: u32, name: &Name) -> Answer {
    let (reply, buffer) = read(run, side, name, |calls| calls.next_name, 144);
    let booked = run.book.next(&run.session, side, name.key()).map(|name| [&name.vendor[..], &name.name].concat());
    match reply.answer {
        Answer::Done(_) => assert!(booked.as_deref() == Some(&buffer[..reply.size as usize]), "next-name after {name:X?} is not the book's"),
        Answer::Refused(Rule::Absent) => assert!(booked.is_none(), "the book goes on after {name:X?}"),
        _ => {}
    }
    reply.answer
}

/// A side, and a name of the book, or any, or the empty name.
fn some_name(run: &Run, r: &mut Random) -> (u32, Name) {
    let name = match r.below(4) {
        0 => generate::name(r),
        1 => Name { name: vec![0, 0], vendor: [r.byte(); 16] },
        _ if run.book.values.is_empty() => generate::name(r),
        _ => run.book.values[r.below(run.book.values.len())].name.clone(),
    };
    (generate::side(r, &run.session.setup, name.key()), name)
}

/// A set in any session; most often in one that refuses little.
fn some_set(run: &mut Run, r: &mut Random) -> Call {
    let mut asked = generate::asked_on(r, &run.image);
    run.session = generate::session(r);
    if !r.once_in(4) {
        run.session = (ENGINE.session_new)(&generate::lenient(r, run.image.len()));
        asked.presence = 1;
        if r.once_in(3) {
            generate::room_for(r, &mut run.session, &run.image, &asked);
        }
        if r.once_in(3) {
            run.session.setup = run.session.setup.ruled(&generate::rules_for(r, &run.image, &asked));
        }
    }
    asked.side = generate::side(r, &run.session.setup, asked.name.key());
    Call::Set(asked)
}

/// A profile in any session; most often in one that refuses little.
fn some_profile(run: &mut Run, r: &mut Random) -> Call {
    run.session = generate::session(r);
    if !r.once_in(4) {
        let modem = run.session.setup.modem;
        run.session = (ENGINE.session_new)(&generate::lenient(r, run.image.len()));
        if r.once_in(2) {
            run.session.setup.modem = Tenant { share: run.session.setup.share, ..modem };
        }
    }
    let profile = generate::profile(r, &run.session.setup, &run.image);
    if r.once_in(3) {
        generate::room_for_items(r, &mut run.session, &run.image, &profile);
    }
    if r.once_in(3) {
        run.session.setup = run.session.setup.ruled(&generate::rules_for_items(r, &run.image, &profile));
    }
    Call::Profile(profile)
}

/// A mode request, or a set or delete of PK, in any session; most often in one that refuses little.
fn some_change(run: &mut Run, r: &mut Random) -> Call {
    run.session = generate::session(r);
    let call = modes::change(r, &run.image);
    if !r.once_in(4) {
        run.session = (ENGINE.session_new)(&Setup { custom: r.below(2) as u32, ..generate::lenient(r, run.image.len()) });
        modes::terms(r, &mut run.session, &run.image, &call);
    }
    call
}

/// An image as a done start-up left it, and its b; or one that a move has left, where a start-up finds nothing to do.
fn some_image(r: &mut Random) -> (Vec<u8>, usize) {
    if r.once_in(8) {
        let mut image = generate::moved(r);
        let blocks = Parts::of(&image).expect("an image").blocks;
        let setup = admitting(&image);
        assert_eq!((ENGINE.start_up)(Context::NO_LIMIT, &mut image, &setup).answer, Answer::Done(0), "start-up on a moved image");
        return (image, blocks);
    }
    let blocks = generate::blocks(r);
    let mut image = match r.below(4) {
        0 => generate::empty(blocks),
        1 => generate::crafted::<Authenticated>(r, blocks),
        _ => generate::filled(r, blocks),
    };
    let setup = admitting(&image);
    if !matches!((ENGINE.start_up)(Context::NO_LIMIT, &mut image, &setup).answer, Answer::Done(_)) {
        image = generate::empty(blocks);
    }
    if r.once_in(3) {
        modes::leave_byte(r, &mut image);
    }
    (image, blocks)
}

/// How often each thing has happened in the runs.
type Tally = BTreeMap<&'static str, usize>;

/// One call of a run: whole, or cut.
fn random_step(run: &mut Run, r: &mut Random, tally: &mut Tally) {
    let call = match r.below(16) {
        0 | 1 => {
            let (side, name) = some_name(run, r);
            let kind = if r.once_in(2) { kind("get", get(run, side, &name), false) } else { kind("next-name", next_name(run, side, &name), false) };
            return *tally.entry(kind).or_default() += 1;
        }
        2 => START_UP,
        3 => Call::StartUp(generate::setup(r, &run.image)),
        4 | 5 => some_profile(run, r),
        6 | 7 => some_change(run, r),
        _ => some_set(run, r),
    };
    let what = call.what();
    let ruled = matches!(&call, Call::Set(asked) if is_ruled(&run.session, asked.name.key()));
    let of_record = matches!(&call, Call::Set(asked) if asked.name.vendor == RECORDS && asked.attributes & 0x08 != 0);
    other_chip(run, &call, r);
    let stores: Vec<Store> = run.stores(&call).map_or(vec![], |list| list.iter().collect());
    let has_stores = !stores.is_empty();
    let [programs, erases] = [true, false].map(|programs| stores.iter().any(|store| matches!(store, Store::Program(..)) == programs));
    if r.once_in(if has_stores { 2 } else { 10 }) {
        let cut = random_cut(run, &call, r);
        let before = run.book.clone();
        run.cut(&call, cut, r);
        *tally.entry(if cut.begun.is_some() { "store begun" } else { "cut between stores" }).or_default() += 1;
        if what == "set" {
            *tally.entry(if before == run.book { "set cut before deciding" } else { "set cut when decided" }).or_default() += 1;
        }
        if what == "profile" && has_stores {
            *tally.entry(if before == run.book { "profile cut before deciding" } else { "profile cut when decided" }).or_default() += 1;
        }
        if what == "mode" && has_stores {
            *tally.entry(if before == run.book { "mode cut before deciding" } else { "mode cut when decided" }).or_default() += 1;
        }
        if erases && is_joint(&call, &before) {
            *tally.entry(if before == run.book { "mode and PK cut before deciding" } else { "mode and PK cut when decided" }).or_default() += 1;
        }
        if ruled && has_stores {
            *tally
                .entry(if before == run.book { "set within its rules cut before deciding" } else { "set within its rules cut when decided" })
                .or_default() += 1;
        }
        if of_record && has_stores {
            *tally.entry(if before == run.book { "set of a record cut before deciding" } else { "set of a record cut when decided" }).or_default() +=
                1;
        }
        return;
    }
    let (before, book) = (run.image.clone(), run.book.clone());
    let answer = run.make(&call, u64::MAX);
    *tally.entry(kind(what, answer, programs && erases)).or_default() += 1;
    if let (Some(deed), Answer::Done(_)) = (deed(&call, &book, &run.book), answer) {
        *tally.entry(deed).or_default() += 1;
    }
    if let (Call::Set(asked), Answer::Refused(Rule::Setting)) = (&call, answer) {
        check_broken(&run.session, asked, &Book::of(&before));
    }
    if ruled && matches!(answer, Answer::Done(_)) && has_stores {
        *tally.entry(if erases { "set within its rules done by compaction" } else { "set within its rules done" }).or_default() += 1;
    }
    if of_record && matches!(answer, Answer::Done(_)) && has_stores {
        *tally.entry(if erases { "set of a record done by compaction" } else { "set of a record done" }).or_default() += 1;
    }
    match answer {
        Answer::Done(_) if what == "start-up" => run.check_book(),
        Answer::Refused(Rule::Worn) => run.cuts.clear(),
        Answer::Refused(Rule::Tenant) => {}
        _ => assert!(what != "start-up", "a start-up in a run is {answer:?} after {:?}", run.cuts),
    }
}

/// Whether an accepted call changes mode and PK together.
fn is_joint(call: &Call, before: &Book) -> bool {
    let mut after = before.clone();
    match call {
        Call::Mode { to, .. } => after.mode(*to),
        Call::Set(asked) if asked.name.key() == PK => after.set(&asked.request()),
        _ => return false,
    }
    let stands = |book: &Book, key| book.values.iter().find(|value| value.name.key() == key).map(|value| value.data.clone());
    [PK, modes::PLAT_MODE].iter().all(|key| stands(before, *key) != stands(&after, *key))
}

/// `both`: it programs and erases.
fn kind(what: &'static str, answer: Answer, both: bool) -> &'static str {
    match (what, answer) {
        ("set", Answer::Refused(Rule::Worn)) => "set failed",
        ("set", Answer::Done(0)) => "set done without stores",
        ("set", Answer::Done(_)) if both => "set done by compaction",
        ("set", Answer::Done(_)) => "set done",
        ("set", Answer::Refused(Rule::Unready)) => "set refused before a start-up",
        ("set", Answer::Refused(Rule::Setting)) => "set refused by its rules",
        ("set", _) => "set refused",
        ("profile", Answer::Refused(Rule::Worn)) => "profile failed",
        ("profile", Answer::Done(0)) => "profile done without stores",
        ("profile", Answer::Done(_)) => "profile done",
        ("profile", Answer::Refused(Rule::Unready)) => "profile refused before a start-up",
        ("profile", Answer::Refused(Rule::File | Rule::Twice)) => "profile refused for its file",
        ("profile", Answer::Refused(Rule::Room)) => "profile refused for room",
        ("profile", _) => "profile refused by an item",
        ("mode", Answer::Refused(Rule::Worn)) => "mode failed",
        ("mode", Answer::Done(_)) if both => "mode done by compaction",
        ("mode", Answer::Done(_)) => "mode done",
        ("mode", Answer::Refused(Rule::Unready)) => "mode refused before a start-up",
        ("mode", Answer::Refused(Rule::Mode)) => "mode refused for its transition",
        ("mode", Answer::Refused(Rule::Locked)) => "mode refused for a lock",
        ("mode", Answer::Refused(Rule::Tenant)) => "mode refused to the modem",
        ("mode", _) => "mode refused for room",
        ("start-up", Answer::Refused(Rule::Worn)) => "start-up failed",
        ("start-up", Answer::Refused(_)) => "start-up refused its shares",
        ("start-up", Answer::Done(0)) => "start-up without stores",
        ("start-up", Answer::Done(_)) if both => "start-up that compacts or resumes",
        ("start-up", _) => "start-up that erases",
        ("get", Answer::Done(_)) => "get done",
        ("get", _) => "get refused",
        (_, Answer::Done(_)) => "next-name done",
        _ => "next-name refused",
    }
}

/// Sets, appends, deletes, profiles, mode requests, gets, next-names and start-ups, in any sessions, many of them cut or failed; the book is checked after every done start-up,
/// and the account of wear after every call.
#[test]
fn any_call_of_a_run() {
    let (mut tally, mut smallest) = (Tally::new(), usize::MAX);
    rounds(15, 1000, |r| {
        let (image, blocks) = some_image(r);
        let mut former = generate::filled(r, blocks);
        let setup = admitting(&former);
        (PAPER.start_up)(Context::NO_LIMIT, &mut former, &setup);
        let mut run = Run::new(image, former[..blocks * BLOCK].to_vec());
        for _ in 0..r.below(60) {
            if r.once_in(10) && (PAPER.check)(&run.image).answer == Answer::Done(0) {
                run.former = run.image[..blocks * BLOCK].to_vec();
            }
            run.way = r.pick(&Way::BOTH);
            random_step(&mut run, r, &mut tally);
            if let Some(Outgrown { window, excess }) = run.wear.outgrown.take() {
                smallest = smallest.min(excess);
                *tally.entry(if window.opened == Opened::AtTheBeginning { "first tail too short" } else { "later tail too short" }).or_default() += 1;
            }
        }
        run.recover_worn();
    });
    println!("{tally:?}, smallest excess over a tail {smallest}");
    // sizes and tails are multiples of 4
    assert!(smallest >= 4 && smallest % 4 == 0, "an excess of {smallest} bytes");
    let whole = ["set done", "set done without stores", "set done by compaction", "set refused", "set refused before a start-up"];
    let started = ["start-up without stores", "start-up that erases", "start-up that compacts or resumes", "start-up refused its shares"];
    let read = ["get done", "get refused", "next-name done", "next-name refused"];
    let cut = ["store begun", "cut between stores", "set cut before deciding", "set cut when decided"];
    let failed = ["set failed", "start-up failed"];
    let records = ["set of a record done", "set of a record done by compaction"];
    let cut_records = ["set of a record cut before deciding", "set of a record cut when decided"];
    let ruled = ["set refused by its rules", "set within its rules done", "set within its rules done by compaction"];
    let cut_ruled = ["set within its rules cut before deciding", "set within its rules cut when decided"];
    let profiles =
        ["profile done", "profile done without stores", "profile refused by an item", "profile refused for its file", "profile refused for room"];
    let cut_profiles = ["profile failed", "profile cut before deciding", "profile cut when decided", "profile refused before a start-up"];
    let modes = ["mode done", "mode done by compaction", "mode refused for its transition", "mode refused for a lock", "mode refused to the modem"];
    let cut_modes = ["mode refused for room", "mode failed", "mode cut before deciding", "mode cut when decided", "mode refused before a start-up"];
    let joint = ["mode and PK cut before deciding", "mode and PK cut when decided"];
    let wear = ["first tail too short", "later tail too short"];
    for thing in [
        &whole[..],
        &started,
        &read,
        &cut,
        &failed,
        &records,
        &cut_records,
        &ruled,
        &cut_ruled,
        &profiles,
        &cut_profiles,
        &modes,
        &cut_modes,
        &joint,
        &wear,
        &DEEDS,
    ]
    .concat()
    {
        assert!(tally.contains_key(thing), "no {thing} in the runs");
    }
}
