//! 02 (i): stores of up to w bytes within one page of w. First numbers and pages worked out by hand; then every call at every width against the bytes that it stores
//! at w = 1; then cuts between pages and inside them, on chips that may have another width at the start-up, and dead bytes in pages.

mod common;

use common::cases::{
    asked, being_replaced, compacting, crowded, delete, empty, joint_changes, mode, profile, profiling, record, set, with_dirty_tail, with_leftover,
};
use common::cuts::{begun, places, Begun, Cut, Run, Way, START_UP};
use common::failing::{fail_at, WORN};
use common::generate::{self, BLOCK};
use common::modes;
use common::random::Random;
use common::rounds::{once, rounds};
use common::stored::Call;
use common::tenants::admitting;
use common::{signed, A, B, NEW, OLD, RATE, RECORD};
use varstore::calls::{lent, BOTH, ENGINE};
use varstore::interface::{Answer, Context, Setup, AUDIT_MODE, DEPLOYED_MODE};
use varstore::paper::layout::Authenticated;
use varstore::paper::{request, Page, Store, Stores};

const WIDTHS: [u32; 5] = [1, 2, 4, 8, 16];

/// Numbers that are no width: they count as 1.
const OTHERS: [u32; 12] = [0, 3, 5, 6, 7, 9, 15, 17, 32, 0x102, 0x1_0010, u32::MAX];

fn on(width: u32, run: Run) -> Run {
    Run { width, ..run }
}

/// A call's answer with no limit, in both implementations and as planned.
fn stores_of(run: &Run, call: &Call, count: u64) {
    for calls in BOTH {
        let context = Context::NO_LIMIT.paged(run.width);
        let (answer, _) = call.by(&calls, context, &run.session, &mut run.image.clone());
        assert_eq!(answer, Answer::Done(count), "{}: {call:?} with w = {}", calls.who, run.width);
    }
    assert_eq!(Run { way: Way::Planned, ..run.clone() }.make(call, u64::MAX), Answer::Done(count), "planned with w = {}", run.width);
}

/// RATE new at 28: header of 60 bytes, 7F, name, data, 3F; with w = 16 the header is cut into 4 + 16 + 16 + 16 + 8 bytes. Replaced, at 104, with 3E before and 3C
/// behind: with w = 8 the header has 8 pages, name and data 2 each; with w = 16 5, 1 and 2.
#[test]
fn numbers_of_stores() {
    let (new, replaced, formatted) = ([75, 39, 22, 13, 10], [77, 41, 24, 16, 12], [28, 14, 7, 4, 2]);
    // 02 (j): a mode at 28, with a name of 18 bytes and one of data; at 108 over a byte that counts as absent, with 3E before and 3C after it
    let (first, over) = ([80, 42, 23, 14, 10], [82, 44, 25, 16, 12]);
    for (index, width) in WIDTHS.into_iter().enumerate().chain(OTHERS.map(|width| (0, width))) {
        stores_of(&on(width, empty(1)), &set(RATE, OLD), new[index]);
        stores_of(&on(width, empty(1).with(RATE, OLD)), &set(RATE, NEW), replaced[index]);
        stores_of(&on(width, empty(1).with(RATE, OLD)), &set(RATE, OLD), 0);
        stores_of(&on(width, empty(1).with(RATE, OLD)), &delete(RATE), 1);
        stores_of(&on(width, with_leftover()), &delete(RATE), 2);
        stores_of(&on(width, empty(1)), &mode(AUDIT_MODE), first[index]);
        stores_of(&on(width, empty(1).in_audit_mode().with_stray(3)), &mode(AUDIT_MODE), over[index]);
        stores_of(&on(width, empty(1)), &Call::Format, 3 + formatted[index]);
        stores_of(&on(width, empty(7)), &Call::Format, 15 + formatted[index]);
    }
}

/// 1 + 256 + 1 + 1 + 256 + 1 + 1 for b = 1 and w = 16, "pages of FF too".
#[test]
fn numbers_of_stores_of_compactions() {
    for (pages, width) in [4096, 2048, 1024, 512, 256].into_iter().zip(WIDTHS).chain(OTHERS.map(|width| (4096, width))) {
        stores_of(&on(width, crowded(1)), &compacting(), 5 + 2 * pages);
        stores_of(&on(width, crowded(1).recorded(64)), &compacting(), 6 + 2 * pages);
        stores_of(&on(width, crowded(2)), &compacting(), 7 + 4 * pages);
        stores_of(&on(width, crowded(1)), &profiling(), 5 + 2 * pages);
        stores_of(&on(width, crowded(2).recorded(64)), &profiling(), 8 + 4 * pages);
        stores_of(&on(width, empty(1).with(RATE, OLD)), &profile(&[(RATE, OLD)]), 0);
        joint_changes(|| empty(1).with(RATE, OLD)).iter().for_each(|(run, call)| stores_of(&on(width, run.clone()), call, 5 + 2 * pages));
        stores_of(&on(width, with_dirty_tail(1)), &START_UP, 5 + 2 * pages);
        let decided = on(width, crowded(1)).stopped(&compacting(), pages + 2);
        stores_of(&decided, &START_UP, 3 + pages);
        // another width does not change what is to be resumed
        stores_of(&on(1, decided), &START_UP, 3 + 4096);
    }
    stores_of(&on(16, crowded(1)), &compacting(), 517);
}

fn program(at: usize, bytes: &[u8]) -> Store {
    Store::Program(at, Page::of(bytes))
}

/// RATE new at 28 with w = 16, page by page: the state's place has FF, and name and data begin stores of their own inside a page.
#[test]
fn pages_of_a_tail_write() {
    let stores = [
        program(28, &[0xAA, 0x55, 0xFF, 0x00]),
        program(32, &[0x07, 0, 0, 0, 0, 0, 0, 0, 0, 0, 0, 0, 0, 0, 0, 0]),
        program(48, &[0; 16]),
        program(64, &[10, 0, 0, 0, 4, 0, 0, 0, 1, 2, 3, 4, 5, 6, 7, 8]),
        program(80, &[9, 10, 11, 12, 13, 14, 15, 16]),
        Store::byte(30, 0x7F),
        program(88, b"R\0A\0T\0E\0"),
        program(96, &[0, 0]),
        program(98, OLD),
        Store::byte(30, 0x3F),
    ];
    for w in [16, 8, 4, 2] {
        let run = on(w as u32, empty(1));
        let list = run.stores(&set(RATE, OLD)).expect("accepted");
        // a narrower page cuts each of these at its own ends
        let cut = stores.iter().flat_map(|store| match *store {
            Store::Program(at, page) => by_pages(at, page.bytes(), w),
            Store::Erase(_) => vec![],
        });
        assert!(list.iter().eq(cut), "w = {w}: {:?}", list.iter().collect::<Vec<_>>());
        assert_eq!(list.deciding(), Some(list.len() - 1));
        let planned = lent(|content| {
            let plan = set(RATE, OLD).plan(&run.session, &run.image, content).expect("accepted");
            plan.stores(w, content).collect::<Vec<_>>()
        });
        assert!(list.iter().eq(planned), "planned with w = {w}");
    }
}

/// Bytes from an offset on, one after the other into the page that they belong to.
fn by_pages(at: usize, bytes: &[u8], w: usize) -> Vec<Store> {
    let mut pages: Vec<(usize, Vec<u8>)> = vec![];
    for (at, byte) in (at..).zip(bytes) {
        match pages.last_mut() {
            Some((first, page)) if *first / w == at / w => page.push(*byte),
            _ => pages.push((at, vec![*byte])),
        }
    }
    pages.into_iter().map(|(at, page)| program(at, &page)).collect()
}

/// The calls whose stores are cut at page ends.
fn cases() -> Vec<(Run, Call)> {
    let mut after_key = empty(1).with(A, OLD);
    after_key.whole(&Call::Set(asked(request::PK, 0x27, &signed(2024, OLD))));
    let entries = |count: usize| (0..count).fold(empty(1), |run, size| run.with(A, &vec![size as u8; 5 + 4 * size]));
    let mut cases = vec![
        (empty(1), set(RATE, OLD)),
        (empty(1).with(RATE, OLD), set(RATE, NEW)),
        (empty(1).with(RATE, OLD).with(A, OLD), Call::Set(asked(RATE, 0x47, &[0xFF; 33]))),
        (after_key, set(B, &[7; 50])),
        (with_leftover(), set(RATE, OLD)),
        (being_replaced(), set(RATE, NEW)),
        (empty(1).with(RATE, OLD), delete(RATE)),
        (with_leftover(), delete(RATE)),
        (empty(1).with(A, &[1; 2048]), set(B, &[2; 1892])),
        (empty(1).with(A, OLD).with_space(1000), record(RECORD, OLD)),
        (empty(1), mode(AUDIT_MODE)),
        (empty(1).with(RATE, OLD).in_user_mode(), mode(DEPLOYED_MODE)),
        (empty(1).in_audit_mode().with_stray(9).with(A, OLD), mode(AUDIT_MODE)),
    ];
    // a tail at each place of a page
    cases.extend((1..5).map(|count| (entries(count), set(RATE, &[0x5A; 23]))));
    cases
}

/// Cases of long lists: compactions, resumptions and start-ups.
fn long_cases() -> Vec<(Run, Call)> {
    let mut cases = vec![
        (crowded(1), compacting()),
        (crowded(1).recorded(64), compacting()),
        (crowded(1), profiling()),
        (empty(1).with(RATE, OLD).recorded(64), profile(&[(RATE, NEW), (A, &[0xFF; 33])])),
        (crowded(1).stopped(&profiling(), 4098), START_UP),
        (empty(1).with(A, &[1; 2048]).with(B, &[2; 1892]), set(A, &[3; 2048])),
        (crowded(1).stopped(&compacting(), 4098), START_UP),
        (crowded(1).stopped(&compacting(), 6000), START_UP),
        (with_dirty_tail(1), START_UP),
        (with_dirty_tail(1).recorded(64).stopped(&START_UP, 3000), START_UP),
    ];
    cases.extend(joint_changes(|| empty(1).with(RATE, OLD).with(A, &[0xFF; 33])));
    cases
}

/// The place of the state of the entry that a list writes into the tail: its deciding mark is 3F there.
fn written_state(list: &Stores) -> Option<usize> {
    match list.get(list.deciding()?)? {
        Store::Program(at, page) if page.bytes() == [0x3F] => Some(at),
        _ => None,
    }
}

/// At every width a call stores the bytes that it stores at w = 1, in the same order, and one FF in the place of the state of a header in the tail. Each store lies in
/// one page; only behind a header and behind a name another begins in the same page where it ends. It leaves the same image, and the same mark decides.
#[test]
fn the_same_bytes_in_the_same_order() {
    for (run, call) in cases().into_iter().chain(long_cases()).chain([(empty(1), Call::Format)]) {
        let narrow = run.stores(&call).expect("accepted");
        let (single, state) = (narrow.iter().collect::<Vec<Store>>(), written_state(&narrow));
        for w in [2, 4, 8, 16] {
            let wide = on(w as u32, run.clone()).stores(&call).expect("accepted");
            let mut bytes = single.iter().copied();
            let (mut of_state, mut within_page, mut last_end) = (0, 0, None);
            for (index, store) in wide.iter().enumerate() {
                if let Store::Program(at, page) = store {
                    let end = at + page.bytes().len();
                    assert_eq!(at / w, (end - 1) / w, "w = {w}: {store:?} is in two pages");
                    within_page += usize::from(last_end == Some(at) && at % w != 0);
                    last_end = Some(end);
                    for (at, v) in (at..).zip(page.bytes().iter().copied()) {
                        if state == Some(at) && v == 0xFF {
                            of_state += 1;
                        } else {
                            assert_eq!(bytes.next(), Some(Store::byte(at, v)), "w = {w}, store {index} of {call:?}");
                        }
                    }
                } else {
                    assert_eq!(bytes.next(), Some(store), "w = {w}, store {index} of {call:?}");
                }
                let decides = narrow.deciding().is_some_and(|deciding| single.len() - deciding == bytes.len() + 1);
                assert_eq!(wide.deciding() == Some(index), decides, "w = {w}: whether store {index} of {call:?} decides");
            }
            assert_eq!((bytes.next(), of_state), (None, usize::from(state.is_some())), "w = {w}: stores of {call:?}");
            assert!(within_page <= if state.is_some() { 2 } else { 0 }, "w = {w}: {within_page} cuts within pages of {call:?}");
            let (mut ours, mut theirs) = (run.image.clone(), run.image.clone());
            narrow.make(u64::MAX, &mut ours);
            wide.make(u64::MAX, &mut theirs);
            assert!(ours == theirs, "w = {w}: the image after {call:?}");
        }
    }
}

/// The call is cut after some numbers of stores and inside the next store; a chip of any width then starts up.
fn cut_after(run: &Run, call: &Call, every: bool, numbers: fn(&Stores, &mut Random) -> Vec<usize>) {
    for (way, width) in Way::BOTH.into_iter().flat_map(|way| [2, 4, 8, 16].map(|width| (way, width))) {
        once(|r| {
            let run = Run { way, width, ..run.clone() };
            let list = run.stores(call).expect("accepted");
            for after in numbers(&list, r) {
                let mut cut = run.clone();
                cut.cut(call, Cut { after, begun: None }, r);
                started(&cut, r);
                let Some(store) = list.get(after) else { continue };
                for left in begun(store, &cut.image, every, r) {
                    let mut torn = cut.clone();
                    torn.begin(store, left, r);
                    torn.cuts = vec![Cut { after, begun: Some(left) }];
                    started(&torn, r);
                }
            }
        });
    }
}

/// A start-up on a chip of this width or another.
fn started(cut: &Run, r: &mut Random) {
    on(if r.once_in(2) { cut.width } else { generate::width(r) }, cut.clone()).recover();
}

#[test]
fn cut_tail_writes_and_deletes() {
    for (run, call) in cases() {
        cut_after(&run, &call, true, |list, r| places(list, 31, r));
    }
}

#[test]
fn cut_compactions_and_start_ups() {
    for (run, call) in long_cases() {
        cut_after(&run, &call, false, |list, r| places(list, 29, r));
    }
}

/// A page store that has nothing to clear cannot be half made; of few bits every choice is left, of many some.
#[test]
fn what_a_begun_page_leaves() {
    once(|r| {
        let left = |store, image: &[u8], r: &mut Random| -> Vec<Vec<u8>> {
            let page = |begun: Begun| match begun {
                Begun::Page(page) => page.bytes().to_vec(),
                Begun::Block(_) => panic!("a page was begun"),
            };
            begun(store, image, true, r).into_iter().map(page).collect()
        };
        assert!(left(program(0, &[0xFF; 16]), &[0xFF; 16], r).is_empty());
        assert!(left(program(0, &[0x3F, 0x00]), &[0x3F, 0x00], r).is_empty());
        let mut few = left(program(0, &[0xFE, 0xFF, 0xFC]), &[0xFF; 3], r);
        few.sort();
        let all = [[0xFE, 0xFF, 0xFD], [0xFE, 0xFF, 0xFE], [0xFE, 0xFF, 0xFF], [0xFF, 0xFF, 0xFC], [0xFF, 0xFF, 0xFD], [0xFF, 0xFF, 0xFE], [0xFF; 3]];
        assert_eq!(few, all);
        let values = [0xAA, 0x55, 0xFF, 0x00, 7, 0, 0, 0];
        let many = left(program(8, &values), &[0xFF; 16], r);
        assert!(many.len() >= 16 && many.contains(&vec![0xFF; 8]));
        for bytes in many {
            assert!(bytes != values && bytes.iter().zip(values).all(|(byte, v)| byte & v == v), "{bytes:02X?}");
        }
    });
}

/// "A dead byte with a bit to fall fails its whole store, which then changes nothing": each store of each call, at one of its bytes.
#[test]
fn dead_bytes_in_pages() {
    for (run, call) in cases() {
        for width in [2, 4, 8, 16] {
            let run = on(width, run.clone());
            let count = run.stores(&call).expect("accepted").len();
            fail_at(&run, &call, count, |list, r| places(list, 31, r));
        }
    }
    for (run, call) in long_cases() {
        for width in [4, 16] {
            let run = on(width, run.clone());
            let count = run.stores(&call).expect("accepted").len();
            fail_at(&run, &call, count, |list, r| places(list, 67, r));
        }
    }
}

/// Every byte of every page of RATE's entry at w = 16, by hand: the state's place has FF in the header's first page, so that its death tells at 7F.
#[test]
fn each_dead_byte_of_a_tail_write() {
    let fails = |at: usize| match at {
        28 | 29 | 31 => Some(0),
        30 => Some(5),
        32..48 => Some(1),
        48..64 => Some(2),
        64..80 => Some(3),
        80..88 => Some(4),
        88..96 => Some(6),
        96..98 => Some(7),
        98..102 => Some(8),
        _ => None,
    };
    let list = on(16, empty(1)).stores(&set(RATE, OLD)).expect("accepted");
    for calls in BOTH {
        for at in 20..110 {
            let mut image = generate::empty(1);
            let mut expected = image.clone();
            let context = Context::worn(u64::MAX, &[at as u32]).paged(16);
            let answer = set(RATE, OLD).by(&calls, context, &(calls.session_new)(&Setup::PLAIN), &mut image).0;
            assert_eq!(answer, if fails(at).is_some() { WORN } else { Answer::Done(10) }, "{} with {at} dead", calls.who);
            list.make(fails(at).unwrap_or(10), &mut expected);
            assert!(image == expected, "{} with {at} dead", calls.who);
        }
    }
}

/// Every n of a format at every width, on every byte of the header dead or none.
#[test]
fn formats() {
    let before = crowded(1).image;
    for calls in BOTH {
        for (width, w) in [1, 2, 4, 8, 16].map(|w| (w as u32, w)).into_iter().chain([(3, 1), (32, 1)]) {
            let header = 28usize.div_ceil(w);
            for (n, dead) in (0..4 + header as u64).chain([u64::MAX]).flat_map(|n| (0..32).map(move |dead| (n, dead))) {
                let mut image = before.clone();
                let answer = (calls.format)(Context::worn(n, &[dead as u32]).paged(width), &mut image);
                let failing = if dead < 28 { Some((3 + dead / w) as u64) } else { None };
                let (expected, made) = match failing {
                    Some(failing) if failing < n => (WORN, failing),
                    _ if n < 3 + header as u64 => (Answer::Stopped, n),
                    _ => (Answer::Done(3 + header as u64), 3 + header as u64),
                };
                assert_eq!(answer, expected, "{}: format up to {n} with {dead} dead, w = {width}", calls.who);
                let stored = (made.saturating_sub(3) as usize * w).min(28);
                let erased = made.min(3) as usize * BLOCK;
                let formatted = generate::empty(1);
                assert!(
                    image[..stored] == formatted[..stored] && image[stored..erased.max(stored)].iter().all(|&byte| byte == 0xFF),
                    "{}",
                    calls.who
                );
                assert!(image[erased..] == before[erased..], "{}: format up to {n}, w = {width}", calls.who);
            }
        }
    }
}

/// Get and next-name make no stores: a width changes nothing, nor does it for a start-up that finds nothing to do.
#[test]
fn calls_without_stores() {
    let run = empty(1).with(RATE, OLD).with(A, OLD);
    for (calls, width) in BOTH.into_iter().flat_map(|calls| WIDTHS.into_iter().chain(OTHERS).map(move |width| (calls, width))) {
        let (context, mut buffer) = (Context::with(0).paged(width), [0; 144]);
        assert_eq!((calls.get)(context, &run.session, &run.image, RATE, &mut buffer).answer, Answer::Done(0), "{}", calls.who);
        assert_eq!((calls.next_name)(context, &run.session, &run.image, RATE, &mut buffer).answer, Answer::Done(0), "{}", calls.who);
        assert_eq!((calls.start_up)(context, &mut run.image.clone(), &Setup::PLAIN).answer, Answer::Done(0), "{}", calls.who);
    }
}

/// Sets, deletes, profiles, changes of mode and start-ups, each on a chip of another width, many of them cut between pages or inside one. After every start-up that is done the image's list of
/// values equals the book.
#[test]
fn widths_that_change_in_a_run() {
    let mut torn = [0; 3];
    rounds(3, 200, |r| {
        let mut image = if r.once_in(2) { generate::filled(r, 1) } else { generate::crafted::<Authenticated>(r, 1) };
        let setup = admitting(&image);
        if !matches!((ENGINE.start_up)(Context::NO_LIMIT.paged(16), &mut image, &setup).answer, Answer::Done(_)) {
            image = generate::empty(1);
        }
        let former = image[..BLOCK].to_vec();
        let mut run = Run::new(image, former);
        for _ in 0..r.below(30) {
            (run.way, run.width) = (r.pick(&Way::BOTH), generate::width(r));
            run.session = (ENGINE.session_new)(&generate::lenient(r, run.image.len()));
            let mut asked = generate::asked_on(r, &run.image);
            asked.presence = 1;
            let call = match r.below(8) {
                0 => START_UP,
                1 | 2 => Call::Profile(generate::profile(r, &run.session.setup, &run.image)),
                3 | 4 => modes::change(r, &run.image),
                _ => Call::Set(asked),
            };
            let kind = match &call {
                Call::Profile(_) => 1,
                Call::Mode { .. } => 2,
                Call::Set(asked) if asked.name.key() == request::PK => 2,
                _ => 0,
            };
            let Ok(list) = run.stores(&call) else { continue };
            let after = if r.once_in(2) { list.len() } else { r.below(list.len() + 1) };
            let mut before = run.image.clone();
            list.make(after as u64, &mut before);
            let left = list.get(after).map_or(vec![], |store| begun(store, &before, true, r));
            let begun = if left.is_empty() { None } else { Some(r.pick(&left)) };
            torn[kind] += usize::from(begun.is_some());
            run.cut(&call, Cut { after, begun }, r);
            if after < list.len() && !r.once_in(3) {
                run.width = generate::width(r);
                run.recover();
            }
        }
        run.recover();
    });
    assert!(torn[0] > 100 && torn[1] > 30 && torn[2] > 30, "{torn:?} stores begun, of profiles the second, of changes of mode the third");
}
