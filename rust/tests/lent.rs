//! 02 (n): a call with its session in the host's memory answers as the one by value does, and leaves the same image, buffer, content and session. Some of the sessions are
//! ones that no call makes: a phase above 2, a count above 16, more than 32 rules, or bytes by chance.

mod common;

use common::generate::{asked_on, filled, profile, session, side};
use common::modes::change;
use common::random::Random;
use common::stored::Call;
use varstore::calls::lent;
use varstore::engine;
use varstore::interface::{Answer, Context, Session};

const SESSIONS: usize = 5_000;
/// Fresh session, phase, lock, get, next-name, set, plan of a set, profile, plan of a profile, mode request, plan of a mode request, start-up.
const COMPARED: usize = 12;

/// A session, sometimes with numbers or bytes of another writer.
fn foreign(r: &mut Random) -> Session {
    let mut session = session(r);
    let any = r.number() as u32;
    match r.below(6) {
        0 => session.phase = any,
        1 => session.count = any,
        2 => session.setup.rules = any,
        3 => session.sizes[r.below(16)] = any,
        4 => session.locks.iter_mut().for_each(|byte| *byte = r.byte()),
        _ => (),
    }
    session
}

/// Both ways, each on an image and with a content of its own: what they give, and what they leave.
fn same<T: PartialEq + std::fmt::Debug>(what: &str, image: &[u8], ours: impl FnOnce(&mut [u8]) -> T, theirs: impl FnOnce(&mut [u8]) -> T) -> T {
    let (mut one, mut other) = (image.to_vec(), image.to_vec());
    let (ours, theirs) = (ours(&mut one), theirs(&mut other));
    assert_eq!(ours, theirs, "{what}: lent, and by value");
    assert!(one == other, "{what}: the image");
    ours
}

#[test]
fn lent_calls_are_those_by_value() {
    let mut r = Random::new(0x6E);
    let (mut compared, mut done, mut one, mut gone, mut locked) = (0, 0, 0, 0, 0);
    for turn in 0..SESSIONS {
        let mut image = filled(&mut r, 1);
        if r.once_in(8) {
            let at = r.below(image.len());
            image[at] &= r.byte();
        }
        let by_value = foreign(&mut r);
        let asked = asked_on(&mut r, &image);
        let (request, key) = (asked.request(), asked.request().key);
        let side = side(&mut r, &by_value.setup, key);
        let limit = if r.once_in(3) { Context::with(r.below(90) as u64) } else { Context::NO_LIMIT }.by(side);

        let mut made = by_value;
        engine::lent::session_fresh(&mut made);
        assert!(made == engine::session_new(&by_value.setup), "turn {turn}: a fresh session");

        let (mut moved, phase) = (by_value, r.number() as u32 >> r.below(32));
        engine::lent::phase(&mut moved, phase);
        assert!(moved == engine::phase(by_value, phase), "turn {turn}: phase {phase}");

        let mut listed = by_value;
        let answer = engine::lent::lock(&mut listed, side, key);
        let expected = engine::lock(by_value, side, key);
        assert!(answer == expected.answer && listed == expected.session, "turn {turn}: lock, {answer:?}");
        assert!(!matches!(answer, Answer::Refused(_)) || listed == by_value, "turn {turn}: a refused lock");
        locked += usize::from(listed != by_value);

        let held = by_value;
        let buffer = vec![0x55; r.below(200)];
        same(
            &format!("turn {turn}: get"),
            &buffer,
            |b| engine::lent::get(limit, &held, &image, key, b),
            |b| engine::get(limit, &by_value, &image, key, b),
        );
        same(
            &format!("turn {turn}: next-name"),
            &buffer,
            |b| engine::lent::next_name(limit, &held, &image, key, b),
            |b| engine::next_name(limit, &by_value, &image, key, b),
        );
        let set = same(
            &format!("turn {turn}: set"),
            &image,
            |i| lent(|content| (engine::lent::set(limit, &held, i, &request, content), *content)),
            |i| lent(|content| (engine::set(limit, &by_value, i, &request, content), *content)),
        );
        done += usize::from(matches!(set.0, Answer::Done(_)));
        let _ = same(
            &format!("turn {turn}: plan of a set"),
            &image,
            |i| lent(|content| (engine::lent::plan_set(&held, side, i, &request, content), *content)),
            |i| lent(|content| (engine::plan_set(&by_value, side, i, &request, content), *content)),
        );
        let asked = profile(&mut r, &by_value.setup, &image);
        let profiled = same(
            &format!("turn {turn}: profile"),
            &image,
            |i| lent(|content| (engine::lent::profile(limit.by(asked.side), &held, i, &asked.file, content), *content)),
            |i| lent(|content| (engine::profile(limit.by(asked.side), &by_value, i, &asked.file, content), *content)),
        );
        one += usize::from(matches!(profiled.0, Answer::Done(_)));
        let _ = same(
            &format!("turn {turn}: plan of a profile"),
            &image,
            |i| lent(|content| (engine::lent::plan_profile(&held, asked.side, i, &asked.file, content), *content)),
            |i| lent(|content| (engine::plan_profile(&by_value, asked.side, i, &asked.file, content), *content)),
        );
        let (to, asking) = match change(&mut r, &image) {
            Call::Mode { to, side } => (to, side),
            _ => (r.number() as u32 & 3, side),
        };
        let went = same(
            &format!("turn {turn}: mode"),
            &image,
            |i| lent(|content| (engine::lent::mode(limit.by(asking), &held, i, to, content), *content)),
            |i| lent(|content| (engine::mode(limit.by(asking), &by_value, i, to, content), *content)),
        );
        gone += usize::from(matches!(went.0, Answer::Done(_)));
        let _ = same(
            &format!("turn {turn}: plan of a mode"),
            &image,
            |i| lent(|content| (engine::lent::plan_mode(&held, asking, i, to, content), *content)),
            |i| lent(|content| (engine::plan_mode(&by_value, asking, i, to, content), *content)),
        );
        assert!(held == by_value, "turn {turn}: a session that is only read");
        same(
            &format!("turn {turn}: start-up"),
            &image,
            |i| {
                let mut session = held;
                (lent(|content| engine::lent::start_up(limit, i, &mut session, content)), session)
            },
            |i| {
                let started = lent(|content| engine::start_up(limit, i, &by_value.setup, content));
                (started.answer, started.session)
            },
        );
        compared += COMPARED;
    }
    assert_eq!(compared, 60_000);
    assert!(
        done > SESSIONS / 20 && one > SESSIONS / 20 && gone > SESSIONS / 50 && locked > SESSIONS / 50,
        "only {done} sets, {one} profiles and {gone} mode requests were done, and {locked} locks made"
    );
}
