//! 02 (h): calls that fail at a dead byte. What is expected is worked out from the list of stores, one store at a time.

use super::cuts::{Run, Way};
use super::random::Random;
use super::rounds::once;
use super::stored::Call;
use varstore::calls::PAPER;
use varstore::interface::{Answer, Context, Rule};
use varstore::paper::{Store, Stores};

pub const WORN: Answer = Answer::Refused(Rule::Worn);

/// The image after the first `count` stores of a list, or after those before the first that fails, and its index: "it fails at a dead address where a bit would
/// have to fall, and changes nothing there"; "A dead byte with a bit to fall fails its whole store, which then changes nothing".
pub fn one_by_one(list: &Stores, image: &[u8], count: usize, dead: &[u32]) -> (Vec<u8>, Option<usize>) {
    let mut after = image.to_vec();
    for (index, store) in list.iter().take(count).enumerate() {
        if let Store::Program(at, page) = store {
            let falls = |(a, v): (usize, &u8)| dead.contains(&(a as u32)) && after[a] & !v != 0;
            if (at..).zip(page.bytes()).any(falls) {
                return (after, Some(index));
            }
        }
        store.make(&mut after);
    }
    (after, None)
}

/// The call with a dead address, up to n stores, in each way: "A stop before it comes first. 23 when a byte store fails, at that store, the earlier ones
/// remaining". Gives the runs after it.
fn fail(run: &Run, call: &Call, list: &Stores, dead: u32, n: u64) -> [Run; 2] {
    let (image, failing) = one_by_one(list, &run.image, usize::try_from(n).unwrap_or(usize::MAX), &[dead]);
    let expected = match failing {
        Some(_) => WORN,
        None if list.len() as u64 > n => Answer::Stopped,
        None => Answer::Done(list.len() as u64),
    };
    let mut ours = run.image.clone();
    let (answer, _) = call.by(&PAPER, Context::worn(n, &[dead]).paged(run.width), &run.session, &mut ours);
    assert!(answer == expected && ours == image, "paper: {answer:?}, not {expected:?}, or the image, with {dead} dead up to {n} stores of {call:?}");
    Way::BOTH.map(|way| {
        let mut run = Run { way, dead: vec![dead], ..run.clone() };
        assert_eq!(run.make(call, n), expected, "{way:?} with {dead} dead up to {n} stores of {call:?}");
        assert!(run.image == image, "{way:?}: the image with {dead} dead up to {n} stores of {call:?}");
        run
    })
}

/// The address of each of some stores is dead, in turn, with n just before the store that fails, at it and behind it.
pub fn fail_at(run: &Run, call: &Call, count: usize, numbers: fn(&Stores, &mut Random) -> Vec<usize>) {
    once(|r| {
        let list = run.stores(call).expect("an accepted call");
        assert_eq!(list.len(), count);
        let (mut failed, mut started) = (0, 0);
        for number in numbers(&list, r) {
            let Some(Store::Program(at, page)) = list.get(number) else { continue };
            let at = at + r.below(page.bytes().len());
            let (_, failing) = one_by_one(&list, &run.image, count, &[at as u32]);
            let failing = failing.unwrap_or(number) as u64;
            for n in [failing.saturating_sub(1), failing, failing + 1] {
                fail(run, call, &list, at as u32, n);
            }
            for mut run in fail(run, call, &list, at as u32, u64::MAX) {
                failed += 1;
                started += usize::from(run.recover_worn() != WORN);
            }
        }
        println!("{failed} calls, {started} start-ups done with the dead byte");
    });
}
