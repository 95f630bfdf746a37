//! 02 (m), "A season tried on the desk": a script played on an empty image, with a line for each step.

use std::fmt::Write;

use super::calls::{format, set, set_stores, start_up, start_up_stores};
use super::image::{Parts, BLOCK};
use super::layout::Authenticated;
use super::profiles::Rest;
use super::region::walk;
use super::session::session_new;
use super::stores::{Store, Stores};
use crate::interface::{Answer, Context, Request, Rule, Session, Setup, OURS};

/// "a script of at most 65,536 bytes".
const LONGEST: usize = 65_536;
/// "the number of steps, up to 500".
const STEPS: usize = 500;
/// "w 1".
const WIDTH: usize = 1;

/// The set that a step asks for, which deletes where its data are empty; and the n of one that is cut.
struct Step<'a> {
    request: Request<'a>,
    cut: Option<u64>,
}

/// "It holds b (1 to 7), the number of steps, up to 500, then each step". None if it is not of this form, passes a limit or leaves bytes over.
fn read(script: &[u8]) -> Option<(usize, Vec<Step<'_>>)> {
    let mut rest = Rest((script.len() <= LONGEST).then_some(script)?);
    let blocks = rest.number().filter(|b| (1..=7).contains(b))?;
    let count = rest.number().filter(|count| *count <= STEPS)?;
    let steps = (0..count).map(|_| step(&mut rest)).collect::<Option<_>>()?;
    rest.0.is_empty().then_some((blocks, steps))
}

/// "its kind (0 set, 1 delete, 2 a set cut after n whole stores and followed by a start-up), for kind 2 the n, and the fields of one profile item, its data empty for kind 1".
fn step<'a>(rest: &mut Rest<'a>) -> Option<Step<'a>> {
    let kind = rest.number().filter(|kind| *kind <= 2)?;
    let cut = if kind == 2 { Some(rest.number()? as u64) } else { None };
    let request = rest.item()?;
    (kind != 1 || request.data.is_empty()).then_some(Step { request, cut })
}

/// What is played on, and the erases so far.
struct Desk {
    image: Vec<u8>,
    setup: Setup,
    session: Session,
    erases: usize,
}

impl Desk {
    /// "run against an empty image, our share L less 28, the rest of the session 0".
    fn new(blocks: usize) -> Desk {
        let mut image = vec![0; BLOCK * (2 * blocks + 1)];
        assert_eq!(format(Context::NO_LIMIT, &mut image), Answer::Done(2 * blocks as u64 + 1 + 28));
        let setup = Setup::alone(image.len());
        Desk { image, setup, session: session_new(&setup), erases: 0 }
    }

    /// The first n stores of a list, or all of a shorter one; its erases are counted.
    fn listed(&mut self, list: Result<Stores, Rule>, n: u64) -> u64 {
        let Ok(list) = list else { return 0 };
        let made = n.min(list.len() as u64);
        self.erases += list.iter().take(made as usize).filter(|store| matches!(store, Store::Erase(_))).count();
        made
    }

    /// The set's answer, and the step's stores, a start-up's among them: it comes after every set that is cut, whatever the answer.
    fn play(&mut self, step: &Step) -> (Answer, u64) {
        let n = step.cut.unwrap_or(u64::MAX);
        let list = set_stores(WIDTH, OURS, &self.session, &self.image, &step.request);
        let mut stores = self.listed(list, n);
        let answer = set(Context { limit: n, ..Context::NO_LIMIT }, &self.session, &mut self.image, &step.request);
        if step.cut.is_some() {
            let list = start_up_stores(WIDTH, &self.image, &self.setup);
            stores += self.listed(list, u64::MAX);
            start_up(Context::NO_LIMIT, &mut self.image, &self.setup);
        }
        (answer, stores)
    }

    fn tail(&self) -> usize {
        let mut walk = walk::<Authenticated>(Parts::of(&self.image).expect("a right length").region);
        walk.by_ref().for_each(drop);
        walk.at
    }
}

/// What is printed: of each step "`done`, `stopped` or `refused` and its number, then in decimal the step's stores, a start-up's among them, tail offset, and erases so far";
/// of what is no script "only `refused 27`".
pub fn season(script: &[u8]) -> String {
    let Some((blocks, steps)) = read(script) else { return format!("refused {}\n", Rule::Script.number()) };
    let (mut desk, mut text) = (Desk::new(blocks), String::new());
    for step in &steps {
        let (answer, stores) = desk.play(step);
        let word = match answer {
            Answer::Done(_) => "done".into(),
            Answer::Stopped => "stopped".into(),
            Answer::Refused(rule) => format!("refused {}", rule.number()),
        };
        writeln!(text, "{word} {stores} {} {}", desk.tail(), desk.erases).expect("a string takes all");
    }
    text
}
