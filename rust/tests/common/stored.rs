//! The calls that may store: by the paper, by the engine, and as the engine plans them.

use std::ops::Range;

use super::book::Book;
use super::generate::Asked;
use super::profiles::{self, Profile};
use super::tenants::admitting;
use varstore::calls::Calls;
use varstore::engine;
use varstore::interface::{Answer, Context, Rule, Session, Setup};
use varstore::paper::{self, Made, Store, Stores};
use varstore::plan::{Content, Operation, Plan};

#[derive(Clone, Debug)]
pub enum Call {
    Set(Asked),
    Profile(Profile),
    Mode {
        to: u32,
        side: u32,
    },
    StartUp(Setup),
    /// A start-up that is given what admits the values that it finds.
    Restart,
    Format,
}

impl Call {
    /// What a start-up is given on an image.
    pub fn setup(&self, image: &[u8]) -> Option<Setup> {
        match self {
            Call::StartUp(setup) => Some(*setup),
            Call::Restart => Some(admitting(image)),
            Call::Set(_) | Call::Profile(_) | Call::Mode { .. } | Call::Format => None,
        }
    }

    /// In a word.
    pub fn what(&self) -> &'static str {
        match self {
            Call::Set(_) => "set",
            Call::Profile(_) => "profile",
            Call::Mode { .. } => "mode",
            Call::StartUp(_) | Call::Restart => "start-up",
            Call::Format => "format",
        }
    }

    /// The book takes the call, which is done or decided.
    pub fn feed(&self, book: &mut Book) {
        match self {
            Call::Mode { to, .. } => book.mode(*to),
            _ => self.sets().iter().for_each(|asked| book.set(&asked.request())),
        }
    }

    /// The sets that it takes, in their order.
    pub fn sets(&self) -> Vec<Asked> {
        match self {
            Call::Set(asked) => vec![asked.clone()],
            Call::Profile(profile) => profiles::items(&profile.file).expect("a profile that is accepted has items"),
            _ => vec![],
        }
    }

    /// The paper's list of stores of w bytes.
    pub fn stores(&self, w: usize, session: &Session, image: &[u8]) -> Result<Stores, Rule> {
        match (self, self.setup(image)) {
            (_, Some(setup)) => paper::start_up_stores(w, image, &setup),
            (Call::Set(asked), _) => paper::set_stores(w, asked.side, session, image, &asked.request()),
            (Call::Profile(profile), _) => paper::profile_stores(w, profile.side, session, image, &profile.file),
            (Call::Mode { to, side }, _) => paper::mode_stores(w, *side, session, image, *to),
            _ => paper::format_stores(w, image),
        }
    }

    /// By an implementation: the answer, and the session after it.
    pub fn by(&self, calls: &Calls, context: Context, session: &Session, image: &mut [u8]) -> (Answer, Session) {
        match (self, self.setup(image)) {
            (_, Some(setup)) => {
                let started = (calls.start_up)(context, image, &setup);
                (started.answer, started.session)
            }
            (Call::Set(asked), _) => ((calls.set)(context.by(asked.side), session, image, &asked.request()), *session),
            (Call::Profile(profile), _) => ((calls.profile)(context.by(profile.side), session, image, &profile.file), *session),
            (Call::Mode { to, side }, _) => ((calls.mode)(context.by(*side), session, image, *to), *session),
            _ => ((calls.format)(context, image), *session),
        }
    }

    /// By the engine, with a content of the test's own.
    pub fn by_engine(&self, context: Context, session: &Session, image: &mut [u8], content: &mut Content) -> (Answer, Session) {
        match (self, self.setup(image)) {
            (_, Some(setup)) => {
                let started = engine::start_up(context, image, &setup, content);
                (started.answer, started.session)
            }
            (Call::Set(asked), _) => (engine::set(context.by(asked.side), session, image, &asked.request(), content), *session),
            (Call::Profile(profile), _) => (engine::profile(context.by(profile.side), session, image, &profile.file, content), *session),
            (Call::Mode { to, side }, _) => (engine::mode(context.by(*side), session, image, *to, content), *session),
            _ => (engine::format(context, image, content), *session),
        }
    }

    /// The engine's plan.
    pub fn plan(&self, session: &Session, image: &[u8], content: &mut Content) -> Result<Plan, Rule> {
        match (self, self.setup(image)) {
            (_, Some(setup)) => engine::plan_start_up(image, &setup, content),
            (Call::Set(asked), _) => engine::plan_set(session, asked.side, image, &asked.request(), content),
            (Call::Profile(profile), _) => engine::plan_profile(session, profile.side, image, &profile.file, content),
            (Call::Mode { to, side }, _) => engine::plan_mode(session, *side, image, *to, content),
            _ => engine::plan_format(image, content),
        }
    }

    /// The session of a host that has planned the call on an image: a start-up's is a new one.
    pub fn planned_session(&self, session: &Session, image: &[u8]) -> Session {
        self.setup(image).map_or(*session, |setup| engine::session_new(&setup))
    }
}

/// A host carries out the first n stores of a plan on its part, page by page, and reads each back: where it is not what was stored, the host goes no further. No
/// store asks a cleared bit to rise.
pub fn carry_out(plan: &Plan, content: &Content, context: &Context, part: &mut [u8]) -> Made {
    let (w, dead) = (paper::width(context), paper::dead(context));
    let first = usize::try_from(context.limit).unwrap_or(usize::MAX);
    let mut made = Made { stores: 0, failed: false };
    for operation in plan.operations {
        let count = operation.stores(w).min(first - made.stores);
        let failing = match front(operation, count, w) {
            Some((at, values)) if dead.is_empty() => at_once(at, &content[values], part),
            _ => (0..count).position(|index| !stored(operation.store(w, index, content), dead, part)),
        };
        made.stores += failing.unwrap_or(count);
        made.failed = failing.is_some();
        if made.failed {
            break;
        }
    }
    made
}

/// What the first stores of a program hold together, where they are all or single bytes: an offset of the part, and the content's bytes.
fn front(operation: Operation, count: usize, w: usize) -> Option<(usize, Range<usize>)> {
    match operation {
        Operation::Program { at, from, len } if count == operation.stores(w) => Some((at, from..from + len)),
        Operation::Program { at, from, .. } if w == 1 => Some((at, from..from + count)),
        _ => None,
    }
}

/// Stores of which none can fail, made at once: there are many.
fn at_once(at: usize, values: &[u8], part: &mut [u8]) -> Option<usize> {
    let bytes = &mut part[at..][..values.len()];
    let rises = bytes.iter().zip(values).fold(0, |rises, (byte, value)| rises | value & !byte);
    assert!(rises == 0, "a bit would rise in {} bytes at {at}", values.len());
    bytes.copy_from_slice(values);
    None
}

/// One store on a part, which only clears bits and erases blocks. Where a dead byte would have to clear one, the whole store changes nothing. Whether it reads
/// back as it was to be.
fn stored(store: Store, dead: &[u32], part: &mut [u8]) -> bool {
    if let Store::Program(at, page) = store {
        let bytes = &part[at..][..page.bytes().len()];
        let rises = bytes.iter().zip(page.bytes()).any(|(byte, value)| value & !byte != 0);
        assert!(!rises, "at {at} {bytes:02X?} would become {page:02X?}");
        let changed = |address: u32| (address as usize).checked_sub(at).is_some_and(|k| bytes.get(k) != page.bytes().get(k));
        if dead.iter().any(|&address| changed(address)) {
            return false;
        }
    }
    store.make(part);
    true
}
