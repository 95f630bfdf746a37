//! A station: an image and a session in one implementation, to which a test makes its calls. A test adds calls of its own in an `impl` beside its cases.

use super::book::Book;
use super::generate::{Name, BLOCK};
use varstore::calls::{lent, Calls, BOTH};
use varstore::engine;
use varstore::interface::{Answer, Context, Key, Reply, Request, Rule, Session, Setting, Setup, OURS, RUNTIME};
use varstore::paper::entry::{self, Contents, STATE};
use varstore::paper::layout::Authenticated;
use varstore::paper::region;

#[derive(Clone)]
pub struct Station {
    pub calls: Calls,
    pub session: Session,
    pub image: Vec<u8>,
    /// What sets say of themselves.
    pub presence: u32,
    pub verdict: u32,
    /// Who asks.
    pub side: u32,
}

/// Runs a case on an empty store of b = 1, with a session that was given nothing, in each implementation.
pub fn each(case: impl Fn(Station)) {
    with_space(0, case);
}

/// The same with so many bytes for records.
pub fn with_space(records: u32, case: impl Fn(Station)) {
    with_setup(&Setup::PLAIN.with_records(records), case);
}

/// The same in the session of a setup.
pub fn with_setup(setup: &Setup, case: impl Fn(Station)) {
    for calls in BOTH {
        println!("implementation: {}", calls.who);
        case(Station::formatted(calls, setup, 1));
    }
}

/// Key, state, attributes, stamp and data.
pub type Laid<'a> = (Key<'a>, u8, u32, &'a [u8; 16], &'a [u8]);

/// A region of entries in any state, in an image of one block.
pub fn image(entries: &[Laid]) -> Vec<u8> {
    let mut bytes = region::header::<Authenticated>(BLOCK).to_vec();
    for (key, state, attributes, stamp, data) in entries {
        let at = bytes.len();
        entry::write::<Authenticated>(&mut bytes, *key, &Contents { attributes: *attributes, stamp, old: data, new: &[] });
        bytes[at + STATE] = *state;
    }
    bytes.resize(3 * BLOCK, 0xFF);
    bytes
}

impl Station {
    /// In the fresh session of a setup.
    pub fn new(calls: Calls, setup: &Setup, image: Vec<u8>) -> Station {
        Station { calls, session: (calls.session_new)(setup), image, presence: 0, verdict: 0, side: OURS }
    }

    /// On a store of so many blocks that was just formatted: each block is erased, and the header has 28 bytes.
    pub fn formatted(calls: Calls, setup: &Setup, blocks: usize) -> Station {
        let mut station = Station::new(calls, setup, vec![0; (2 * blocks + 1) * BLOCK]);
        assert_eq!((calls.format)(Context::NO_LIMIT, &mut station.image), Answer::Done(2 * blocks as u64 + 1 + 28));
        station
    }

    fn context(&self) -> Context {
        Context::NO_LIMIT.by(self.side)
    }

    /// The lock is listed where it is accepted.
    pub fn lock(&mut self, key: Key) -> Answer {
        let listed = (self.calls.lock)(self.session, self.side, key);
        self.session = listed.session;
        listed.answer
    }

    fn request<'a>(&self, key: Key<'a>, attributes: u32, data: &'a [u8]) -> Request<'a> {
        Request { key, attributes, data, presence: self.presence, verdict: self.verdict }
    }

    /// What is planned has the same answer, and a refused call changes nothing.
    pub fn set(&mut self, key: Key, attributes: u32, data: &[u8]) -> Answer {
        let request = self.request(key, attributes, data);
        let planned = lent(|content| engine::plan_set(&self.session, self.side, &self.image, &request, content).map(|plan| plan.count(1) as u64));
        let before = self.image.clone();
        let answer = (self.calls.set)(self.context(), &self.session, &mut self.image, &request);
        assert_eq!(planned.map_or_else(Answer::Refused, Answer::Done), answer, "planned: {attributes:#X}, {} bytes, {key:X?}", data.len());
        assert!(!matches!(answer, Answer::Refused(_)) || self.image == before, "a refused set has changed the image");
        answer
    }

    /// Stopped by n, or failing at a dead address.
    pub fn set_in(&mut self, context: Context, key: Key, attributes: u32, data: &[u8]) -> Answer {
        let request = self.request(key, attributes, data);
        (self.calls.set)(context.by(self.side), &self.session, &mut self.image, &request)
    }

    /// What is planned has the same answer, by value and lent, and a refused profile changes nothing.
    pub fn profile(&mut self, file: &[u8]) -> Answer {
        let before = self.image.clone();
        let answer = (self.calls.profile)(self.context(), &self.session, &mut self.image, file);
        for plan in [engine::plan_profile, engine::lent::plan_profile] {
            let planned = lent(|content| plan(&self.session, self.side, &before, file, content).map(|plan| plan.count(1) as u64));
            assert_eq!(
                planned.map_or_else(Answer::Refused, Answer::Done),
                answer,
                "planned: {} bytes, {:02X?}",
                file.len(),
                &file[..file.len().min(64)]
            );
        }
        assert!(!matches!(answer, Answer::Refused(_)) || self.image == before, "a refused profile has changed the image");
        answer
    }

    /// The answer, where the store keeps what it has.
    pub fn profiled(&self, file: &[u8]) -> Answer {
        self.clone().profile(file)
    }

    /// What is planned has the same answer, by value and lent, and a refused mode request changes nothing.
    pub fn mode(&mut self, to: u32) -> Answer {
        let before = self.image.clone();
        let answer = (self.calls.mode)(self.context(), &self.session, &mut self.image, to);
        for plan in [engine::plan_mode, engine::lent::plan_mode] {
            let planned = lent(|content| plan(&self.session, self.side, &before, to, content).map(|plan| plan.count(1) as u64));
            assert_eq!(planned.map_or_else(Answer::Refused, Answer::Done), answer, "planned: to {to}");
        }
        assert!(!matches!(answer, Answer::Refused(_)) || self.image == before, "a refused mode request has changed the image");
        answer
    }

    /// The answer, where the store keeps what it has.
    pub fn asked_mode(&self, to: u32) -> Answer {
        self.clone().mode(to)
    }

    /// The mode that the image says.
    pub fn present(&self) -> u32 {
        let platform = (self.calls.present_mode)(&self.image);
        assert_eq!(platform.answer, Answer::Done(0));
        platform.mode
    }

    /// The names and data of all values, in flash order.
    pub fn list(&self) -> Vec<(Name, Vec<u8>)> {
        Book::of(&self.image).values.into_iter().map(|value| (value.name, value.data)).collect()
    }

    /// Whether the values are these.
    pub fn holds(&self, values: &[(Key, &[u8])]) -> bool {
        self.list().iter().map(|(name, data)| (name.key(), &data[..])).eq(values.iter().copied())
    }

    pub fn given(&self, setup: Setup) -> Station {
        Station { session: Session { setup, ..self.session }, ..self.clone() }
    }

    pub fn delete(&mut self, key: Key) -> Answer {
        self.set(key, 0, &[])
    }

    /// The answer, where the store keeps what it has.
    pub fn asked(&self, key: Key, attributes: u32, data: &[u8]) -> Answer {
        self.clone().set(key, attributes, data)
    }

    /// Whether a set is accepted that stores an entry: the store keeps what it has.
    pub fn would_store(&self, key: Key, attributes: u32, data: &[u8]) -> Result<(), Rule> {
        match self.asked(key, attributes, data) {
            Answer::Done(1..) => Ok(()),
            Answer::Refused(rule) => Err(rule),
            other => panic!("{other:?} for {attributes:#X}, {} bytes, {key:X?}", data.len()),
        }
    }

    pub fn get(&self, key: Key) -> (Reply, Vec<u8>) {
        let mut buffer = vec![0; 2048];
        let reply = (self.calls.get)(self.context(), &self.session, &self.image, key, &mut buffer);
        buffer.truncate(reply.size as usize);
        (reply, buffer)
    }

    /// The data and the stamp that a name's value has in the image.
    pub fn value(&self, key: Key) -> Option<Vec<u8>> {
        Book::of(&self.image).values.into_iter().find(|value| value.name.key() == key).map(|value| value.data)
    }

    pub fn stamp(&self, key: Key) -> [u8; 16] {
        Book::of(&self.image).values.iter().find(|value| value.name.key() == key).expect("a value").stamp
    }

    pub fn tail(&self) -> usize {
        (self.calls.check)(&self.image).tail as usize
    }

    /// The session is that of the start-up from here on.
    pub fn start_up(&mut self, setup: &Setup) -> Answer {
        let started = (self.calls.start_up)(Context::NO_LIMIT, &mut self.image, setup);
        self.session = started.session;
        started.answer
    }

    /// The same store in a session with another H, and the rest of L for others; at runtime with a reserve, with rules for settings, in another phase, or asked by a
    /// side.
    pub fn with_h(&self, records: u32) -> Station {
        let mut station = self.clone();
        station.session.setup = Setup { share: Setup::alone(self.image.len()).share, ..self.session.setup }.with_records(records);
        station
    }

    pub fn by(&self, side: u32) -> Station {
        Station { side, ..self.clone() }
    }

    pub fn at_runtime(&self, reserve: u32) -> Station {
        let mut station = self.clone();
        station.session.setup.reserve = reserve;
        station.in_phase(RUNTIME)
    }

    pub fn ruled(&self, rules: &[Setting]) -> Station {
        let mut station = self.clone();
        station.session.setup = station.session.setup.ruled(rules);
        station
    }

    pub fn in_phase(&self, phase: u32) -> Station {
        Station { session: (self.calls.phase)(self.session, phase), ..self.clone() }
    }
}
