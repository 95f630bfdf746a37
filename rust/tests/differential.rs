//! The paper's implementation against the engine: the same random, boundary and damaged images, sessions and arguments go to both, and answer, size,
//! attributes, needed, the whole buffer, the session and the whole image have to agree after every call. So have the stores of the engine's plans and the
//! paper's lists, and what is left of the image when a host carries a plan out.
//!
//! Every round has a seed of its own, which a failure prints: `SEED=n cargo test --release --test differential` begins with that round.
//! `SOAK` is the time of each test in seconds, 4 by default.

mod common;

use std::collections::BTreeMap;

use common::book::Book;
use common::cases::S;
use common::cuts::places;
use common::generate::{self, Asked, Name, BLOCK};
use common::modes::{self, deed, mode_of, DEEDS};
use common::profiles::Profile;
use common::random::Random;
use common::settings::{check_broken, check_kept, is_ruled};
use common::stored::{carry_out, Call};
use common::tenants::admitting;
use common::{same_bytes, stamped, A, AUTUMN, RATE, RECORD, RECORDS};
use varstore::calls::{Read, ENGINE, PAPER};
use varstore::interface::{Answer, Context, Reply, Rule, Session, Setup, Tenant, MODEM, OURS};
use varstore::paper;
use varstore::paper::layout::Authenticated;
use varstore::paper::request::{DB, KEK};
use varstore::plan::{Content, Operation, Plan};

/// What a call finds in its content: nothing that it may rely on.
const GARBAGE: [Content; 2] = [[0xA5; size_of::<Content>()], [0; size_of::<Content>()]];

/// What breaks a rule of 02 (e).
const BREACHES: [&str; 7] = ["read-only", "smallest size", "largest size", "width", "place", "list", "range"];

/// How often each call has given each answer.
type Tally = BTreeMap<(&'static str, String), usize>;

/// A current image and session, which every call leaves as both implementations left them, and the dead addresses, the width and the side that go with a call.
struct Pair<'t> {
    image: Vec<u8>,
    session: Session,
    dead: Vec<u32>,
    width: u32,
    /// Who asks, where the call is no set.
    side: u32,
    tally: &'t mut Tally,
}

impl<'t> Pair<'t> {
    fn new(image: Vec<u8>, session: Session, tally: &'t mut Tally) -> Pair<'t> {
        Pair { image, session, dead: vec![], width: 1, side: OURS, tally }
    }

    fn context(&self, limit: u64) -> Context {
        Context::worn(limit, &self.dead).paged(self.width).by(self.side)
    }

    /// What the width counts as.
    fn w(&self) -> usize {
        paper::width(&self.context(0))
    }

    fn count(&mut self, call: &'static str, answer: Answer) {
        let kind = match answer {
            Answer::Done(0) => "done without stores".into(),
            Answer::Done(_) => "done".into(),
            Answer::Stopped => "stopped".into(),
            Answer::Refused(rule) => format!("refused {}", rule.number()),
        };
        *self.tally.entry((call, kind)).or_default() += 1;
    }

    fn check(&mut self) {
        let (ours, theirs) = ((PAPER.check)(&self.image), (ENGINE.check)(&self.image));
        assert_eq!(ours, theirs, "check");
        self.count("check", ours.answer);
        self.present_mode();
    }

    /// The mode that the image says is that of its values; of one that is refused none is told.
    fn present_mode(&mut self) {
        let (ours, theirs) = ((PAPER.present_mode)(&self.image), (ENGINE.present_mode)(&self.image));
        assert_eq!(ours, theirs, "mode");
        let mode = match ours.answer {
            Answer::Done(_) => mode_of(&Book::of(&self.image).values),
            _ => 0,
        };
        assert_eq!((ours.answer, ours.mode), ((PAPER.check)(&self.image).answer, mode), "mode");
        if ours.answer == Answer::Done(0) {
            *self.tally.entry(("present", mode.to_string())).or_default() += 1;
        }
    }

    fn get(&mut self, name: &Name, limit: u64, buffer: &[u8]) -> Reply {
        self.read("get", PAPER.get, ENGINE.get, name, limit, buffer).0
    }

    /// Gives the buffer too.
    fn next_name(&mut self, name: &Name, limit: u64, buffer: &[u8]) -> (Reply, Vec<u8>) {
        self.read("next", PAPER.next_name, ENGINE.next_name, name, limit, buffer)
    }

    fn read(&mut self, what: &'static str, ours: Read, theirs: Read, name: &Name, limit: u64, buffer: &[u8]) -> (Reply, Vec<u8>) {
        let (mut first, mut second) = (buffer.to_vec(), buffer.to_vec());
        let context = self.context(limit);
        let reply = ours(context, &self.session, &self.image, name.key(), &mut first);
        let other = theirs(context, &self.session, &self.image, name.key(), &mut second);
        assert_eq!(reply, other, "{what} of {name:X?} with a buffer of {}", buffer.len());
        same_bytes("buffer", &first, &second);
        self.count(what, reply.answer);
        (reply, first)
    }

    /// A call that may store, with a content full of other bytes than it needs. Where nothing limits it, its plan is looked at too.
    fn store(&mut self, what: &'static str, call: &Call, limit: u64) -> Answer {
        let (before, context) = (self.image.clone(), self.context(limit));
        let (ours, session) = call.by(&PAPER, context, &self.session, &mut self.image);
        for garbage in GARBAGE {
            let (mut content, mut other) = (garbage, before.clone());
            let (theirs, their_session) = call.by_engine(context, &self.session, &mut other, &mut content);
            assert_eq!(ours, theirs, "{what} with {context:?} in phase {}: {call:?}", self.session.phase);
            same_session(&session, &their_session);
            same_bytes(&format!("image after {what}"), &self.image, &other);
            assert!(!matches!(ours, Answer::Refused(rule) if rule != Rule::Worn) || content == garbage, "the content of a refused {what}");
            if limit < u64::MAX {
                break;
            }
            self.plan(what, call, &before, garbage);
        }
        self.session = session;
        self.count(what, ours);
        ours
    }

    /// The engine's plan of a call on the image before it: rule, stores and deciding store are the paper's, and carried out on a part of the same width and
    /// dead bytes they leave the image that the call left. A refused call keeps the content.
    fn plan(&mut self, what: &'static str, call: &Call, before: &[u8], garbage: Content) {
        let mut content = garbage;
        let w = self.w();
        let plan = match (call.plan(&self.session, before, &mut content), call.stores(w, &self.session, before)) {
            (Ok(plan), Ok(list)) => {
                assert_eq!((plan.count(w), plan.deciding_store(w)), (list.len(), list.deciding()), "stores and the deciding one of {what}: {call:?}");
                assert!(plan.stores(w, &content).eq(list.iter()), "the stores of {what}: {call:?}");
                plan
            }
            (Err(theirs), Err(ours)) => {
                assert_eq!(ours, theirs, "rule of {what}: {call:?}");
                assert!(content == garbage, "the content of a refused plan of {what}");
                return *self.tally.entry(("plan", format!("{what} refused"))).or_default() += 1;
            }
            (theirs, ours) => panic!("{what} is planned {theirs:?}, and has {:?} stores: {call:?}", ours.map(|list| list.len())),
        };
        let mut part = before.to_vec();
        let made = carry_out(&plan, &content, &self.context(u64::MAX), &mut part);
        same_bytes("image after the plan", &self.image, &part);
        let deeds = if made.failed { "fails" } else { deeds(&plan) };
        *self.tally.entry(("plan", format!("{what} that {deeds}"))).or_default() += 1;
    }

    /// Another chip from here on, with an eye to the next call: any width, and dead addresses, none most often.
    fn other_chip(&mut self, r: &mut Random, next: &Call) {
        self.width = generate::width(r);
        self.dead.clear();
        if r.once_in(3) {
            let list = next.stores(self.w(), &self.session, &self.image).ok();
            self.dead = generate::dead(r, list.as_ref(), self.image.len());
        }
    }

    /// Another H and other shares from here on, once in some times, with an eye to the next set.
    fn other_space(&mut self, r: &mut Random, next: &Asked) {
        if r.once_in(3) {
            generate::room_for(r, &mut self.session, &self.image, next);
        }
    }

    /// Another side from here on, with an eye to a name.
    fn other_side(&mut self, r: &mut Random, name: &Name) {
        self.side = generate::side(r, &self.session.setup, name.key());
    }

    /// Other rules from here on, once in some times, with an eye to the next set; or none.
    fn other_rules(&mut self, r: &mut Random, next: &Asked) {
        match r.below(4) {
            0 => self.session.setup = self.session.setup.ruled(&generate::rules_for(r, &self.image, next)),
            1 => self.session.setup.rules = 0,
            _ => {}
        }
    }

    fn set(&mut self, asked: &Asked, limit: u64) -> Answer {
        let before = self.image.clone();
        let answer = self.store("set", &Call::Set(asked.clone()), limit);
        match answer {
            Answer::Done(_) => {
                check_kept(&self.session, &asked.request(), &Book::of(&self.image));
                if is_ruled(&self.session, asked.name.key()) {
                    self.count("set within its rules", answer);
                }
            }
            Answer::Refused(Rule::Setting) => {
                for thing in check_broken(&self.session, asked, &Book::of(&before)) {
                    *self.tally.entry(("rule 21", thing)).or_default() += 1;
                }
            }
            _ => {}
        }
        if asked.name.vendor == RECORDS && asked.attributes & 0x08 != 0 {
            self.count("set of a record", answer);
        }
        if asked.side == MODEM {
            self.count("set by the modem", answer);
        }
        answer
    }

    /// One that is done leaves the values that its items leave as sets, none of which breaks a rule.
    fn profile(&mut self, profile: &Profile, limit: u64) -> Answer {
        let (before, call) = (self.image.clone(), Call::Profile(profile.clone()));
        let answer = self.store("profile", &call, limit);
        if let Answer::Done(_) = answer {
            let (mut book, sets) = (Book::of(&before), call.sets());
            sets.iter().for_each(|asked| book.set(&asked.request()));
            assert!(Book::of(&self.image) == book, "the values after {profile:?}");
            sets.iter().for_each(|asked| check_kept(&self.session, &asked.request(), &book));
            if sets.iter().any(|asked| is_ruled(&self.session, asked.name.key())) {
                self.count("profile within its rules", answer);
            }
        }
        if profile.side == MODEM {
            self.count("profile by the modem", answer);
        }
        answer
    }

    /// A mode request, or a set or delete of PK. One that is done leaves the values that the book has, in its order.
    fn change(&mut self, call: &Call, limit: u64) -> Answer {
        let before = self.image.clone();
        let answer = self.store(call.what(), call, limit);
        if let Answer::Done(_) = answer {
            let (mut book, before) = (Book::of(&before), Book::of(&before));
            call.feed(&mut book);
            assert!(Book::of(&self.image) == book, "the values after {call:?}");
            if let Some(deed) = deed(call, &before, &book) {
                *self.tally.entry(("change", deed.into())).or_default() += 1;
            }
        }
        self.present_mode();
        answer
    }

    fn change_with_stops(&mut self, r: &mut Random, call: &Call) {
        self.store_with_stops(r, call.what(), call);
        self.change(call, u64::MAX);
    }

    /// Another phase, room and rules from here on, once in some times, with an eye to the next profile.
    fn other_terms(&mut self, r: &mut Random, next: &Profile) {
        if r.once_in(2) {
            self.session.phase = r.pick(&[0, 0, 1, 2]);
            self.session.count = r.pick(&[0, 0, 2]);
        }
        if !r.once_in(3) {
            generate::room_for_items(r, &mut self.session, &self.image, next);
        }
        match r.below(4) {
            0 => self.session.setup = self.session.setup.ruled(&generate::rules_for_items(r, &self.image, next)),
            1 => {}
            _ => self.session.setup.rules = 0,
        }
    }

    fn format(&mut self, limit: u64) {
        self.store("format", &Call::Format, limit);
    }

    fn start_up(&mut self, limit: u64, setup: Setup) -> Answer {
        self.store("startup", &Call::StartUp(setup), limit)
    }

    fn lock(&mut self, name: &Name) {
        let (ours, theirs) = ((PAPER.lock)(self.session, self.side, name.key()), (ENGINE.lock)(self.session, self.side, name.key()));
        assert_eq!(ours.answer, theirs.answer, "lock of {name:X?}");
        same_session(&ours.session, &theirs.session);
        self.session = ours.session;
        self.count("lock", ours.answer);
    }

    fn phase(&mut self, to: u32) {
        let (ours, theirs) = ((PAPER.phase)(self.session, to), (ENGINE.phase)(self.session, to));
        same_session(&ours, &theirs);
        self.session = ours;
    }

    /// The set's answer and image for every n of a short list, and for those around its turning points of a long one; then with other widths and some bytes dead.
    fn set_with_stops(&mut self, r: &mut Random, asked: &Asked) {
        self.store_with_stops(r, "set", &Call::Set(asked.clone()));
        self.set(asked, u64::MAX);
    }

    fn profile_with_stops(&mut self, r: &mut Random, profile: &Profile) {
        self.store_with_stops(r, "profile", &Call::Profile(profile.clone()));
        self.profile(profile, u64::MAX);
    }

    fn start_up_with_stops(&mut self, r: &mut Random) {
        self.store_with_stops(r, "startup", &Call::Restart);
        self.start_up(u64::MAX, Setup { custom: 1, reserve: 100, ..admitting(&self.image) });
    }

    /// Leaves the image as before, and a chip that stores bytes, none of them dead.
    fn store_with_stops(&mut self, r: &mut Random, what: &'static str, call: &Call) {
        let (before, session) = (self.image.clone(), self.session);
        let tried = |pair: &mut Self, limit| {
            pair.image.copy_from_slice(&before);
            pair.session = session;
            pair.store(what, call, limit);
        };
        for width in [1, r.pick(&[2, 4, 8, 16])] {
            self.width = width;
            let Ok(list) = call.stores(self.w(), &session, &before) else { break };
            limits(r, &list).into_iter().for_each(|limit| tried(self, limit));
            for _ in 0..3 {
                self.dead = generate::dead(r, Some(&list), before.len());
                let made = list.make_worn(u64::MAX, paper::dead(&self.context(0)), &mut before.clone()).stores as u64;
                [made.saturating_sub(1), made, made + 1, u64::MAX].into_iter().for_each(|limit| tried(self, limit));
            }
            self.dead.clear();
        }
        self.width = 1;
        self.image.copy_from_slice(&before);
        self.session = session;
    }
}

/// What a plan does, by the kinds of its operations.
fn deeds(plan: &Plan) -> &'static str {
    let any = |kind: fn(&Operation) -> bool| plan.operations.iter().any(kind);
    let programs = any(|operation| matches!(operation, Operation::Program { .. }));
    let erases = any(|operation| matches!(operation, Operation::Erase { .. }));
    match (programs, erases) {
        (true, true) => "programs and erases",
        (true, false) => "programs",
        (false, true) => "erases",
        (false, false) if plan.count(1) > 0 => "marks",
        (false, false) => "does nothing",
    }
}

fn limits(r: &mut Random, list: &paper::Stores) -> Vec<u64> {
    places(list, 701, r).into_iter().chain([list.len() + 1]).map(|limit| limit as u64).collect()
}

fn same_session(ours: &Session, theirs: &Session) {
    let numbers = |session: &Session| (session.phase, session.setup, session.count, session.sizes);
    assert_eq!(numbers(ours), numbers(theirs), "session");
    same_bytes("lock list", &ours.locks, &theirs.locks);
}

/// Runs a round again and again, so many times at least, with 4 seconds for it.
fn rounds(least: u64, round: fn(&mut Random, &mut Tally)) -> Tally {
    let mut tally = Tally::new();
    let rounds = common::rounds::rounds(4, least, |r| round(r, &mut tally));
    let calls: usize = tally.values().sum();
    println!("{calls} calls in {rounds} rounds: {tally:?}");
    tally
}

fn expect_seen(tally: &Tally, call: &'static str, kinds: &[&str]) {
    for kind in kinds {
        assert!(tally.contains_key(&(call, kind.to_string())), "no {call} was {kind}");
    }
}

fn buffer(r: &mut Random, needed: usize) -> Vec<u8> {
    let length = r.pick(&[needed.saturating_sub(1), needed, needed + 1, 0, 2048]);
    vec![r.byte(); length]
}

fn limit(r: &mut Random) -> u64 {
    match r.below(4) {
        0 => r.pick(&[0, 1, 2, 59, 60, 75, 4096, 8197, 1 << 32, (1 << 32) + 75]),
        1 => r.below(9000) as u64,
        _ => u64::MAX,
    }
}

/// A get with a buffer around the size that is needed.
fn random_get(pair: &mut Pair, r: &mut Random) {
    let name = generate::name(r);
    pair.other_side(r, &name);
    let needed = pair.get(&name, 0, &[]).needed as usize;
    let buffer = buffer(r, needed);
    pair.get(&name, limit(r), &buffer);
}

fn random_next(pair: &mut Pair, r: &mut Random) {
    let name = generate::name(r);
    pair.other_side(r, &name);
    let needed = pair.next_name(&name, 0, &[]).0.needed as usize;
    let buffer = buffer(r, needed);
    pair.next_name(&name, limit(r), &buffer);
}

/// Next-name from the empty name to the end, with a get of each, by either side.
fn enumerate(pair: &mut Pair, r: &mut Random) {
    for side in [OURS, MODEM] {
        pair.side = side;
        enumerate_own(pair, r);
    }
}

fn enumerate_own(pair: &mut Pair, r: &mut Random) {
    let mut name = Name { name: vec![0, 0], vendor: [r.byte(); 16] };
    for _ in 0..40 {
        let (reply, buffer) = pair.next_name(&name, u64::MAX, &[0xA5; 144]);
        if reply.answer != Answer::Done(0) {
            break;
        }
        name = Name { name: buffer[16..reply.size as usize].to_vec(), vendor: buffer[..16].try_into().expect("16 bytes") };
        pair.get(&name, u64::MAX, &[0x5A; 2048]);
    }
}

fn random_lock(pair: &mut Pair, r: &mut Random) {
    let name = generate::name(r);
    pair.other_side(r, &name);
    pair.lock(&name);
}

fn random_profile(pair: &mut Pair, r: &mut Random) {
    let profile = generate::profile(r, &pair.session.setup, &pair.image);
    pair.other_terms(r, &profile);
    pair.other_chip(r, &Call::Profile(profile.clone()));
    pair.profile(&profile, limit(r));
}

fn random_change(pair: &mut Pair, r: &mut Random) {
    let change = modes::change(r, &pair.image);
    modes::terms(r, &mut pair.session, &pair.image, &change);
    pair.other_chip(r, &change);
    pair.change(&change, limit(r));
}

fn random_call(pair: &mut Pair, r: &mut Random) {
    match r.below(26) {
        0..=2 => random_get(pair, r),
        3..=5 => random_next(pair, r),
        6 => {
            let setup = generate::setup(r, &pair.image);
            pair.other_chip(r, &Call::StartUp(setup));
            pair.start_up(limit(r), setup);
        }
        7 => pair.session = generate::session(r),
        8 if r.once_in(4) => {
            pair.other_chip(r, &Call::Format);
            pair.format(limit(r));
        }
        9 => random_lock(pair, r),
        10 => pair.phase(r.pick(&[0, 1, 2, 3, u32::MAX])),
        20..=22 => random_profile(pair, r),
        23.. => random_change(pair, r),
        _ => {
            let mut asked = generate::asked_on(r, &pair.image);
            asked.side = generate::side(r, &pair.session.setup, asked.name.key());
            pair.other_space(r, &asked);
            pair.other_rules(r, &asked);
            pair.other_chip(r, &Call::Set(asked.clone()));
            pair.set(&asked, limit(r));
        }
    }
}

/// Any call on any image in any session.
#[test]
fn any_call() {
    let tally = rounds(3000, |r, tally| {
        let image = generate::image(r).0;
        let mut pair = Pair::new(image, generate::session(r), tally);
        pair.check();
        for _ in 0..r.below(30) {
            random_call(&mut pair, r);
        }
        enumerate(&mut pair, r);
    });
    expect_seen(&tally, "set", &["done", "done without stores", "stopped", "refused 23"]);
    let of_a_record = ["done", "done without stores", "stopped", "refused 12", "refused 13", "refused 18", "refused 21", "refused 23"];
    expect_seen(&tally, "set of a record", &of_a_record);
    for rule in (2..=13).chain([17, 18, 21, 22, 24]) {
        expect_seen(&tally, "set", &[&format!("refused {rule}")]);
    }
    expect_seen(&tally, "mode", &["done", "stopped", "refused 2", "refused 6", "refused 13", "refused 22", "refused 23", "refused 24"]);
    expect_seen(&tally, "change", &["setup to audit", "user to audit", "user to deployed", "audit to deployed", "PK alone"]);
    expect_seen(&tally, "present", &["0", "1", "2", "3"]);
    expect_seen(&tally, "set by the modem", &["done", "done without stores", "stopped", "refused 11", "refused 13", "refused 22", "refused 23"]);
    expect_seen(&tally, "set within its rules", &["done", "done without stores"]);
    expect_seen(&tally, "rule 21", &BREACHES);
    expect_seen(&tally, "profile", &["done", "done without stores", "stopped"]);
    for rule in [2, 3, 4, 5, 6, 7, 11, 12, 13, 17, 21, 22, 23, 24, 25, 26] {
        expect_seen(&tally, "profile", &[&format!("refused {rule}")]);
    }
    expect_seen(&tally, "profile by the modem", &["done", "done without stores", "stopped", "refused 13", "refused 22", "refused 23"]);
    expect_seen(&tally, "profile within its rules", &["done", "done without stores"]);
    expect_seen(&tally, "get", &["done without stores", "refused 2", "refused 3", "refused 11", "refused 14", "refused 22"]);
    expect_seen(&tally, "next", &["done without stores", "refused 2", "refused 3", "refused 11", "refused 14", "refused 22"]);
    expect_seen(&tally, "startup", &["done", "done without stores", "stopped", "refused 2", "refused 22", "refused 23"]);
    expect_seen(&tally, "format", &["done", "stopped", "refused 23"]);
    expect_seen(&tally, "lock", &["done without stores", "refused 3", "refused 15", "refused 16", "refused 22"]);
    expect_seen(&tally, "plan", &["set refused", "set that does nothing", "set that marks", "set that programs", "set that programs and erases"]);
    expect_seen(&tally, "plan", &["startup refused", "startup that does nothing", "startup that erases", "startup that programs and erases"]);
    expect_seen(&tally, "plan", &["set that fails", "startup that fails", "format that fails", "profile that fails"]);
    expect_seen(&tally, "plan", &["profile refused", "profile that does nothing", "profile that programs and erases"]);
    expect_seen(&tally, "plan", &["mode refused", "mode that programs", "mode that programs and erases", "mode that fails"]);
}

/// The same image with one more damage each time: whether a call may use it, what a start-up makes of it, and what is read.
#[test]
fn damaged_images() {
    let tally = rounds(100, |r, tally| {
        let (image, blocks) = generate::image(r);
        let mut pair = Pair::new(image.clone(), (PAPER.session_new)(&Setup::alone(image.len())), tally);
        for _ in 0..20 {
            pair.image.copy_from_slice(&image);
            for _ in 0..1 + r.below(2) {
                generate::damage::<Authenticated>(r, &mut pair.image, blocks);
            }
            pair.check();
            random_get(&mut pair, r);
            random_next(&mut pair, r);
            let setup = generate::setup(r, &pair.image);
            if let Answer::Done(_) = pair.start_up(limit(r), setup) {
                random_get(&mut pair, r);
                enumerate(&mut pair, r);
            }
            pair.check();
        }
    });
    expect_seen(&tally, "check", &["done without stores", "refused 2"]);
    expect_seen(&tally, "startup", &["done", "done without stores", "stopped", "refused 2", "refused 22"]);
    expect_seen(&tally, "get", &["done without stores", "refused 2", "refused 11"]);
}

/// Sequences of sets, each stopped at every n of a short list and at many n of a long one, with start-ups between.
#[test]
fn stops() {
    let tally = rounds(200, |r, tally| {
        let blocks = if r.once_in(4) { 2 } else { 1 };
        let image = if r.once_in(2) { generate::filled(r, blocks) } else { generate::crafted::<Authenticated>(r, blocks) };
        let mut pair = Pair::new(image, (PAPER.session_new)(&Setup::CUSTOM), tally);
        pair.start_up_with_stops(r);
        for _ in 0..6 {
            let mut asked = generate::asked_on(r, &pair.image);
            asked.presence = 1;
            pair.other_space(r, &asked);
            pair.other_rules(r, &asked);
            pair.set_with_stops(r, &asked);
            if r.once_in(3) {
                let profile = generate::profile(r, &pair.session.setup, &pair.image);
                pair.profile_with_stops(r, &profile);
            }
            if r.once_in(2) {
                let change = modes::change(r, &pair.image);
                pair.change_with_stops(r, &change);
            }
            let cut = generate::asked_on(r, &pair.image);
            if pair.set(&cut, limit(r)) == Answer::Stopped {
                pair.start_up_with_stops(r);
            }
        }
    });
    expect_seen(&tally, "set", &["done", "done without stores", "stopped", "refused 2", "refused 21", "refused 23"]);
    expect_seen(&tally, "profile", &["done", "done without stores", "stopped", "refused 2", "refused 23", "refused 25"]);
    expect_seen(&tally, "mode", &["done", "stopped", "refused 2", "refused 23", "refused 24"]);
    expect_seen(&tally, "startup", &["done", "done without stores", "stopped", "refused 2", "refused 23"]);
}

/// Mode requests, and sets and deletes of PK, on stores in every mode, with another writer's byte under PlatMode's name or without one.
#[test]
fn changes_of_mode() {
    let tally = rounds(300, |r, tally| {
        let mut image = if r.once_in(2) { generate::filled(r, 1) } else { generate::empty(1) };
        let mut pair = Pair::new(vec![], (PAPER.session_new)(&Setup::PLAIN), tally);
        for _ in 0..6 {
            modes::leave_byte(r, &mut image);
            pair.image = image.clone();
            for _ in 0..5 {
                pair.session = (PAPER.session_new)(&Setup { custom: r.below(2) as u32, ..generate::lenient(r, image.len()) });
                random_change(&mut pair, r);
            }
            if (PAPER.check)(&pair.image).answer == Answer::Done(0) {
                image.copy_from_slice(&pair.image);
            }
        }
    });
    expect_seen(&tally, "mode", &["done", "stopped", "refused 6", "refused 13", "refused 22", "refused 23", "refused 24"]);
    expect_seen(&tally, "set", &["done", "stopped", "refused 6", "refused 9", "refused 10", "refused 11", "refused 13", "refused 23"]);
    expect_seen(&tally, "change", &DEEDS);
}

/// Key names and other authenticated names, in all four modes, with all verdicts, presence and custom mode, and descriptors right and damaged.
#[test]
fn authenticated_names() {
    let tally = rounds(200, |r, tally| {
        let mut pair = Pair::new(generate::empty(1), (PAPER.session_new)(&Setup::PLAIN), tally);
        for _ in 0..60 {
            let mut asked = generate::asked(r);
            asked.attributes = r.pick(&[0x27, 0x27, 0x67, 0x23, 0]);
            let proper = generate::data(r, 40);
            asked.data = generate::signed(r, &proper);
            pair.session.setup.custom = r.pick(&[0, 0, 0, 1]);
            pair.other_rules(r, &asked);
            pair.set(&asked, u64::MAX);
            if r.once_in(3) {
                let change = modes::change(r, &pair.image);
                pair.change(&change, u64::MAX);
            }
        }
    });
    expect_seen(&tally, "set", &["done", "refused 7", "refused 8", "refused 9", "refused 10", "refused 11", "refused 21", "refused 24"]);
    expect_seen(&tally, "present", &["0", "1", "2", "3"]);
    expect_seen(&tally, "set within its rules", &["done", "done without stores"]);
    expect_seen(&tally, "rule 21", &BREACHES);
}

/// Sets, appends and deletes of few variables, with short data that repeat, and rules for them: 21 wherever it may come, and done where the rules allow it.
#[test]
fn settings() {
    let mut tally = Tally::new();
    common::rounds::rounds(1, 100, |r| {
        let mut pair = Pair::new(generate::empty(1), (PAPER.session_new)(&Setup::CUSTOM.with_records(1000)), &mut tally);
        for _ in 0..60 {
            let (key, attributes) = r.pick(&[(RATE, 0x07), (RATE, 0x07), (A, 0x03), (S, 0x27), (DB, 0x27), (RECORD, 0x0F)]);
            let most = r.pick(&[1, 2, 5, 5, 9]);
            let proper: Vec<u8> = (0..r.below(most)).map(|_| r.byte() & 1).collect();
            let (attributes, data) = match r.below(8) {
                0 => (0, vec![]),
                1..=3 => (attributes | 0x40, proper),
                _ => (attributes, proper),
            };
            let data = if attributes & 0x20 != 0 { stamped(&AUTUMN, &data) } else { data };
            let verdict = if Book::of(&pair.image).values.iter().any(|value| value.name.key() == key) { 4 } else { 3 };
            let name = Name { name: key.name.to_vec(), vendor: *key.vendor };
            let asked = Asked { name, attributes, data, presence: 1, verdict, side: OURS };
            pair.other_rules(r, &asked);
            pair.set(&asked, u64::MAX);
        }
    });
    println!("{tally:?}");
    expect_seen(&tally, "set", &["done", "done without stores", "refused 7", "refused 11", "refused 21"]);
    expect_seen(&tally, "set within its rules", &["done", "done without stores"]);
    expect_seen(&tally, "set of a record", &["done", "done without stores", "refused 21"]);
    expect_seen(&tally, "rule 21", &BREACHES);
    expect_seen(&tally, "rule 21", &["a delete", "a set that creates", "a set that replaces", "an equal set"]);
    expect_seen(&tally, "rule 21", &["an append", "an append that creates", "an empty append", "an empty append to nothing"]);
}

/// Descriptors with every byte of the form changed, every length cut, and lengths around the data's.
#[test]
fn descriptors_at_each_field() {
    let mut tally = Tally::new();
    let mut right = Random::new(1);
    let (mut asked, proper) = (generate::asked(&mut right), [1, 2, 3, 4]);
    asked.name = Name { name: b"S\0\0\0".to_vec(), vendor: [7; 16] };
    (asked.attributes, asked.verdict) = (0x27, 3);
    let descriptor = loop {
        let bytes = generate::signed(&mut right, &proper);
        asked.data = bytes.clone();
        let mut image = generate::empty(1);
        if matches!((PAPER.set)(Context::NO_LIMIT, &(PAPER.session_new)(&Setup::PLAIN), &mut image, &asked.request()), Answer::Done(_)) {
            break bytes;
        }
    };
    let mut pair = Pair::new(generate::empty(1), (PAPER.session_new)(&Setup::PLAIN), &mut tally);
    let mut try_data = |data: Vec<u8>| {
        pair.image = generate::empty(1);
        asked.data = data;
        pair.set(&asked, u64::MAX);
    };
    for at in 0..40 {
        for bit in 0..8 {
            let mut data = descriptor.clone();
            data[at] ^= 1 << bit;
            try_data(data);
        }
    }
    (0..=descriptor.len()).for_each(|length| try_data(descriptor[..length].to_vec()));
    for length in (0..60).chain(u32::MAX - 60..=u32::MAX) {
        let mut data = descriptor.clone();
        data[16..20].copy_from_slice(&length.to_le_bytes());
        try_data(data);
    }
    expect_seen(&tally, "set", &["done", "refused 8", "refused 11"]);
}

/// Appends over stored stamps that differ from the one given in each byte, the nine that are not compared among them: 02 (b) tells which is stored.
#[test]
fn appends_at_each_byte_of_a_stamp() {
    let mut tally = Tally::new();
    let middle: [u8; 16] = [0x80; 16];
    let names = [(*DB.vendor, DB.name), (*KEK.vendor, KEK.name), ([7; 16], &b"S\0\0\0"[..])];
    for (vendor, name) in names {
        for custom in [0, 1] {
            let setup = Setup { custom, ..Setup::PLAIN };
            let mut pair = Pair::new(generate::empty(1), (PAPER.session_new)(&setup), &mut tally);
            let name = Name { name: name.to_vec(), vendor };
            let mut given = [0; 16];
            given[..7].copy_from_slice(&middle[..7]);
            let mut asked = Asked { name, attributes: 0x27, data: stamped(&given, &[1]), presence: 1, verdict: 3, side: OURS };
            pair.set(&asked, u64::MAX);
            let before = pair.image.clone();
            asked.verdict = 4;
            for (at, byte) in (0..16).flat_map(|at| [0x7F, 0x80, 0x81].map(|byte| (at, byte))) {
                for (attributes, data) in [(0x67, &[2][..]), (0x67, &[]), (0x27, &[2])] {
                    let mut stored = middle;
                    stored[at] = byte;
                    pair.image.copy_from_slice(&before);
                    pair.image[28 + 16..][..16].copy_from_slice(&stored);
                    (asked.attributes, asked.data) = (attributes, stamped(&given, data));
                    let answer = pair.set(&asked, u64::MAX);
                    let value = paper::region::values::<Authenticated>(&pair.image[..BLOCK]).next().expect("a value");
                    let keeps = attributes == 0x67 && (data.is_empty() || at >= 7 || byte >= 0x80);
                    let expected = if keeps || matches!(answer, Answer::Refused(_)) { stored } else { given };
                    assert_eq!(*value.stamp(), expected, "{asked:?} over {stored:X?}");
                }
            }
        }
    }
    expect_seen(&tally, "set", &["done", "done without stores", "refused 10"]);
}

/// Lengths 0 and 1, every number of blocks up to 17, and one byte less or more.
#[test]
fn lengths() {
    let mut tally = Tally::new();
    let mut r = Random::new(5);
    let whole = [generate::empty(7), vec![0xFF; 3 * BLOCK]].concat();
    let around = (0..=17usize).flat_map(|blocks| [(blocks * BLOCK).saturating_sub(1), blocks * BLOCK, blocks * BLOCK + 1]);
    for length in around.chain([27, 28, 100]) {
        for fits in [false, true] {
            let mut image = whole[..length].to_vec();
            if fits && length > 20 {
                image[16..20].copy_from_slice(&((length / BLOCK / 2 * BLOCK) as u32).to_le_bytes());
            }
            let mut pair = Pair::new(image, (PAPER.session_new)(&Setup::PLAIN), &mut tally);
            pair.check();
            random_get(&mut pair, &mut r);
            random_next(&mut pair, &mut r);
            for _ in 0..5 {
                pair.set(&generate::asked(&mut r), u64::MAX);
                let profile = generate::profile(&mut r, &Setup::PLAIN, &pair.image);
                pair.profile(&profile, u64::MAX);
                let change = modes::change(&mut r, &pair.image);
                pair.store(change.what(), &change, u64::MAX);
            }
            pair.start_up(u64::MAX, Setup { custom: 3, reserve: 5000, records: 70_000, ..Setup::PLAIN });
            for n in (0..=44).chain([u64::MAX]) {
                pair.image.fill(0);
                pair.format(n);
            }
            for width in [2, 3, 4, 8, 16] {
                pair.width = width;
                pair.image.fill(0);
                pair.format(r.below(32) as u64);
                pair.format(u64::MAX);
            }
            pair.check();
        }
    }
    expect_seen(&tally, "check", &["done without stores", "refused 1", "refused 2"]);
    expect_seen(&tally, "format", &["done", "stopped", "refused 1"]);
    expect_seen(&tally, "plan", &["format refused", "format that programs and erases", "set refused", "startup refused"]);
    for call in ["set", "get", "next", "startup", "profile", "mode"] {
        expect_seen(&tally, call, &["refused 1"]);
    }
}

/// Sessions of any content through locks and phases.
#[test]
fn sessions() {
    let mut tally = Tally::new();
    let mut r = Random::new(9);
    for _ in 0..3000 {
        let mut pair = Pair::new(vec![], generate::session(&mut r), &mut tally);
        for _ in 0..r.below(20) {
            if r.once_in(4) {
                pair.phase(r.pick(&[0, 0, 0, 1, 2, 3, u32::MAX]));
            }
            random_lock(&mut pair, &mut r);
        }
        let [custom, reserve, records, share, modem_share, modem_reserve] = [(); 6].map(|_| r.number() as u32 >> r.below(32));
        let modem = Tenant { share: modem_share, reserve: modem_reserve, vendor: [r.byte(); 16] };
        let mut setup = Setup { custom, reserve, records, share, modem, ..Setup::NOTHING };
        generate::rules(&mut r, &mut setup);
        same_session(&(PAPER.session_new)(&setup), &(ENGINE.session_new)(&setup));
    }
    expect_seen(&tally, "lock", &["done without stores", "refused 3", "refused 15", "refused 16", "refused 22"]);
}
