//! *A run*: calls on one image, each whole, stopped or cut, beside the book and the account of wear. The engine's calls make the stores, with n as the cut, or plan
//! them, and a host carries them out up to the cut; what a begun store leaves is put there by the test.

use super::book::Book;
use super::generate::BLOCK;
use super::random::Random;
use super::same_bytes;
use super::settings::check_kept;
use super::stored::{carry_out, Call};
use super::tenants::is_refused;
use super::wear::{self, Wear};
use varstore::calls::{lent, ENGINE};
use varstore::interface::{Answer, Context, Rule, Session, Setup};
use varstore::paper::layout::Authenticated;
use varstore::paper::region::header;
use varstore::paper::work::{BEGUN, SPARE_COMPLETE, UNUSED};
use varstore::paper::{self, Made, Page, Store, Stores};

pub const START_UP: Call = Call::Restart;

/// How the stores of a call reach the image: the engine makes them, or it plans them and a host carries them out.
#[derive(Clone, Copy, PartialEq, Eq, Debug)]
pub enum Way {
    Called,
    Planned,
}

impl Way {
    pub const BOTH: [Way; 2] = [Way::Called, Way::Planned];
}

/// What an erase may leave in its block: anything.
#[derive(Clone, Copy, PartialEq, Eq, Debug)]
pub enum Garbage {
    Random,
    Zeros,
    Blank,
    Untouched,
    FrontErased,
    BackErased,
    BitsRaised,
    /// The same block of a clean region of other values.
    FormerRegion,
    /// The same block of the region that stands.
    ThisRegion,
    /// The same block of an empty region.
    HeaderOnly,
    /// A work block of so many records, the last of them FC.
    SpareComplete(usize),
    /// The same behind 32 unused records.
    LateSpareComplete(usize),
}

impl Garbage {
    pub const ALL: [Garbage; 15] = [
        Garbage::Random,
        Garbage::Zeros,
        Garbage::Blank,
        Garbage::Untouched,
        Garbage::FrontErased,
        Garbage::BackErased,
        Garbage::BitsRaised,
        Garbage::FormerRegion,
        Garbage::ThisRegion,
        Garbage::HeaderOnly,
        Garbage::SpareComplete(1),
        Garbage::SpareComplete(2),
        Garbage::SpareComplete(64),
        Garbage::LateSpareComplete(1),
        Garbage::LateSpareComplete(32),
    ];

    fn bytes(self, run: &Run, block: usize, r: &mut Random) -> Vec<u8> {
        let length = run.former.len();
        let place = match block * BLOCK {
            at if at > length => at - length - BLOCK,
            at => at % length,
        };
        let old = &run.image[block * BLOCK..][..BLOCK];
        let (front, back) = old.split_at(BLOCK / 2);
        let blank = [0xFF; BLOCK];
        match self {
            Garbage::Random => r.bytes(BLOCK),
            Garbage::Zeros => vec![0; BLOCK],
            Garbage::Blank => blank.to_vec(),
            Garbage::Untouched => old.to_vec(),
            Garbage::FrontErased => [&blank[..front.len()], back].concat(),
            Garbage::BackErased => [front, &blank[..back.len()]].concat(),
            Garbage::BitsRaised => old.iter().map(|byte| byte | r.byte()).collect(),
            Garbage::FormerRegion => run.former[place..][..BLOCK].to_vec(),
            Garbage::ThisRegion => run.image[place..][..BLOCK].to_vec(),
            Garbage::HeaderOnly if place > 0 => blank.to_vec(),
            Garbage::HeaderOnly => [&header::<Authenticated>(length)[..], &blank].concat()[..BLOCK].to_vec(),
            Garbage::SpareComplete(used) => records(0, used),
            Garbage::LateSpareComplete(used) => records(32, used),
        }
    }
}

/// A work block of unused records, then used ones, the last of them FC.
fn records(unused: usize, used: usize) -> Vec<u8> {
    let mut work = vec![UNUSED; BLOCK];
    work[unused..unused + used].fill(BEGUN);
    work[unused + used - 1] = SPARE_COMPLETE;
    work
}

/// What a begun store has left: the bytes that it was to program, or its block.
#[derive(Clone, Copy, PartialEq, Eq, Debug)]
pub enum Begun {
    Page(Page),
    Block(Garbage),
}

/// What a store may leave that is begun on an image. "each byte of that page may have any of its wanted bits uncleared, and one or more of the store's are": `every`
/// such choice where the bits are few, else some of them. It leaves nothing new where no bit has to clear.
pub fn begun(store: Store, image: &[u8], every: bool, r: &mut Random) -> Vec<Begun> {
    let (at, page) = match store {
        Store::Erase(_) => return Garbage::ALL.map(Begun::Block).to_vec(),
        Store::Program(at, page) => (at, page),
    };
    let old = &image[at..][..page.bytes().len()];
    let to_clear: Vec<u8> = old.iter().zip(page.bytes()).map(|(byte, v)| byte & !v).collect();
    let left = |uncleared: Vec<u8>| {
        let bytes: Vec<u8> = old.iter().zip(page.bytes()).zip(&uncleared).map(|((byte, v), bits)| byte & v | bits).collect();
        Begun::Page(Page::of(&bytes))
    };
    let choices = if to_clear.len() == 1 { of_a_byte(to_clear[0], every) } else { of_a_page(&to_clear, every, r) };
    choices.into_iter().map(left).collect()
}

/// Of the bits that a byte store had to clear, those left: every choice, or all of them, each of them alone, and all but each.
fn of_a_byte(to_clear: u8, every: bool) -> Vec<Vec<u8>> {
    let bits = to_clear.count_ones();
    let chosen = |uncleared: &u8| uncleared & !to_clear == 0 && (every || [1, bits - 1, bits].contains(&uncleared.count_ones()));
    (1..=u8::MAX).filter(chosen).map(|uncleared| vec![uncleared]).collect()
}

/// The same of a page. Every choice of up to eight bits; of more, each byte's alone and all but each byte's, the bytes up to each and from each on, all, one bit,
/// and random ones; or a few of these.
fn of_a_page(to_clear: &[u8], every: bool, r: &mut Random) -> Vec<Vec<u8>> {
    let bits: Vec<(usize, u8)> =
        (0..to_clear.len()).flat_map(|k| (0..8).map(move |bit| (k, 1 << bit))).filter(|&(k, bit)| to_clear[k] & bit != 0).collect();
    let of_bits = |chosen: &mut dyn FnMut(usize) -> bool| {
        let mut uncleared = vec![0; to_clear.len()];
        bits.iter().enumerate().filter(|&(number, _)| chosen(number)).for_each(|(_, &(k, bit))| uncleared[k] |= bit);
        uncleared
    };
    let of_bytes = |chosen: &dyn Fn(usize) -> bool| -> Vec<u8> { (0..).zip(to_clear).map(|(k, &byte)| if chosen(k) { byte } else { 0 }).collect() };
    let mut choices = match bits.len() {
        count @ 0..=8 if every || count <= 4 => (1..1usize << count).map(|choice| of_bits(&mut |number| choice >> number & 1 != 0)).collect(),
        count => {
            let one = r.below(count);
            let mut some = vec![
                of_bits(&mut |number| number == one),
                of_bits(&mut |_| r.once_in(2)),
                of_bits(&mut |_| r.once_in(2)),
                of_bits(&mut |_| r.once_in(4)),
            ];
            let places: Vec<usize> = if every { (0..to_clear.len()).collect() } else { vec![r.below(to_clear.len())] };
            for place in places {
                some.extend([of_bytes(&|k| k == place), of_bytes(&|k| k != place), of_bytes(&|k| k < place), of_bytes(&|k| k >= place)]);
            }
            some
        }
    };
    choices.retain(|uncleared| uncleared.iter().any(|&byte| byte != 0));
    choices
}

/// The first `after` stores are complete; the next may be begun.
#[derive(Clone, Copy, Debug)]
pub struct Cut {
    pub after: usize,
    pub begun: Option<Begun>,
}

#[derive(Clone)]
pub struct Run {
    pub way: Way,
    pub image: Vec<u8>,
    pub session: Session,
    pub book: Book,
    /// A clean region of other values, as a cut erase may leave it.
    pub former: Vec<u8>,
    /// The dead addresses that go with each call; of more than 16 the first ones count.
    pub dead: Vec<u32>,
    /// The width that goes with each call.
    pub width: u32,
    /// The cuts since the last done start-up.
    pub cuts: Vec<Cut>,
    pub wear: Wear,
}

impl Run {
    /// Begins on an image as a done start-up left it.
    pub fn new(image: Vec<u8>, former: Vec<u8>) -> Run {
        let session = (ENGINE.session_new)(&Setup::alone(image.len()));
        let (book, wear) = (Book::of(&image), Wear::of(&image));
        Run { way: Way::Called, book, image, session, former, dead: vec![], width: 1, cuts: vec![], wear }
    }

    /// The call's list of stores on the image that stands.
    pub fn stores(&self, call: &Call) -> Result<Stores, Rule> {
        call.stores(self.w(), &self.session, &self.image)
    }

    /// What goes with a call beside its own arguments.
    pub fn context(&self, n: u64) -> Context {
        Context::worn(n, &self.dead).paged(self.width)
    }

    /// What its width counts as.
    pub fn w(&self) -> usize {
        paper::width(&self.context(0))
    }

    /// Makes the call up to n stores: answer and image are the paper's, the book is fed, and the account of wear takes it.
    pub fn make(&mut self, call: &Call, n: u64) -> Answer {
        let setup = call.setup(&self.image);
        let refused = matches!(call, Call::StartUp(given) if is_refused(given, &self.image));
        let call = &setup.map_or_else(|| call.clone(), Call::StartUp);
        let list = self.stores(call);
        self.wear.next(&self.image);
        let task = list.as_ref().ok().and_then(|_| wear::task(call, &self.book, &self.image));
        let mut after = self.image.clone();
        let (expected, made) = match &list {
            Err(rule) => (Answer::Refused(*rule), 0),
            Ok(list) => {
                let made = list.make_worn(n, paper::dead(&self.context(n)), &mut after);
                (answer_of(list.len(), made, n), made.stores)
            }
        };
        let (answer, decided) = match self.way {
            Way::Called => (self.call(call, n), is_among(list.as_ref().ok().and_then(|list| list.deciding()), made)),
            Way::Planned => self.carry_out(call, n),
        };
        assert_eq!(answer, expected, "up to {n} stores of {call:?} with {:?} dead, w {}, after {:?}", self.dead, self.width, self.cuts);
        same_bytes("image", &after, &self.image);
        if decided || matches!(answer, Answer::Done(_)) {
            call.feed(&mut self.book);
            call.sets().iter().for_each(|asked| check_kept(&self.session, &asked.request(), &self.book));
        }
        if let (Some(task), Ok(list)) = (task, &list) {
            self.wear.take(task, list, made, decided, &self.book);
        }
        if let Some(setup) = setup {
            assert!(self.session == paper::session_new(&setup), "a start-up's session is fresh");
            assert_eq!(answer == Answer::Refused(Rule::Tenant), refused, "22 with {setup:?} after {:?}", self.cuts);
        }
        answer
    }

    /// The engine makes the stores.
    fn call(&mut self, call: &Call, n: u64) -> Answer {
        let (answer, session) = call.by(&ENGINE, self.context(n), &self.session, &mut self.image);
        self.session = session;
        answer
    }

    /// One planning call, and its stores are made on the part; also tells whether the deciding one was among those made.
    fn carry_out(&mut self, call: &Call, n: u64) -> (Answer, bool) {
        let context = self.context(n);
        let session = call.planned_session(&self.session, &self.image);
        let planned = lent(|content| {
            let plan = call.plan(&self.session, &self.image, content)?;
            let made = carry_out(&plan, content, &context, &mut self.image);
            Ok((plan, made))
        });
        self.session = session;
        match planned {
            Err(rule) => (Answer::Refused(rule), false),
            Ok((plan, made)) => {
                let (count, deciding) = (plan.count(self.w()), plan.deciding_store(self.w()));
                (answer_of(count, made, n), is_among(deciding, made.stores))
            }
        }
    }

    /// Puts what the begun store has left.
    pub fn begin(&mut self, store: Store, begun: Begun, r: &mut Random) {
        match (store, begun) {
            (Store::Program(at, _), Begun::Page(left)) => self.image[at..][..left.bytes().len()].copy_from_slice(left.bytes()),
            (Store::Erase(block), Begun::Block(garbage)) => {
                let left = garbage.bytes(self, block, r);
                self.image[block * BLOCK..][..BLOCK].copy_from_slice(&left);
            }
            other => panic!("no such store was begun: {other:?}"),
        }
    }

    /// The call up to a cut. A store that fails before it ends the call, and one that would fail next is not begun: it changes nothing.
    pub fn cut(&mut self, call: &Call, cut: Cut, r: &mut Random) {
        let next = self.stores(call).ok().and_then(|list| list.get(cut.after));
        let answer = self.make(call, cut.after as u64);
        let next = next.filter(|store| answer == Answer::Stopped && !self.fails(*store));
        self.wear.power_fails(next);
        if let (Some(store), Some(begun)) = (next, cut.begun) {
            self.begin(store, begun, r);
        }
        self.cuts.push(cut);
    }

    /// Whether a store would fail on the image that stands.
    pub fn fails(&self, store: Store) -> bool {
        store.fails(paper::dead(&self.context(0)), &self.image)
    }

    /// A start-up with the dead bytes: it is done or fails; then one without.
    pub fn recover_worn(&mut self) -> Answer {
        let answer = self.make(&START_UP, u64::MAX);
        match answer {
            Answer::Done(_) => self.check_book(),
            _ => assert_eq!(answer, Answer::Refused(Rule::Worn), "a start-up with {:?} dead after {:?}", self.dead, self.cuts),
        }
        self.dead.clear();
        self.recover();
        answer
    }

    /// A start-up to its end: it is not refused, the image's list of values then equals the book, and a second one makes no stores.
    pub fn recover(&mut self) {
        let answer = self.make(&START_UP, u64::MAX);
        assert!(matches!(answer, Answer::Done(_)), "a start-up after {:?} is {answer:?}", self.cuts);
        self.check_book();
    }

    /// What holds after a start-up that is done.
    pub fn check_book(&mut self) {
        assert!(
            Book::of(&self.image) == self.book,
            "after {:?} the book is {:X?}, the list of values {:X?}",
            self.cuts,
            self.book,
            Book::of(&self.image)
        );
        self.book.check_listed(&ENGINE, &self.image);
        assert_eq!(self.make(&START_UP, u64::MAX), Answer::Done(0), "a second start-up after {:?}", self.cuts);
        self.cuts.clear();
    }
}

/// The answer of an accepted call with so many stores, and what has come of them.
fn answer_of(stores: usize, made: Made, n: u64) -> Answer {
    match stores as u64 {
        _ if made.failed => Answer::Refused(Rule::Worn),
        count if count <= n => Answer::Done(count),
        _ => Answer::Stopped,
    }
}

/// Whether the deciding store, if any, is among the first ones.
fn is_among(deciding: Option<usize>, made: usize) -> bool {
    deciding.is_some_and(|deciding| deciding < made)
}

/// Numbers of stores after which to cut: of a short list all; of a long one those around marks, erases and the ends of byte runs, among them the
/// deciding store, and every `stride`th.
pub fn places(list: &Stores, stride: usize, r: &mut Random) -> Vec<usize> {
    let stores: Vec<Store> = list.iter().collect();
    let follows = |k: usize| match (stores.get(k.wrapping_sub(1)), stores.get(k)) {
        (Some(Store::Program(before, page)), Some(Store::Program(at, _))) => before + page.bytes().len() == *at,
        _ => false,
    };
    let first = r.below(stride);
    let is_end = |k: usize| !follows(k) || !follows(k + 1);
    let chosen = |k: &usize| stores.len() <= 300 || k % stride == first || (k.saturating_sub(2)..k + 2).any(is_end);
    (0..=stores.len()).filter(chosen).collect()
}
