//! Benchmarks of the engine against the paper's implementation, the same work on both sides: every call with its own check of the image, on an image
//! copied back and a buffer cleared before each turn, which is not measured. For 02 (g)'s call the other side is not the paper's but the program of `once`, which checks
//! once and walks for every name: the keys are laid in their places beforehand, on both sides. 02 (l)'s profile is beside the paper's, and its settings as sets are a case of
//! their own; in both the engine's session is lent. So it is for 02 (j)'s mode requests: a mode alone, and mode and PK together.
//!
//!     bench                              wall time, the best of many alternating turns
//!     bench names                        each case, its number of turns, and whether it is one of a growing row, for tools/bench
//!     bench bench-one NAME SIDE COUNT    prepares all turns of a case and makes the first COUNT, by engine, lent (its session) or paper; what two counts differ by is
//!                                        the calls alone

use std::env;
use std::hint::black_box;
use std::time::{Duration, Instant};

use varstore::calls::{lent, Calls, ENGINE, LENT, PAPER};
use varstore::engine::{self, Item, Told};
use varstore::interface::{Answer, Context, Guid, Key, Request, Rule, Session, Setup, Tenant, AUDIT_MODE, ITEMS, MODEM, NAMES, OURS};
use varstore::once;
use varstore::paper::entry::{self, Contents, GONE, STATE};
use varstore::paper::layout::Authenticated;
use varstore::paper::region;
use varstore::paper::request::PK;

const BLOCK: usize = 4096;
const VENDOR: Guid = [1, 2, 3, 4, 5, 6, 7, 8, 9, 10, 11, 12, 13, 14, 15, 16];
const MODEMS: Guid = [0x4D; 16];
const NONE: Variable = (Vec::new(), VENDOR);
/// How many values a region of seven blocks has in the rows that grow.
const COUNTS: [usize; 4] = [25, 50, 100, 200];
const BEGIN: Key = Key { name: &[0, 0], vendor: &VENDOR };
/// The buffer of a turn: what 64 values of 50 bytes take, and more.
const BUFFER: usize = 4096;
const UNTOLD: Item = Item { rule: 0, size: 0, attributes: 0, needed: 0 };

/// What a set stores.
const DATA: &[u8] = &[0x5A; 50];

/// A name with its GUID.
type Variable = (Vec<u8>, Guid);

/// What a turn works on: the variable is the one that it gets or sets; the keys are those of a call for 64 names, in their places; the file is a profile's.
struct Desk {
    context: Context,
    session: Session,
    variable: Variable,
    keys: Vec<u8>,
    sizes: Vec<u32>,
    file: Vec<u8>,
    image: Vec<u8>,
    told: Told,
    buffer: [u8; BUFFER],
}

struct Case {
    name: String,
    variable: Variable,
    image: Vec<u8>,
    width: u32,
    /// Who asks, and what the session was given.
    side: u32,
    setup: Setup,
    turns: usize,
    /// One of a row of cases that grow: its instructions are counted, and compared with those of the others.
    grows: bool,
    turn: fn(&Calls, &mut Desk) -> Answer,
    expected: Answer,
}

impl Case {
    fn desk(&self) -> Desk {
        let (keys, sizes) = sixty_four();
        Desk {
            context: Context::NO_LIMIT.paged(self.width).by(self.side),
            session: (PAPER.session_new)(&self.setup),
            variable: self.variable.clone(),
            keys,
            sizes,
            file: profile_of_eight(),
            image: self.image.clone(),
            told: [UNTOLD; NAMES],
            buffer: [0; BUFFER],
        }
    }

    fn prepare(&self, desk: &mut Desk) {
        desk.image.copy_from_slice(&self.image);
        desk.told.fill(UNTOLD);
        desk.buffer.fill(0);
        black_box(desk);
    }

    /// All sides give the expected answer, and leave the same image and buffer, and the same items.
    fn check(&self) {
        let [engine, lending, paper] = [ENGINE, LENT, PAPER].map(|calls| {
            let mut desk = self.desk();
            let answer = (self.turn)(&calls, &mut desk);
            assert_eq!(answer, self.expected, "{} by {}", self.name, calls.who);
            desk
        });
        for desk in [engine, lending] {
            assert!(desk.image == paper.image && desk.buffer == paper.buffer && desk.told == paper.told, "{} differs", self.name);
        }
    }

    fn time(&self, calls: &Calls, desk: &mut Desk) -> Duration {
        self.prepare(desk);
        let begin = Instant::now();
        black_box((self.turn)(black_box(calls), desk));
        begin.elapsed()
    }

    /// The best time of each side in alternating turns.
    fn best(&self) -> [Duration; 2] {
        let (begin, mut desk) = (Instant::now(), self.desk());
        let mut best = [Duration::MAX; 2];
        let mut turns = 0;
        while turns < 50 || begin.elapsed() < Duration::from_secs(1) {
            for (calls, best) in [ENGINE, PAPER].iter().zip(&mut best) {
                *best = self.time(calls, &mut desk).min(*best);
            }
            turns += 1;
        }
        best
    }
}

/// A name of characters and a zero character.
fn name(text: &str) -> Vec<u8> {
    text.encode_utf16().chain([0]).flat_map(u16::to_le_bytes).collect()
}

/// Names of one front that differ late, as the settings of a device do.
fn numbered(index: usize) -> Variable {
    (name(&format!("SET{index:04}")), VENDOR)
}

/// Of two hundred numbered names 64, from the first on at equal distances, in the places of one call.
fn sixty_four() -> (Vec<u8>, Vec<u32>) {
    let variables: Vec<Variable> = (0..NAMES).map(|index| numbered(index * 200 / NAMES)).collect();
    engine::placed(&variables.iter().map(|(name, vendor)| Key { name, vendor }).collect::<Vec<_>>())
}

/// Eight of them, likewise.
fn eight() -> impl Iterator<Item = Variable> {
    (0..ITEMS).map(|index| numbered(index * 200 / ITEMS))
}

/// A profile that changes these: its sizes are below 128, and so of one group.
fn profile_of_eight() -> Vec<u8> {
    let item = |(name, vendor): Variable| [&[0x07, name.len() as u8, DATA.len() as u8][..], &vendor, &name, DATA].concat();
    [ITEMS as u8].into_iter().chain(eight().flat_map(item)).collect()
}

/// The same, every second one the modem's.
fn by_turns(index: usize) -> Variable {
    (numbered(index).0, if index % 2 == 0 { VENDOR } else { MODEMS })
}

/// Long names of one front and one end, as people give them.
fn station(index: usize) -> Variable {
    (name(&format!("Station{index:03}TriggerThresholdLevel")), VENDOR)
}

/// The smallest name of a number.
fn single(index: usize) -> Variable {
    (name(char::from_u32(1 + index as u32).expect("a small number").encode_utf8(&mut [0; 4])), VENDOR)
}

/// Names of so many characters that differ in the second and the fifth, whose sum is one. Each of these is in one word of those that the engine's check makes its marks
/// from, at the same place in it, so that every mark is the same.
fn alike(index: usize, characters: usize) -> Variable {
    let [second, fifth] = [0x4000 - index as u32, 0x100 + index as u32].map(|number| char::from_u32(number).expect("a character"));
    (name(&format!("S{second}me{fifth}{:x<1$}", "", characters - 5)), VENDOR)
}

/// One name under GUIDs whose first words differ by multiples of 1,279 places times 128 signs, so that every mark is the same.
fn alike_under(index: usize) -> Variable {
    let mut vendor = VENDOR;
    vendor[..8].copy_from_slice(&(index as u64 * 1279 * 128).to_le_bytes());
    (name("AB"), vendor)
}

fn put(region: &mut Vec<u8>, variable: &Variable, data: &[u8]) {
    let contents = Contents { attributes: 0x07, stamp: &[0; 16], old: data, new: &[] };
    entry::write::<Authenticated>(region, Key { name: &variable.0, vendor: &variable.1 }, &contents);
}

/// A region's bytes up to its tail, made an image: work block and spare are blank.
fn image(mut region: Vec<u8>, blocks: usize) -> Vec<u8> {
    region.resize(BLOCK * (2 * blocks + 1), 0xFF);
    region
}

/// A region of b blocks with values of so many bytes.
fn region_with(blocks: usize, count: usize, variable: fn(usize) -> Variable, size: usize) -> Vec<u8> {
    let mut region = region::header::<Authenticated>(BLOCK * blocks).to_vec();
    (0..count).for_each(|index| put(&mut region, &variable(index), &vec![index as u8; size]));
    region
}

/// The same of numbered names and 50 bytes, 128 bytes an entry.
fn region_of(blocks: usize, count: usize) -> Vec<u8> {
    region_with(blocks, count, numbered, 50)
}

/// A region of b blocks full of values of one byte, and the last of these variables.
fn full_of(blocks: usize, variables: impl Fn(usize) -> Variable) -> (Vec<u8>, Variable) {
    let (mut region, mut last) = (region_of(blocks, 0), NONE);
    for variable in (0..).map(variables) {
        if region.len() + (60 + variable.0.len() + 1).next_multiple_of(4) > blocks * BLOCK {
            break;
        }
        put(&mut region, &variable, &[1]);
        last = variable;
    }
    (region, last)
}

/// Two hundred values in seven blocks, and PK after them.
fn in_user_mode() -> Vec<u8> {
    let mut region = region_of(7, 200);
    put(&mut region, &(PK.name.to_vec(), *PK.vendor), DATA);
    region
}

/// Seven blocks of values, filled up with deleted entries.
fn crowded(count: usize) -> Vec<u8> {
    let mut region = region_of(7, count);
    while region.len() + 128 <= 7 * BLOCK {
        let at = region.len();
        put(&mut region, &numbered(0), &[0; 50]);
        region[at + STATE] = GONE;
    }
    region
}

fn get(calls: &Calls, desk: &mut Desk) -> Answer {
    let key = Key { name: &desk.variable.0, vendor: &desk.variable.1 };
    (calls.get)(desk.context, &desk.session, &desk.image, key, &mut desk.buffer).answer
}

/// A call for 64 names, by value or lent; the program that walks for every name has its session lent always.
fn many(calls: &Calls, desk: &mut Desk) -> Answer {
    let call = if calls.who == ENGINE.who { engine::get_placed } else { once::get_placed };
    call(desk.context, &desk.session, &desk.image, &desk.keys, &desk.sizes, &mut desk.told, &mut desk.buffer)
}

fn many_lent(calls: &Calls, desk: &mut Desk) -> Answer {
    let call = if calls.who == ENGINE.who { engine::lent::get_placed } else { once::get_placed };
    call(desk.context, &desk.session, &desk.image, &desk.keys, &desk.sizes, &mut desk.told, &mut desk.buffer)
}

/// The same names, each by a get of its own.
fn one_by_one(calls: &Calls, desk: &mut Desk) -> Answer {
    let Desk { context, session, image, keys, sizes, buffer, .. } = desk;
    let mut used = 0;
    for (place, size) in keys.chunks_exact(engine::KEY).zip(sizes) {
        let (vendor, name) = place[..*size as usize].split_first_chunk().expect("a GUID");
        used += (calls.get)(*context, session, image, Key { name, vendor }, &mut buffer[used..]).size as usize;
    }
    if used == NAMES * 50 {
        Answer::Done(0)
    } else {
        Answer::Stopped
    }
}

fn check(calls: &Calls, desk: &mut Desk) -> Answer {
    (calls.check)(&desk.image).answer
}

fn start(calls: &Calls, desk: &mut Desk) -> Answer {
    (calls.start_up)(desk.context, &mut desk.image, &desk.session.setup).answer
}

/// Replaces a value by another of the same length.
fn replace(calls: &Calls, desk: &mut Desk) -> Answer {
    let key = Key { name: &desk.variable.0, vendor: &desk.variable.1 };
    let request = Request { key, attributes: 0x07, data: DATA, presence: 0, verdict: 0 };
    (calls.set)(desk.context, &desk.session, &mut desk.image, &request)
}

/// The engine's calls with its session lent, whoever else asks.
fn lending(calls: &Calls) -> &Calls {
    if calls.who == ENGINE.who {
        &LENT
    } else {
        calls
    }
}

/// Eight settings as one change.
fn profile(calls: &Calls, desk: &mut Desk) -> Answer {
    (lending(calls).profile)(desk.context, &desk.session, &mut desk.image, &desk.file)
}

/// The same settings, each by a set of its own.
fn eight_sets(calls: &Calls, desk: &mut Desk) -> Answer {
    let mut stores = 0;
    for (name, vendor) in eight() {
        let request = Request { key: Key { name: &name, vendor: &vendor }, attributes: 0x07, data: DATA, presence: 0, verdict: 0 };
        match (lending(calls).set)(desk.context, &desk.session, &mut desk.image, &request) {
            Answer::Done(more) => stores += more,
            other => return other,
        }
    }
    Answer::Done(stores)
}

/// A mode request: from setup mode it stores a mode, from user mode PK goes with it.
fn to_audit(calls: &Calls, desk: &mut Desk) -> Answer {
    (lending(calls).mode)(desk.context, &desk.session, &mut desk.image, AUDIT_MODE)
}

/// Next-name from the first to the end.
fn names(calls: &Calls, desk: &mut Desk) -> Answer {
    let (mut last, mut size) = ([0; 144], 0);
    let Desk { context, session, image, buffer, .. } = desk;
    let vendor = if context.side == MODEM { &MODEMS } else { &VENDOR };
    loop {
        let key = if size == 0 { BEGIN } else { Key { name: &last[16..size], vendor } };
        let reply = (calls.next_name)(*context, session, image, key, &mut buffer[..144]);
        if reply.answer != Answer::Done(0) {
            return reply.answer;
        }
        last.copy_from_slice(&buffer[..144]);
        size = reply.size as usize;
    }
}

fn case(
    name: impl Into<String>,
    variable: Variable,
    region: Vec<u8>,
    blocks: usize,
    turns: usize,
    turn: fn(&Calls, &mut Desk) -> Answer,
    expected: Answer,
) -> Case {
    let image = image(region, blocks);
    let setup = Setup::alone(image.len());
    Case { name: name.into(), variable, image, width: 1, side: OURS, setup, turns, grows: false, turn, expected }
}

/// Two hundred values in seven blocks of which a modem has half, asked by a side; each has a share that is not full.
fn beside_a_modem() -> Vec<Case> {
    let setup = Setup { share: 14000, modem: Tenant { share: 14000, reserve: 0, vendor: MODEMS }, ..Setup::NOTHING };
    let row = |name, side, index, turns, turn, expected| Case {
        side,
        setup,
        ..case(name, by_turns(index), region_with(7, 200, by_turns, 50), 7, turns, turn, expected)
    };
    let end = Answer::Refused(Rule::Absent);
    vec![
        row("get beside a modem, 200", OURS, 198, 20, get, Answer::Done(0)),
        row("get by the modem, 200", MODEM, 199, 20, get, Answer::Done(0)),
        row("next-name beside it, 101 calls", OURS, 0, 2, names, end),
        row("next-name by it, 101 calls", MODEM, 1, 2, names, end),
        row("set in the tail beside it", OURS, 0, 20, replace, Answer::Done(129)),
        row("set in the tail by it", MODEM, 1, 20, replace, Answer::Done(129)),
        row("start-up with a modem, 200", OURS, 0, 20, start, Answer::Done(0)),
    ]
}

/// Full regions of one to seven blocks; more and more values in seven blocks.
fn growing() -> Vec<Case> {
    let mut cases = Vec::new();
    for blocks in 1..=7 {
        let (region, last) = full_of(blocks, single);
        cases.push(case(format!("get the last, b = {blocks}, full"), last, region, blocks, 5, get, Answer::Done(0)));
    }
    for count in COUNTS {
        cases.push(case(format!("get the last of {count}"), numbered(count - 1), region_of(7, count), 7, 10, get, Answer::Done(0)));
    }
    for count in COUNTS {
        cases.push(case(format!("set in the tail, {count}"), numbered(0), region_of(7, count), 7, 10, replace, Answer::Done(129)));
    }
    cases.into_iter().map(|case| Case { grows: true, ..case }).collect()
}

fn cases() -> Vec<Case> {
    let done = Answer::Done;
    let end = Answer::Refused(Rule::Absent);
    let (smallest, last) = full_of(7, single);
    let (alike63, last63) = full_of(7, |index| alike(index, 63));
    let (alike17, last17) = full_of(7, |index| alike(index, 17));
    let (under, last_under) = full_of(7, alike_under);
    let paged = |name, width, stores| Case { width, ..case(name, numbered(0), crowded(204), 7, 5, replace, done(stores)) };
    let mut cases = vec![
        case("get the last of 200 values", numbered(199), region_of(7, 200), 7, 20, get, done(0)),
        case("get the last of 421 smallest", last, smallest.clone(), 7, 5, get, done(0)),
        case("64 names in one call, 200", NONE, region_of(7, 200), 7, 20, many, done(0)),
        case("64 names in one lent call, 200", NONE, region_of(7, 200), 7, 20, many_lent, done(0)),
        case("64 gets one by one, 200", NONE, region_of(7, 200), 7, 1, one_by_one, done(0)),
        case("next-name over 200, 201 calls", NONE, region_of(7, 200), 7, 2, names, end),
        case("set in the tail, 200 values", numbered(0), region_of(7, 200), 7, 20, replace, done(129)),
        case("compact seven blocks, 204", numbered(0), crowded(204), 7, 5, replace, done(57361)),
        case("8 settings in a lent profile", NONE, region_of(7, 200), 7, 5, profile, done(57361)),
        case("8 settings in 8 lent sets", NONE, region_of(7, 200), 7, 5, eight_sets, done(8 * 129)),
        case("setup to audit, lent, 200", NONE, region_of(7, 200), 7, 20, to_audit, done(80)),
        case("user to audit, lent, 200", NONE, in_user_mode(), 7, 5, to_audit, done(57361)),
        paged("compact, 204, w = 2", 2, 28689),
        paged("compact, 204, w = 16", 16, 3601),
        case("replace in the tail, b = 1", numbered(0), region_of(1, 20), 1, 50, replace, done(129)),
        case("check 200 values", NONE, region_of(7, 200), 7, 20, check, done(0)),
        case("check 421 smallest", NONE, smallest, 7, 5, check, done(0)),
        case("start-up, nothing to do, 200", NONE, region_of(7, 200), 7, 20, start, done(0)),
        case("get of 200 long station names", station(199), region_with(7, 200, station, 10), 7, 5, get, done(0)),
        case("get, marks equal, 149 names", last63, alike63, 7, 2, get, done(0)),
        case("get, marks equal, 286 names", last17, alike17, 7, 2, get, done(0)),
        case("get, marks equal, 421 GUIDs", last_under, under, 7, 2, get, done(0)),
    ];
    cases.extend(beside_a_modem());
    cases.extend(growing());
    cases
}

fn wall() {
    println!("{:<30}{:>12}{:>12}{:>8}", "best wall time, µs", "engine", "paper", "ratio");
    for case in cases() {
        case.check();
        if case.grows {
            continue;
        }
        let [engine, paper] = case.best().map(|time| time.as_secs_f64() * 1e6);
        println!("{:<30}{engine:>12.2}{paper:>12.2}{:>8.2}", case.name, engine / paper);
    }
}

fn one(wanted: &str, side: &str, count: usize) {
    let case = cases().into_iter().find(|case| case.name == wanted).expect("a case's name");
    let calls = [ENGINE, LENT, PAPER].into_iter().find(|calls| calls.who == side).expect("engine, lent or paper");
    assert!(count <= case.turns, "{wanted} has {} turns", case.turns);
    let mut desk = case.desk();
    lent(|content| black_box(content.len())); // which makes it, once
    for turn in 0..case.turns {
        case.prepare(&mut desk);
        if turn < count {
            black_box((case.turn)(&calls, &mut desk));
        }
    }
}

fn main() {
    let arguments: Vec<String> = env::args().skip(1).collect();
    let words: Vec<&str> = arguments.iter().map(String::as_str).collect();
    match words[..] {
        [] => wall(),
        ["names"] => cases().iter().for_each(|case| println!("{}\t{}\t{}", case.turns, case.grows, case.name)),
        ["bench-one", name, side, count] => one(name, side, count.parse().expect("a number of turns")),
        _ => panic!("bench, bench names, or bench bench-one NAME SIDE COUNT"),
    }
}
