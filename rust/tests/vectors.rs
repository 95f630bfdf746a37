//! Calls with expected answers, from files: one line is one operation, with what is given and what is expected as `key=value`. Every line is run
//! through both implementations, and every field that it gives is checked.
//!
//!     image len rle · poke off rle · save slot · load slot · session phase custom reserve count sizes locks
//!     set name guid attrs data presence verdict n      get/next name guid buflen fill n (buffer of buflen bytes, all fill)
//!     startup custom reserve n · format n · lock name guid · phase to · varlist
//!     set, startup and format also dead (02 (h): addresses joined by `,`, which may be more than 16; `-` none) and w (02 (i))
//!     session and startup also hw (02 (a): H) and rules (02 (e): joined by `;`, which may be more than 32; `-` none)
//!     session and startup also share, modem, share1 and reserve1 (02 (f): our share, the modem's GUID, share and reserve); set, get, next and lock also side
//!     many names buflen fill n, and side (02 (g): names as name/guid joined by `;`, which may be more than 64; `-` none)
//!     profile file dead w n, and side (02 (l): file is the file's bytes)
//!     mode to dead w n, and side (02 (j): to is 2 for audit, 3 for deployed; others ask for what 24 refuses)
//!     move src to (02 (d): from the image in slot src into the current one; to is `new` or `plain`)
//!     season script (02 (m): the bytes of standard input; uses neither image nor session)
//!
//! A session or startup without shares is that of a station without a modem: our share is what 28 and H leave of L, the rest 0.
//!
//! A line that a request of document 02 has changed says `why`: the sentence, with `_` for a space; also where only the image is another than it was.
//!
//! One rule is name/guid/smallest/largest/readonly/offset/width/field, its field `between:LOW:HIGH`, or `list` and `:number` for each, which may be more than eight.
//!
//! `many` expects `items`: for each name `done/SIZE/ATTRS` or `refused/RULE`, joined by `;`, and `-` where there are none.
//!
//! `rle` is tokens joined by `,`, hexadecimal bytes or `hh*count`; `-` is the empty string. A text has `_` for a space and `|` for a line end; `-` is none.

mod common;

use std::collections::HashMap;
use std::path::Path;

use common::digest::{crc32, sha256};
use common::generate::{Asked, Name};
use common::profiles::Profile;
use common::programs::printed;
use common::stored::{carry_out, Call};
use varstore::calls::{lent, Calls, BOTH, PAPER};
use varstore::interface::{Answer, Context, Guid, Key, Reply, Rule, Session, Setting, Setup, Tenant, OURS};
use varstore::paper::{self, Made};

/// The fields of one line, and where it stands.
struct Line<'a> {
    place: String,
    fields: HashMap<&'a str, &'a str>,
}

/// What a line may give; every field that is not an argument is checked.
const ARGUMENTS: &str =
    "why op len rle off slot phase custom reserve count sizes locks name guid attrs data presence verdict dead w hw rules modem share share1 reserve1 side n buflen fill to src names file script";
const EXPECTED: &str =
    "answer rule stores list deciding made size attrs_out buf_sha256 items text sha256 crc32 s_phase s_custom s_reserve s_hw s_count s_sizes s_locks s_modem s_share s_share1 s_reserve1";

impl<'a> Line<'a> {
    fn new(place: String, text: &'a str) -> Line<'a> {
        let fields: HashMap<_, _> =
            text.split(' ').map(|field| field.split_once('=').unwrap_or_else(|| panic!("{place}: no field: {field}"))).collect();
        for key in fields.keys() {
            assert!([ARGUMENTS, EXPECTED].iter().any(|known| known.split(' ').any(|word| word == *key)), "{place}: what is {key}?");
        }
        Line { place, fields }
    }

    fn text(&self, key: &str) -> &'a str {
        self.fields.get(key).unwrap_or_else(|| panic!("{}: {key} is missing", self.place))
    }

    fn number(&self, key: &str) -> u32 {
        self.text(key).parse().unwrap_or_else(|_| panic!("{}: {key} is not a number", self.place))
    }

    /// A field that only the lines of some files have.
    fn number_or(&self, key: &str, absent: u32) -> u32 {
        self.fields.get(key).map_or(absent, |_| self.number(key))
    }

    fn bytes(&self, key: &str) -> Vec<u8> {
        unpacked(self.text(key)).unwrap_or_else(|| panic!("{}: {key} is not bytes", self.place))
    }

    /// The rules of a session or start-up; lines of older files give none.
    fn rules(&self) -> Vec<Setting> {
        let text = self.fields.get("rules").filter(|&&text| text != "-");
        let rule = |text| rule(text).unwrap_or_else(|| panic!("{}: no rule: {text}", self.place));
        text.map_or(vec![], |text| text.split(';').map(rule).collect())
    }

    /// The names that a call asks for at once.
    fn names(&self) -> Vec<Name> {
        let name = |text: &str| {
            let (name, vendor) = text.split_once('/')?;
            Some(Name { name: unpacked(name)?, vendor: unpacked(vendor)?.try_into().ok()? })
        };
        let named = |text| name(text).unwrap_or_else(|| panic!("{}: no name: {text}", self.place));
        match self.text("names") {
            "-" => vec![],
            text => text.split(';').map(named).collect(),
        }
    }

    fn guid(&self, key: &str) -> Guid {
        self.bytes(key).try_into().unwrap_or_else(|_| panic!("{}: a GUID has 16 bytes", self.place))
    }

    /// Lines of older files have no shares.
    fn has_shares(&self) -> bool {
        self.fields.contains_key("share")
    }

    fn side(&self) -> u32 {
        self.number_or("side", OURS)
    }

    /// Of more dead addresses than have a place, those that fit go over, and the full count.
    fn context(&self) -> Context {
        let dead = self.fields.get("dead").filter(|&&text| text != "-");
        let dead: Vec<u32> = dead.map_or(vec![], |text| text.split(',').map(|address| address.parse().expect("an address")).collect());
        Context::worn(self.number("n").into(), &dead).paged(self.number_or("w", 1)).by(self.side())
    }

    /// Checks a field if the line gives it.
    fn expect(&self, key: &str, found: &str) {
        self.expect_made(key, || found.into());
    }

    /// The same for what takes time to find.
    fn expect_made(&self, key: &str, found: impl Fn() -> String) {
        if let Some(&expected) = self.fields.get(key) {
            let found = found();
            assert!(expected == found, "{}: {key} is {found}, expected {expected}", self.place);
        }
    }

    fn expect_bytes(&self, key: &str, found: &[u8]) {
        if self.fields.contains_key(key) {
            assert!(self.bytes(key) == found, "{}: {key} differs", self.place);
        }
    }
}

fn unpacked(text: &str) -> Option<Vec<u8>> {
    let mut bytes = Vec::new();
    for token in text.split(',').filter(|&token| token != "-") {
        let (digits, count) = token.split_once('*').map_or(Some((token, 1)), |(digits, count)| Some((digits, count.parse().ok()?)))?;
        let run: Option<Vec<u8>> = (0..digits.len()).step_by(2).map(|at| u8::from_str_radix(digits.get(at..at + 2)?, 16).ok()).collect();
        bytes.extend_from_slice(&run?.repeat(count));
    }
    Some(bytes)
}

/// One rule of 02 (e).
fn rule(text: &str) -> Option<Setting> {
    let parts: Vec<&str> = text.split('/').collect();
    let [name, vendor, least, most, fixed, at, width, field] = parts[..] else { return None };
    let (name, vendor): (Vec<u8>, Guid) = (unpacked(name)?, unpacked(vendor)?.try_into().ok()?);
    let number = |text: &str| text.parse::<u32>().ok();
    let setting = Setting::any(Key { name: &name, vendor: &vendor }).sized(number(least)?, number(most)?).field(number(at)?, number(width)?);
    let mut parts = field.split(':');
    let kind = parts.next()?;
    let numbers: Vec<u32> = parts.map(number).collect::<Option<_>>()?;
    let setting = match (kind, &numbers[..]) {
        ("between", &[low, high]) => setting.between(low, high),
        ("list", _) => setting.one_of(&numbers),
        _ => return None,
    };
    Some(Setting { fixed: number(fixed)?, ..setting })
}

/// One implementation's current image, session and slots.
struct Player {
    calls: Calls,
    image: Vec<u8>,
    session: Session,
    /// The session's line had no shares: ours goes by the current image.
    alone: bool,
    slots: [Vec<u8>; 8],
}

impl Player {
    fn new(calls: Calls) -> Player {
        Player { calls, image: Vec::new(), session: (calls.session_new)(&Setup::NOTHING), alone: true, slots: Default::default() }
    }

    fn run(&mut self, line: &Line) {
        if self.alone {
            self.session.setup.share = Setup::alone(self.image.len()).with_records(self.session.setup.records).share;
        }
        match line.text("op") {
            "image" => self.image(line),
            "poke" => {
                let (at, bytes) = (line.number("off") as usize, line.bytes("rle"));
                self.image[at..][..bytes.len()].copy_from_slice(&bytes);
            }
            "save" => self.slots[line.number("slot") as usize] = self.image.clone(),
            "load" => self.image = self.slots[line.number("slot") as usize].clone(),
            "session" => (self.session, self.alone) = (session(line), !line.has_shares()),
            "set" => self.set(line),
            "get" => self.read(line, self.calls.get),
            "next" => self.read(line, self.calls.next_name),
            "many" => self.many(line),
            "profile" => self.store(line, &Call::Profile(Profile { file: line.bytes("file"), side: line.side() })),
            "mode" => self.store(line, &Call::Mode { to: line.number("to"), side: line.side() }),
            "startup" => self.start_up(line),
            "format" => self.store(line, &Call::Format),
            "lock" => self.lock(line),
            "phase" => self.session = (self.calls.phase)(self.session, line.number("to")),
            "varlist" => self.varlist(line),
            "move" => self.moved(line),
            "season" => season(line),
            other => panic!("{}: no such operation: {other}", line.place),
        }
        self.expect_state(line);
    }

    fn image(&mut self, line: &Line) {
        self.image = line.bytes("rle");
        assert_eq!(self.image.len(), line.number("len") as usize, "{}: length", line.place);
    }

    fn set(&mut self, line: &Line) {
        let name = Name { name: line.bytes("name"), vendor: line.guid("guid") };
        let (attributes, presence, verdict) = (line.number("attrs"), line.number("presence"), line.number("verdict"));
        self.store(line, &Call::Set(Asked { name, attributes, data: line.bytes("data"), presence, verdict, side: line.side() }));
    }

    fn start_up(&mut self, line: &Line) {
        self.store(line, &Call::StartUp(setup(line, self.image.len())));
        self.alone = !line.has_shares();
    }

    fn store(&mut self, line: &Line, call: &Call) {
        let list = self.list(line, call);
        let (answer, session) = call.by(&self.calls, line.context(), &self.session, &mut self.image);
        self.session = session;
        expect_answer(line, answer);
        expect_list(line, answer, list);
    }

    /// The paper's list, or the engine's plan, made on a copy of the image.
    fn list(&self, line: &Line, call: &Call) -> Result<List, Rule> {
        let (context, mut image) = (line.context(), self.image.clone());
        let w = paper::width(&context);
        if self.calls.who == PAPER.who {
            let list = call.stores(w, &self.session, &self.image)?;
            let made = list.make_worn(context.limit, paper::dead(&context), &mut image);
            return Ok(List { length: list.len(), deciding: list.deciding(), made });
        }
        lent(|content| {
            let plan = call.plan(&self.session, &self.image, content)?;
            let made = carry_out(&plan, content, &context, &mut image);
            Ok(List { length: plan.count(w), deciding: plan.deciding_store(w), made })
        })
    }

    fn read(&mut self, line: &Line, call: fn(Context, &Session, &[u8], Key, &mut [u8]) -> Reply) {
        let (name, vendor) = (line.bytes("name"), line.guid("guid"));
        let mut buffer = vec![line.number("fill") as u8; line.number("buflen") as usize];
        let reply = call(line.context(), &self.session, &self.image, Key { name: &name, vendor: &vendor }, &mut buffer);
        expect_answer(line, reply.answer);
        line.expect("size", &reply.size.to_string());
        line.expect("attrs_out", &reply.attributes.to_string());
        line.expect("buf_sha256", &sha256(&buffer));
    }

    fn many(&mut self, line: &Line) {
        let names = line.names();
        let keys: Vec<Key> = names.iter().map(Name::key).collect();
        let mut buffer = vec![line.number("fill") as u8; line.number("buflen") as usize];
        let replies = (self.calls.get_many)(line.context(), &self.session, &self.image, &keys, &mut buffer);
        expect_answer(line, replies.answer);
        line.expect("items", &items(&replies.items));
        line.expect("buf_sha256", &sha256(&buffer));
    }

    fn lock(&mut self, line: &Line) {
        let listed = (self.calls.lock)(self.session, line.side(), Key { name: &line.bytes("name"), vendor: &line.guid("guid") });
        self.session = listed.session;
        expect_answer(line, listed.answer);
    }

    fn moved(&mut self, line: &Line) {
        let call = match line.text("to") {
            "new" => self.calls.from_plain,
            "plain" => self.calls.to_plain,
            other => panic!("{}: no such form: {other}", line.place),
        };
        expect_answer(line, call(&self.slots[line.number("src") as usize], &mut self.image));
    }

    fn varlist(&mut self, line: &Line) {
        line.expect("text", &written(&paper::varlist(&self.image)));
        line.expect("text", &written(&printed("varlist", &self.image)));
    }

    fn expect_state(&self, line: &Line) {
        line.expect_made("sha256", || sha256(&self.image));
        line.expect_made("crc32", || crc32(&self.image).to_string());
        line.expect("s_phase", &self.session.phase.to_string());
        line.expect("s_custom", &self.session.setup.custom.to_string());
        line.expect("s_reserve", &self.session.setup.reserve.to_string());
        line.expect("s_hw", &self.session.setup.records.to_string());
        line.expect("s_count", &self.session.count.to_string());
        line.expect("s_sizes", &self.session.sizes.map(|size| size.to_string()).join(","));
        line.expect_bytes("s_locks", &self.session.locks);
        line.expect("s_share", &self.session.setup.share.to_string());
        line.expect("s_share1", &self.session.setup.modem.share.to_string());
        line.expect("s_reserve1", &self.session.setup.modem.reserve.to_string());
        line.expect_bytes("s_modem", &self.session.setup.modem.vendor);
    }
}

/// On an image of so many bytes.
fn setup(line: &Line, image_len: usize) -> Setup {
    let (custom, reserve, records) = (line.number("custom"), line.number("reserve"), line.number_or("hw", 0));
    let mut setup = Setup { custom, reserve, ..Setup::alone(image_len) }.with_records(records);
    if line.has_shares() {
        setup.share = line.number("share");
        setup.modem = Tenant { share: line.number("share1"), reserve: line.number("reserve1"), vendor: line.guid("modem") };
    }
    setup.ruled(&line.rules())
}

fn session(line: &Line) -> Session {
    let sizes: Vec<u32> = line.text("sizes").split(',').map(|size| size.parse().expect("a size")).collect();
    Session {
        phase: line.number("phase"),
        setup: setup(line, 0),
        count: line.number("count"),
        sizes: sizes.try_into().expect("16 sizes"),
        locks: line.bytes("locks").try_into().expect("2,304 bytes"),
    }
}

/// `stores` is the answer's number if done, n if stopped, 0 if refused.
fn expect_answer(line: &Line, answer: Answer) {
    let (kind, rule, stores) = match answer {
        Answer::Done(stores) => ("done", 0, stores),
        Answer::Stopped => ("stopped", 0, line.context().limit),
        Answer::Refused(rule) => ("refused", rule.number(), 0),
    };
    line.expect("answer", kind);
    line.expect("rule", &rule.to_string());
    line.expect("stores", &stores.to_string());
}

fn items(replies: &[Reply]) -> String {
    let item = |reply: &Reply| match reply.answer {
        Answer::Refused(rule) => format!("refused/{}", rule.number()),
        _ => format!("done/{}/{}", reply.size, reply.attributes),
    };
    match replies {
        [] => "-".into(),
        _ => replies.iter().map(item).collect::<Vec<_>>().join(";"),
    }
}

/// A list's length, the index of its deciding store, and what has come of it.
#[derive(Clone, Copy)]
struct List {
    length: usize,
    deciding: Option<usize>,
    made: Made,
}

/// The call is stopped exactly if the list is longer than n, but where a store fails before.
fn expect_list(line: &Line, answer: Answer, list: Result<List, Rule>) {
    let List { length, deciding, made } = list.unwrap_or(List { length: 0, deciding: None, made: Made { stores: 0, failed: false } });
    line.expect("list", &length.to_string());
    line.expect("deciding", &deciding.map_or("-1".into(), |index| index.to_string()));
    line.expect("made", &made.stores.to_string());
    if list.is_ok() {
        let longer = length as u64 > line.context().limit;
        assert_eq!(answer == Answer::Stopped, longer && !made.failed, "{}: stopped exactly if list > n", line.place);
        assert_eq!(answer == Answer::Refused(Rule::Worn), made.failed, "{}: 23 exactly if a store fails", line.place);
    }
}

/// A text as lines give it.
fn written(text: &str) -> String {
    match text {
        "" => "-".into(),
        _ => text.replace(' ', "_").replace('\n', "|"),
    }
}

fn season(line: &Line) {
    let script = line.bytes("script");
    line.expect("text", &written(&paper::season(&script)));
    line.expect("text", &written(&printed("season", &script)));
}

fn run_file(name: &str, lines: usize, changed: usize) {
    let path = Path::new(env!("CARGO_MANIFEST_DIR")).join("vectors").join(name);
    let text = std::fs::read_to_string(&path).unwrap_or_else(|error| panic!("{}: {error}", path.display()));
    assert_eq!(text.lines().count(), lines, "lines of {name}");
    assert_eq!(text.lines().filter(|line| line.contains(" why=")).count(), changed, "lines of {name} that say why");
    for calls in BOTH {
        let mut player = Player::new(calls);
        for (index, content) in text.lines().enumerate() {
            player.run(&Line::new(format!("{} on vectors/{name}:{}", calls.who, index + 1), content));
        }
    }
}

#[test]
fn directed() {
    run_file("directed.txt", 1400, 8);
}

#[test]
fn random() {
    run_file("random.txt", 1101, 37);
}

/// 02 (b): appends out of order.
#[test]
fn appends_out_of_order() {
    run_file("b.txt", 228, 0);
}

/// 02 (d): the plain layout.
#[test]
fn stations_with_the_plain_layout() {
    run_file("d.txt", 451, 0);
}

/// 02 (h): dead bytes.
#[test]
fn flash_bytes_that_have_died() {
    run_file("h.txt", 465, 0);
}

/// 02 (i): stores of a page.
#[test]
fn chips_that_program_a_page() {
    run_file("i.txt", 512, 0);
}

/// 02 (a): hardware error records.
#[test]
fn hardware_error_records() {
    run_file("a.txt", 444, 5);
}

/// 02 (e): rules for settings.
#[test]
fn settings_that_must_make_sense() {
    run_file("e.txt", 392, 9);
}

/// 02 (f): a second tenant in the same region.
#[test]
fn a_second_tenant() {
    run_file("f.txt", 481, 0);
}

/// 02 (g): up to 64 names in one call.
#[test]
fn sixty_four_settings_in_one_call() {
    run_file("g.txt", 269, 0);
}

/// 02 (l): up to eight settings as one change.
#[test]
fn a_station_profile_as_one_change() {
    run_file("l.txt", 399, 3);
}

/// 02 (j): audit and deployed modes.
#[test]
fn audit_and_deployed_modes() {
    run_file("j.txt", 608, 0);
}

/// 02 (m): a season tried on the desk.
#[test]
fn a_season_tried_on_the_desk() {
    run_file("m.txt", 165, 0);
}

#[test]
fn digests_are_right() {
    assert_eq!(sha256(b"abc"), "ba7816bf8f01cfea414140de5dae2223b00361a396177a9cb410ff61f20015ad");
    assert_eq!(crc32(b"123456789"), 0xCBF4_3926);
}
