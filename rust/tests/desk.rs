//! `tools/profile check` beside the second implementation: profiles by chance on images by chance, which one run of the tool's functions judges. Of what the desk does not
//! know there is nothing in them: the image is one that a call takes, and no name is locked.

mod common;

use std::collections::BTreeMap;
use std::io::Write;
use std::path::Path;
use std::process::{Command, Stdio};

use common::generate;
use common::profiles::items;
use common::random::Random;
use common::rounds::rounds;
use varstore::calls::PAPER;
use varstore::interface::{Answer, Context, Key, Session, Setting, Setup, MODEM, RUNTIME};

/// Of each line the last one that the tool prints.
const JUDGE: &str = r#"
import contextlib, io, runpy, sys
sys.path.insert(0, sys.argv[1])
sys.dont_write_bytecode = True
tool = runpy.run_path(sys.argv[1] + "/profile")
from reader import values_of
from rules import Rule
from volumes import entries_of_image

def rule_of(text):
    rule = Rule.__new__(Rule)
    name, vendor, *numbers = text.split("/")
    rule.line, rule.numbers, rule.name, rule.vendor = 1, None, bytes.fromhex(name), bytes.fromhex(vendor)
    rule.least, rule.most, rule.fixed, rule.at, rule.width, rule.low, rule.high = map(int, numbers)
    return rule

for line in sys.stdin:
    file, image, share, modem, side, runtime, *rules = line.rstrip("\n").split(",")
    image = bytes.fromhex(image)
    entries, pending, faults = entries_of_image(image)
    assert not pending and not faults
    station = tool["Station"]([rule_of(rule) for rule in rules], values_of(entries), bytes.fromhex(modem), side == "1", int(runtime) if runtime else None)
    with contextlib.redirect_stdout(io.StringIO()) as said:
        accepted = tool["check"](station, bytes.fromhex(file), int(share), len(image) // 4096 // 2 * 4096)
    last = said.getvalue().splitlines()[-1]
    assert last.startswith("accepted" if accepted else "refused")
    print(last)
"#;

fn hexadecimal(bytes: &[u8]) -> String {
    bytes.iter().map(|byte| format!("{byte:02X}")).collect()
}

/// A rule that the desk's text can have: the field is of 1, 2 or 4 bytes, and between two numbers.
fn some_rule(r: &mut Random, key: Key, data: &[u8]) -> Setting {
    let rule = Setting::any(key).sized(r.pick(&[0, 1, 2, 4]), r.pick(&[1, 4, 60, 2048])).field(r.pick(&[0, 0, 1, 3]), r.pick(&[1, 2, 4]));
    let first = u32::from(data.first().copied().unwrap_or(0));
    let rule = if r.once_in(2) { rule.between(0, u32::MAX) } else { rule.between(first, r.pick(&[first, first + 1, 0xFFFF])) };
    Setting { fixed: u32::from(r.once_in(8)), ..rule }
}

/// What the tool is told, and what the second implementation answers, in the tool's words.
fn case(r: &mut Random) -> Option<(String, String)> {
    let (image, _) = generate::image(r);
    if (PAPER.check)(&image).answer != Answer::Done(0) {
        return None;
    }
    let modem = generate::session(r).setup.modem;
    let mut session: Session = (PAPER.session_new)(&Setup { modem, reserve: r.pick(&[0, 1, 100, 4096]), ..Setup::alone(image.len()) });
    session.setup.modem.share = session.setup.share;
    session.phase = r.pick(&[0, 0, RUNTIME]);
    let profile = generate::profile(r, &session.setup, &image);
    if r.once_in(2) {
        generate::room_for_items(r, &mut session, &image, &profile);
    }
    let mut rules = vec![];
    if let Some(item) = items(&profile.file).unwrap_or_default().last().filter(|item| r.once_in(3) && item.name.name.len() <= 128) {
        rules.push(some_rule(r, item.name.key(), &item.data));
    }
    session.setup = session.setup.ruled(&rules);
    let (share, reserve) = match profile.side {
        MODEM => (session.setup.modem.share, session.setup.modem.reserve),
        _ => (session.setup.share, session.setup.reserve),
    };
    let runtime = if session.phase == RUNTIME { reserve.min(4096).to_string() } else { String::new() };
    let mut told = vec![hexadecimal(&profile.file), hexadecimal(&image), share.to_string(), hexadecimal(&session.setup.modem.vendor)];
    told.extend([u32::from(profile.side == MODEM).to_string(), runtime]);
    told.extend(rules.iter().map(|rule| {
        let numbers = [rule.least, rule.most, rule.fixed, rule.at, rule.width, rule.low, rule.high].map(|number| number.to_string());
        [hexadecimal(&rule.name[..rule.size as usize]), hexadecimal(&rule.vendor), numbers.join("/")].join("/")
    }));
    let answer = match (PAPER.profile)(Context::NO_LIMIT.by(profile.side), &session, &mut image.clone(), &profile.file) {
        Answer::Refused(rule) => format!("refused with {}", rule.number()),
        Answer::Done(0) => "accepted: nothing differs".into(),
        _ => "accepted: one compaction".into(),
    };
    Some((told.join(","), answer))
}

#[test]
fn the_desk_answers_alike() {
    let mut cases: Vec<(String, String)> = vec![];
    rounds(1, 3000, |r| cases.extend(case(r)));
    let tools = Path::new(env!("CARGO_MANIFEST_DIR")).join("../tools");
    let mut python = Command::new("python3").args(["-c", JUDGE]).arg(tools).stdin(Stdio::piped()).stdout(Stdio::piped()).spawn().expect("python3");
    let mut input = python.stdin.take().expect("piped");
    let text: String = cases.iter().map(|(told, _)| format!("{told}\n")).collect();
    let writer = std::thread::spawn(move || input.write_all(text.as_bytes()).expect("it reads all"));
    let output = python.wait_with_output().expect("it ends");
    writer.join().expect("written");
    let said = String::from_utf8(output.stdout).expect("text");
    assert_eq!(said.lines().count(), cases.len());
    let mut tally: BTreeMap<&str, usize> = BTreeMap::new();
    for ((told, answer), line) in cases.iter().zip(said.lines()) {
        let rest = line.strip_prefix(answer.as_str());
        assert!(
            rest.is_some_and(|rest| !rest.starts_with(|next: char| next.is_ascii_digit())),
            "{line:?}, and the second implementation: {answer}: {told}"
        );
        *tally.entry(answer).or_default() += 1;
    }
    println!("{} cases: {tally:?}", cases.len());
    for rule in [3, 4, 5, 7, 11, 12, 13, 17, 21, 22, 24, 25, 26] {
        assert!(tally.contains_key(&*format!("refused with {rule}")), "no {rule}: {tally:?}");
    }
    assert!(tally["accepted: one compaction"] > 30 && tally["accepted: nothing differs"] > 10, "{tally:?}");
}
