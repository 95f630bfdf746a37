//! 02 (m): a season tried on the desk. The program `season` and the second implementation print the same text of every script: lines worked out by hand, every limit
//! of the form (27), and scripts by chance, whole and damaged. `make season` builds the program.

mod common;

use std::collections::BTreeMap;

use common::profiles::{item, number, sized};
use common::programs::printed;
use common::random::Random;
use common::rounds::rounds;
use common::{A, B, NEW, OLD, RATE};
use varstore::interface::{Guid, Key};
use varstore::paper;
use varstore::paper::request::PK;

const X: Key = Key { name: b"X\0\0\0", ..A };
const Y: Key = Key { name: b"Y\0\0\0", ..A };
const REFUSED: &str = "refused 27\n";

fn set(key: Key, data: &[u8]) -> Vec<u8> {
    [number(0), item(key, 0x07, data)].concat()
}

fn delete(key: Key, attributes: u32) -> Vec<u8> {
    [number(1), item(key, attributes, &[])].concat()
}

fn cut(n: usize, key: Key, data: &[u8]) -> Vec<u8> {
    [number(2), number(n), item(key, 0x07, data)].concat()
}

fn script(blocks: usize, steps: &[Vec<u8>]) -> Vec<u8> {
    [number(blocks), number(steps.len()), steps.concat()].concat()
}

/// What both print.
fn played(script: &[u8]) -> String {
    let text = paper::season(script);
    assert_eq!(printed("season", script), text, "{} bytes: {:02X?}", script.len(), &script[..script.len().min(64)]);
    text
}

fn expect(blocks: usize, steps: &[Vec<u8>], lines: &[&str]) {
    let text = played(&script(blocks, steps));
    assert_eq!(text.lines().collect::<Vec<_>>(), lines);
}

/// X, Y and A fill a region of one block: 28, 2,112, 1,888 and 68 bytes. Every other value of A is then one compaction.
fn full() -> Vec<Vec<u8>> {
    vec![set(X, &[1; 2048]), set(Y, &[2; 1824]), set(A, &[0])]
}

const FULL: [&str; 3] = ["done 2113 2140 0", "done 1889 4028 0", "done 66 4096 0"];

fn after_full(steps: &[Vec<u8>], lines: &[&str]) {
    expect(1, &[full(), steps.to_vec()].concat(), &[&FULL, lines].concat());
}

#[test]
fn the_papers_first_value() {
    for blocks in 1..=7 {
        expect(blocks, &[set(RATE, OLD)], &["done 75 104 0"]);
    }
}

#[test]
fn set_again_other_deleted() {
    let lines = ["done 75 104 0", "done 0 104 0", "done 77 180 0", "refused 7 0 180 0", "done 1 180 0", "refused 11 0 180 0", "refused 11 0 180 0"];
    let steps = [set(RATE, OLD), set(RATE, OLD), set(RATE, NEW), delete(RATE, 0x03), delete(RATE, 0x07), delete(RATE, 0x07), set(RATE, &[])];
    expect(1, &steps, &lines);
}

/// The boot phase, our side, no modem: its GUID is zeros.
#[test]
fn rules_that_a_step_meets() {
    const ZERO: Guid = [0; 16];
    let steps = [
        set(Key { name: b"A\0", ..A }, &[1]),
        set(Key { vendor: &ZERO, ..A }, &[1]),
        set(PK, &[1]),
        set(common::RECORD, &[1]),
        set(A, &[1; 2049]),
        set(A, &[1; 2048]),
    ];
    expect(1, &steps, &["refused 3 0 28 0", "refused 22 0 28 0", "refused 5 0 28 0", "refused 17 0 28 0", "refused 12 0 28 0", "done 2113 2140 0"]);
    after_full(&[set(B, &[1])], &["refused 13 0 4096 0"]);
}

/// The header's bytes are stores 0 to 58, the state 59; without the whole start id the walk finds no entry, and what is stored is wiped by a compaction.
#[test]
fn cut_in_the_tail() {
    let tail = |n| cut(n, RATE, OLD);
    expect(1, &[tail(0)], &["stopped 0 28 0"]);
    expect(1, &[tail(1)], &["stopped 8198 28 2"]);
    expect(1, &[tail(2)], &["stopped 2 88 0"]);
    expect(1, &[tail(59)], &["stopped 59 88 0"]);
    expect(1, &[tail(60)], &["stopped 60 104 0"]);
    expect(1, &[tail(74), set(RATE, OLD)], &["stopped 74 104 0", "done 75 180 0"]);
    expect(1, &[tail(75), set(RATE, OLD)], &["done 75 104 0", "done 0 104 0"]);
    expect(1, &[tail(2_097_151)], &["done 75 104 0"]);
    // the new value stands, the old one is not yet marked
    expect(1, &[set(RATE, OLD), cut(76, RATE, NEW), set(RATE, NEW)], &["done 75 104 0", "stopped 76 180 0", "done 0 180 0"]);
}

/// FE, 4,096 bytes, FC, an erase, 4,096 bytes, F8, an erase. The start-up comes after every step of kind 2.
#[test]
fn cut_in_a_compaction() {
    let again = "done 0 4096 2";
    after_full(&[set(A, &[1])], &["done 8197 4096 2"]);
    after_full(&[cut(0, A, &[1])], &["stopped 0 4096 0"]);
    after_full(&[cut(1, A, &[1])], &["stopped 1 4096 0"]);
    after_full(&[cut(2, A, &[1]), set(A, &[0])], &["stopped 3 4096 1", "done 0 4096 1"]);
    after_full(&[cut(4097, A, &[1]), set(A, &[0])], &["stopped 4098 4096 1", "done 0 4096 1"]);
    after_full(&[cut(4098, A, &[1]), set(A, &[1])], &["stopped 8197 4096 2", again]);
    // the region is erased, and once more
    after_full(&[cut(4099, A, &[1]), set(A, &[1])], &["stopped 8198 4096 3", "done 0 4096 3"]);
    after_full(&[cut(8195, A, &[1]), set(A, &[1])], &["stopped 12294 4096 3", "done 0 4096 3"]);
    after_full(&[cut(8196, A, &[1]), set(A, &[1])], &["stopped 8197 4096 2", again]);
    after_full(&[cut(8197, A, &[1]), set(A, &[1])], &["done 8197 4096 2", again]);
    after_full(&[cut(0, B, &[1])], &["refused 13 0 4096 0"]);
}

/// A compaction of b blocks erases 2b; the one that finds 64 records used erases the work block too.
#[test]
fn erases_add_up() {
    let steps: Vec<Vec<u8>> = (1..=130).map(|turn| set(A, &[turn as u8])).collect();
    let lines: Vec<String> = (1..=130)
        .map(|turn| {
            let wiped = (turn - 1) / 64;
            format!("done {} 4096 {}", 8197 + u32::from(turn > 1 && (turn - 1) % 64 == 0), 2 * turn + wiped)
        })
        .collect();
    after_full(&steps, &lines.iter().map(String::as_str).collect::<Vec<_>>());
    let large: Vec<Vec<u8>> = (0..31).map(|turn| set(A, &[turn as u8; 2048])).collect();
    for blocks in 1..=7 {
        let text = played(&script(blocks, &large));
        let last: usize = text.lines().last().and_then(|line| line.split(' ').nth(3)).and_then(|erases| erases.parse().ok()).expect("a number");
        let (fitting, room) = ((4096 * blocks - 28) / 2112, 4096 * blocks - 28 - 2112);
        assert_eq!(last, 2 * blocks * (31 - fitting).div_ceil(room / 2112 + 1), "{blocks} blocks: {text}");
    }
}

#[test]
fn what_is_no_script() {
    let good = script(1, &[set(RATE, OLD)]);
    assert_eq!(played(&good), "done 75 104 0\n");
    for front in 0..good.len() {
        assert_eq!(played(&good[..front]), REFUSED, "{front} bytes");
    }
    assert_eq!(played(&[&good[..], &[0]].concat()), REFUSED);
    for blocks in [0, 8, 128, 2_097_151] {
        assert_eq!(played(&script(blocks, &[])), REFUSED);
    }
    for blocks in 1..=7 {
        assert_eq!(played(&script(blocks, &[])), "");
    }
    for kind in [3, 4, 127, 128, 300] {
        assert_eq!(played(&script(1, &[[number(kind), item(RATE, 0x07, &[])].concat()])), REFUSED);
    }
    assert_eq!(played(&script(1, &[[number(1), item(RATE, 0x07, OLD)].concat()])), REFUSED);
    for attributes in [0, 1, 2, 4, 0x0F, 0x23, 0x27, 0x43, 0x47, 0x83] {
        assert_eq!(played(&script(1, &[[number(0), item(RATE, attributes, OLD)].concat()])), REFUSED);
    }
    assert_eq!(played(&script(1, &[[number(0), item(RATE, 0x03, OLD)].concat()])), "done 75 104 0\n");
    // another form than the shortest, and four groups
    assert_eq!(played(&[0x81, 0x00, 0x00]), REFUSED);
    assert_eq!(played(&[0x01, 0x80, 0x00]), REFUSED);
    assert_eq!(played(&[&[0x01, 0x01, 0x80, 0x00], &item(RATE, 0x07, OLD)[..]].concat()), REFUSED);
    assert_eq!(played(&script(1, &[[&[0x02, 0x80, 0x80, 0x80, 0x01], &item(RATE, 0x07, OLD)[..]].concat()])), REFUSED);
    assert_eq!(played(&script(1, &[[&[0x02, 0x80, 0x00], &item(RATE, 0x07, OLD)[..]].concat()])), REFUSED);
    assert_eq!(played(&script(1, &[[number(0), sized([vec![0x87, 0x00], number(10), number(4)], RATE, OLD)].concat()])), REFUSED);
    // a fault in the last step: no step is played
    assert_eq!(played(&script(1, &[set(RATE, OLD), delete(RATE, 0x07), [number(3), item(RATE, 0x07, OLD)].concat()])), REFUSED);
}

#[test]
fn five_hundred_steps() {
    let steps = vec![set(A, &[1]); 500];
    assert_eq!(played(&script(1, &steps)).lines().count(), 500);
    assert_eq!(played(&script(1, &vec![set(A, &[1]); 501])), REFUSED);
}

/// 65,536 bytes, and one more: the last step's name takes up what is left.
#[test]
fn the_longest_script() {
    for (length, lines) in [(65_535, 2), (65_536, 2), (65_537, 1), (65_538, 1), (100_000, 1), (1 << 20, 1)] {
        let name = vec![0x41; length - script(1, &[set(RATE, OLD), set(Key { name: &vec![0x41; 20_000], ..A }, &[])]).len() + 20_000];
        let long = script(1, &[set(RATE, OLD), set(Key { name: &name, ..A }, &[])]);
        assert_eq!(long.len(), length);
        let text = played(&long);
        assert_eq!(text.lines().count(), lines);
        assert_eq!(text == REFUSED, lines == 1);
    }
}

/// A season of few names, with sizes that fill the region now and then; of b = 1 mostly, where compactions are most frequent.
fn season(r: &mut Random) -> Vec<u8> {
    let names: [&[u8]; 6] = [b"A\0\0\0", b"B\0\0\0", b"R\0A\0T\0E\0\0\0", b"G\0A\0I\0N\0\0\0", b"T\0\0\0", b"M\0A\0P\0\0\0"];
    let blocks = r.pick(&[1, 1, 1, 1, 2, 2, 3, 7]);
    let sizes: &[usize] = r.pick(&[&[1, 4, 8][..], &[4, 60, 300], &[300, 900, 1500, 2048], &[1, 500, 2047, 2048, 2049]]);
    let (count, limit) = (r.below(40) + 1, r.pick(&[80, 4200, 8300, 9000, 20_000]));
    let mut steps = vec![];
    for _ in 0..count {
        let few = r.pick(&[3, 3, 6]);
        let key = Key { name: r.pick(&names[..few]), ..A };
        let key = if r.once_in(40) { r.pick(&[PK, common::RECORD, Key { name: b"A\0", ..A }, Key { vendor: &[0; 16], ..A }]) } else { key };
        let attributes = if r.once_in(20) { 0x03 } else { 0x07 };
        let size = if r.once_in(8) { 0 } else { r.pick(sizes) };
        let data = vec![r.pick(&[0x00, 0x01, 0x5A, 0xFF]); size];
        let n = r.below(limit);
        steps.push(match r.below(8) {
            0 => delete(key, attributes),
            1..=3 => [number(2), number(r.pick(&[0, 1, 2, 59, 60, 4097, 4098, n, n, n])), item(key, attributes, &data)].concat(),
            _ => [number(0), item(key, attributes, &data)].concat(),
        });
    }
    script(blocks, &steps)
}

/// A byte changed, taken out or put in somewhere, more often in the front.
fn damaged(r: &mut Random, script: &mut Vec<u8>) {
    let at = if r.once_in(2) { r.below(script.len().min(6)) } else { r.below(script.len()) };
    match r.below(3) {
        0 => script[at] = r.byte(),
        1 => drop(script.remove(at)),
        _ => script.insert(at, r.byte()),
    }
}

#[test]
fn seasons_by_chance() {
    let mut tally: BTreeMap<String, usize> = BTreeMap::new();
    let played = rounds(5, 300, |r| {
        let mut script = season(r);
        if r.once_in(4) {
            damaged(r, &mut script);
        }
        for line in played(&script).lines() {
            let words: Vec<&str> = line.split(' ').collect();
            let word = if words[0] == "refused" { words[..2].join(" ") } else { words[0].into() };
            *tally.entry(word).or_default() += 1;
        }
    });
    println!("{played} seasons: {tally:?}");
    for rule in [3, 5, 7, 11, 12, 13, 17, 22, 27] {
        assert!(tally.contains_key(&*format!("refused {rule}")), "no {rule}: {tally:?}");
    }
    assert!(tally["done"] > 1000 && tally["stopped"] > 300, "{tally:?}");
}
