//! 02 (g): "one call for up to 64 names that checks once and gives for each what a get would, the data one after another in one buffer". Every batch of names goes to the
//! second implementation, to both forms of the library's call, and name by name to its gets, each with what the ones before have left of the buffer.

mod common;

use common::generate::{self, Name, BLOCK};
use common::random::Random;
use common::rounds::rounds;
use common::tenants::is_modems;
use common::{same_bytes, A, B, OLD, RATE, RECORD, VENDOR};
use varstore::calls::{BOTH, ENGINE, PAPER};
use varstore::engine::{self, Item, Told, KEY};
use varstore::interface::{Answer, Context, Guid, Key, Replies, Reply, Rule, Session, Setup, Tenant, MODEM, NAMES, OURS, RUNTIME};
use varstore::once;
use varstore::paper::entry::{self, Contents, ADDED, DELETED, REPLACED, STATE};
use varstore::paper::layout::Authenticated;
use varstore::paper::region;

const MODEMS: Guid = [0x4D; 16];
/// What the buffer and `told` hold before a call.
const FILL: u8 = 0xA5;
const BEFORE: Item = Item { rule: 0xA5A5_A5A5, size: 0x5A5A_5A5A, attributes: 0xC3C3_C3C3, needed: 0x3C3C_3C3C };
const DONE: Answer = Answer::Done(0);

const fn refused(rule: Rule) -> Answer {
    Answer::Refused(rule)
}

/// What was told of one name, in short.
#[derive(Clone, Copy, PartialEq, Eq, Debug)]
enum Said {
    /// Its size.
    Got(u32),
    /// Its rule, and `needed`.
    No(Rule, u32),
}

impl Said {
    fn of(reply: &Reply) -> Said {
        match (reply.answer, reply.size, reply.attributes) {
            (DONE, size, 1..) if reply.needed == 0 => Said::Got(size),
            (Answer::Refused(rule), 0, 0) => Said::No(rule, reply.needed),
            _ => panic!("no get answers {reply:?}"),
        }
    }
}

use Rule::{Absent, Buffer, Tenant as Foreign};
use Said::{Got, No};

const BAD_NAME: Said = No(Rule::Name, 0);
const FOREIGN: Said = No(Foreign, 0);
const ABSENT: Said = No(Absent, 0);
const fn short(needed: u32) -> Said {
    No(Buffer, needed)
}

/// A store, and who asks in which session.
#[derive(Clone)]
struct Store {
    image: Vec<u8>,
    session: Session,
    context: Context,
}

/// What a batch leaves: answer, items, and the whole buffer.
#[derive(Clone, PartialEq, Eq, Debug)]
struct Left {
    answer: Answer,
    items: Vec<Said>,
    buffer: Vec<u8>,
}

impl Store {
    /// In the session of a station without a modem.
    fn new(image: Vec<u8>) -> Store {
        let session = (PAPER.session_new)(&Setup::alone(image.len()));
        Store { image, session, context: Context::NO_LIMIT }
    }

    /// The same where a modem has names, and a side asks.
    fn shared(mut self, side: u32) -> Store {
        self.session.setup.modem = Tenant { share: 0, reserve: 0, vendor: MODEMS };
        self.context = self.context.by(side);
        self
    }

    /// Names in their places: bytes behind a name are anything.
    fn many(&self, keys: &[Key], room: usize) -> Left {
        let (mut places, sizes) = engine::placed(keys);
        for (place, size) in places.chunks_exact_mut(KEY).zip(&sizes) {
            place.iter_mut().skip(*size as usize).for_each(|byte| *byte = 0xC6);
        }
        let left = self.placed(&places, &sizes, room);
        assert_eq!(left, self.by_paper(keys, room), "the second implementation, {} names, {room} bytes", keys.len());
        left
    }

    fn by_paper(&self, keys: &[Key], room: usize) -> Left {
        let mut buffer = vec![FILL; room];
        let replies = (PAPER.get_many)(self.context, &self.session, &self.image, keys, &mut buffer);
        left(replies, buffer)
    }

    /// What is in the places need be no keys. Both forms of the call, the program that walks for every name, and one get for each name agree, and write nothing else.
    fn placed(&self, places: &[u8], sizes: &[u32], room: usize) -> Left {
        let session = self.session;
        let [by_value, lent, walked] = [engine::get_placed, engine::lent::get_placed, once::get_placed].map(|call| {
            let (mut told, mut buffer) = ([BEFORE; NAMES], vec![FILL; room]);
            let answer = call(self.context, &session, &self.image, places, sizes, &mut told, &mut buffer);
            (answer, told, buffer)
        });
        assert!(session == self.session, "a session that is only read");
        assert!(by_value == lent, "lent: {:?}, by value: {:?}", lent.0, by_value.0);
        assert!(by_value == walked, "walked: {:?}, by value: {:?}", walked.0, by_value.0);
        let (answer, told, buffer) = by_value;
        let count = if answer == DONE { sizes.len() } else { 0 };
        assert!(told[count..].iter().all(|item| *item == BEFORE), "an item behind the {count} of the call");
        let items: Vec<Said> = told[..count].iter().map(|item| Said::of(&reply(item))).collect();
        if count < sizes.len() {
            assert!(buffer.iter().all(|byte| *byte == FILL), "{answer:?}, and the buffer is written");
        } else {
            self.one_by_one(places, sizes, &told, &buffer);
        }
        Left { answer, items, buffer }
    }

    /// "gives for each what a get would .. Each get has what the ones before it left of the buffer; a refused one takes none".
    fn one_by_one(&self, places: &[u8], sizes: &[u32], told: &Told, buffer: &[u8]) {
        let (mut single, mut used) = (vec![FILL; buffer.len()], 0);
        for (place, size) in sizes.iter().enumerate() {
            let key = asked_at(places, place, *size as usize);
            let found = (ENGINE.get)(self.context, &self.session, &self.image, key, &mut single[used..]);
            assert_eq!(reply(&told[place]), found, "name {place}: {key:X?}");
            used += found.size as usize;
        }
        same_bytes("the buffer", &single, buffer);
    }
}

fn reply(item: &Item) -> Reply {
    let answer = Rule::numbered(item.rule).map_or(DONE, Answer::Refused);
    assert!(item.rule == 0 || answer != DONE, "no rule: {item:?}");
    Reply { answer, size: item.size, attributes: item.attributes, needed: item.needed }
}

fn left(replies: Replies, buffer: Vec<u8>) -> Left {
    Left { answer: replies.answer, items: replies.items.iter().map(Said::of).collect(), buffer }
}

/// The key of a place: GUID and name if the place is wholly there and has no more than 144 bytes, else no name.
fn asked_at(places: &[u8], place: usize, size: usize) -> Key<'_> {
    let key =
        Some(size).filter(|size| *size <= KEY).and_then(|size| places.get(place * KEY..)?.get(..size)).and_then(|bytes| bytes.split_first_chunk());
    key.map_or(Key { name: &[], vendor: &VENDOR }, |(vendor, name)| Key { name, vendor })
}

/// A name of characters and a zero character.
fn spelt(text: &str) -> Vec<u8> {
    text.encode_utf16().chain([0]).flat_map(u16::to_le_bytes).collect()
}

fn named(text: &str, vendor: Guid) -> Name {
    Name { name: spelt(text), vendor }
}

/// A setting of a number, as acquisition has them.
fn setting(number: usize) -> Name {
    named(&format!("SET{number:04}"), VENDOR)
}

fn keys(names: &[Name]) -> Vec<Key<'_>> {
    names.iter().map(Name::key).collect()
}

/// A region of b blocks with values in state 3F, in an image.
fn image(blocks: usize, values: &[(Key, &[u8])]) -> Vec<u8> {
    let values: Vec<_> = values.iter().map(|(key, data)| (*key, ADDED, 0x07, *data)).collect();
    image_of(blocks, &values)
}

/// The same with entries in any state and of any attributes.
fn image_of(blocks: usize, entries: &[(Key, u8, u32, &[u8])]) -> Vec<u8> {
    let mut bytes = region::header::<Authenticated>(BLOCK * blocks).to_vec();
    for (key, state, attributes, data) in entries {
        let at = bytes.len();
        entry::write::<Authenticated>(&mut bytes, *key, &Contents { attributes: *attributes, stamp: &[0; 16], old: data, new: &[] });
        bytes[at + STATE] = *state;
    }
    assert!(bytes.len() <= BLOCK * blocks, "{} bytes in {blocks} blocks", bytes.len());
    bytes.resize(BLOCK * (2 * blocks + 1), 0xFF);
    bytes
}

/// The data of a setting: 1 to 40 bytes.
fn data_of(number: usize) -> Vec<u8> {
    vec![number as u8; 1 + 7 * number % 40]
}

/// So many settings in three blocks.
fn settings(count: usize) -> (Vec<Name>, Vec<Vec<u8>>, Store) {
    let (names, data): (Vec<Name>, Vec<Vec<u8>>) = (0..count).map(|number| (setting(number), data_of(number))).unzip();
    let values: Vec<(Key, &[u8])> = names.iter().zip(&data).map(|(name, data)| (name.key(), &data[..])).collect();
    let store = Store::new(image(3, &values));
    (names, data, store)
}

/// Names one after another, and what must be told of them: a value's data if there is room, by hand.
fn expected(data: &[Vec<u8>], room: usize) -> Left {
    let (mut buffer, mut items) = (vec![], vec![]);
    for data in data {
        if buffer.len() + data.len() <= room {
            buffer.extend_from_slice(data);
            items.push(Got(data.len() as u32));
        } else {
            items.push(short(data.len() as u32));
        }
    }
    buffer.resize(room, FILL);
    Left { answer: DONE, items, buffer }
}

/// "up to 64 names": none is done with no item; "More than 64 are refused 3".
#[test]
fn numbers_of_names() {
    let (names, data, store) = settings(100);
    for count in [0, 1, 2, 63, 64] {
        assert_eq!(store.many(&keys(&names[..count]), 4000), expected(&data[..count], 4000), "{count} names");
        // the last ones of the region as well as the first
        let last = 100 - count;
        assert_eq!(store.many(&keys(&names[last..]), 4000), expected(&data[last..], 4000), "the last {count} names");
    }
    for count in [65, 66, 70, 100] {
        let left = store.many(&keys(&names[..count]), 4000);
        assert_eq!((left.answer, left.items), (refused(Rule::Name), vec![]), "{count} names");
    }
    // a number of names that would be 0 to 64 in fewer bits
    for count in [128, 129, 256, 320, 1 << 16] {
        assert_eq!(store.placed(&[0; KEY], &vec![16 + 18; count], 100).answer, refused(Rule::Name), "{count} names");
    }
}

/// "More than 64 are refused 3, after 2": 1 and 2 come first, whatever the names are, and nothing is written.
#[test]
fn refused_as_a_whole() {
    let (names, _, ready) = settings(70);
    let [mut longer, mut work, mut tail, mut spare, mut doubled] = [(); 5].map(|()| ready.clone());
    longer.image.push(0xFF);
    work.image[3 * BLOCK] = 0xFC;
    tail.image[3 * BLOCK - 1] = 0xFE;
    spare.image[7 * BLOCK - 1] = 0xFE;
    let entry = doubled.image[28..28 + 80].to_vec();
    let end = (PAPER.check)(&doubled.image).tail as usize;
    doubled.image[end..end + entry.len()].copy_from_slice(&entry);
    let mut empty = ready.clone();
    empty.image.clear();
    let stores = [(&longer, Rule::Length), (&empty, Rule::Length), (&work, Rule::Unready), (&tail, Rule::Unready), (&spare, Rule::Unready)];
    for (store, rule) in stores.into_iter().chain([(&doubled, Rule::Unready), (&ready, Rule::Name)]) {
        for count in [0, 1, 64, 65, 70] {
            let left = store.many(&keys(&names[..count]), 500);
            let whole = if rule == Rule::Name && count <= 64 { DONE } else { refused(rule) };
            assert_eq!((left.answer, left.items.len()), (whole, if whole == DONE { count } else { 0 }), "{count} names");
        }
    }
}

/// "Each get has what the ones before it left of the buffer": it is exactly full, or has a byte too few, behind each of the names; then shorter data may still find room.
#[test]
fn full_buffers_and_a_byte_short() {
    let (names, data, store) = settings(64);
    let mut ends = vec![0];
    for data in &data {
        ends.push(ends.last().expect("an end") + data.len());
    }
    for end in ends {
        for room in [end.saturating_sub(1), end, end + 1] {
            assert_eq!(store.many(&keys(&names), room), expected(&data, room), "{room} bytes");
        }
    }
    // by hand: "Data of 5, 9, 3 bytes, buffer 8"
    let three = [(A, &[5; 5][..]), (B, &[9; 9]), (RATE, &[3; 3])];
    let store = Store::new(image(1, &three));
    let left = store.many(&[A, B, RATE], 8);
    assert_eq!((left.answer, left.items, left.buffer), (DONE, vec![Got(5), short(9), Got(3)], vec![5, 5, 5, 5, 5, 3, 3, 3]));
    for (room, items) in [
        (0, [short(5), short(9), short(3)]),
        (2, [short(5), short(9), short(3)]),
        (3, [short(5), short(9), Got(3)]),
        (4, [short(5), short(9), Got(3)]),
        (5, [Got(5), short(9), short(3)]),
        (7, [Got(5), short(9), short(3)]),
        (13, [Got(5), short(9), Got(3)]),
        (14, [Got(5), Got(9), short(3)]),
        (16, [Got(5), Got(9), short(3)]),
        (17, [Got(5), Got(9), Got(3)]),
        (18, [Got(5), Got(9), Got(3)]),
    ] {
        assert_eq!(store.many(&[A, B, RATE], room).items, items, "{room} bytes");
    }
}

/// The largest data: thirteen values of 2,048 bytes in seven blocks, asked for by turns.
#[test]
fn the_largest_data() {
    let names: Vec<Name> = (0..13).map(setting).collect();
    let data: Vec<Vec<u8>> = (0..13).map(|number| vec![number + 1; 2048]).collect();
    let values: Vec<(Key, &[u8])> = names.iter().zip(&data).map(|(name, data)| (name.key(), &data[..])).collect();
    let store = Store::new(image(7, &values));
    let asked: Vec<Key> = (0..64).map(|place| names[place % 13].key()).collect();
    let wanted: Vec<Vec<u8>> = (0..64).map(|place| data[place % 13].clone()).collect();
    for room in [0, 2047, 2048, 2049, 64 * 2048 - 1, 64 * 2048, 64 * 2048 + 1] {
        assert_eq!(store.many(&asked, room), expected(&wanted, room), "{room} bytes");
    }
}

/// "a refused one takes none": names that are refused 3, 22, 11 and 14 stand between others that are done, in any order, asked by either side.
#[test]
fn refused_between_done() {
    let (long, modems, other) = ([0x4C; 300], named("APN", MODEMS), named("PIN", MODEMS));
    let large = named("LARGE", VENDOR);
    let modem_large = named("LARGE", MODEMS);
    let values = [
        (A, &[1; 5][..]),
        (modems.key(), &[2; 4]),
        (large.key(), &long),
        (B, &[3; 6]),
        (modem_large.key(), &long),
        (other.key(), &[4; 7]),
        (RECORD, &[5]),
    ];
    let image = image(1, &values);
    let bad = Key { name: b"A\0", vendor: &VENDOR };
    let missing = Key { name: b"Z\0\0\0", vendor: &VENDOR };
    let modems_bad = Key { name: b"\0\0", vendor: &MODEMS };
    let modems_missing = Key { name: b"A\0\0\0", vendor: &MODEMS };
    // whose it is, and what a side is told of it
    let batch = [
        (A, Got(5), FOREIGN),
        (bad, BAD_NAME, BAD_NAME),
        (modems.key(), FOREIGN, Got(4)),
        (missing, ABSENT, FOREIGN),
        (large.key(), short(300), FOREIGN),
        (B, Got(6), FOREIGN),
        (modems_bad, BAD_NAME, BAD_NAME),
        (modem_large.key(), FOREIGN, short(300)),
        (modems_missing, FOREIGN, ABSENT),
        (other.key(), FOREIGN, Got(7)),
    ];
    let mut r = Random::new(0x67);
    for side in [OURS, MODEM, 2, u32::MAX] {
        let store = Store::new(image.clone()).shared(side);
        for turn in 0..200 {
            let mut order: Vec<usize> = (0..batch.len()).collect();
            if turn > 0 {
                (1..order.len()).for_each(|place| order.swap(place, r.below(place + 1)));
            }
            let asked: Vec<Key> = order.iter().map(|&place| batch[place].0).collect();
            let said: Vec<Said> = order.iter().map(|&place| if side == MODEM { batch[place].2 } else { batch[place].1 }).collect();
            // room for all that is done and no byte more, or one byte less than a long one takes
            for room in [11, 299] {
                let left = store.many(&asked, room);
                assert_eq!((left.answer, &left.items), (DONE, &said), "side {side}, {order:?}");
            }
        }
        // 3 comes before 22, which comes before 11 and 14; and done is told also where no name is
        let none: Vec<Key> =
            batch.iter().filter(|(_, ours, modems)| !matches!(if side == MODEM { modems } else { ours }, Got(_))).map(|one| one.0).collect();
        let left = store.many(&none, 299);
        assert!(left.answer == DONE && left.buffer.iter().all(|byte| *byte == FILL) && left.items.len() == none.len());
    }
}

/// Repeated names are allowed; each takes its own room.
#[test]
fn repeated_names() {
    let store = Store::new(image(1, &[(A, &[1; 5]), (B, &[2; 9]), (RATE, &[3])]));
    let all = |key, count: usize| vec![key; count];
    for (room, got) in [(320, 64), (319, 63), (321, 64), (5, 1), (4, 0), (0, 0)] {
        let items: Vec<Said> = (0..64).map(|place| if place < got { Got(5) } else { short(5) }).collect();
        assert_eq!(store.many(&all(A, 64), room).items, items, "{room} bytes");
    }
    let asked = [all(B, 7), vec![RATE]].concat();
    let left = store.many(&asked, 60);
    assert_eq!(left.items, [vec![Got(9); 6], vec![short(9), Got(1)]].concat());
    assert_eq!(left.buffer, [vec![2; 54], vec![3], vec![FILL; 5]].concat());
    let mixed = [A, B, A, RATE, B, A];
    assert_eq!(store.many(&mixed, 34).items, [Got(5), Got(9), Got(5), Got(1), Got(9), Got(5)]);
    assert_eq!(store.many(&mixed, 33).items, [Got(5), Got(9), Got(5), Got(1), Got(9), short(5)]);
    let missing = Key { name: b"Z\0\0\0", vendor: &VENDOR };
    assert_eq!(store.many(&all(missing, 64), 33).items, [ABSENT; 64]);
}

/// A size that no place has, or that is another than its name's: 3 of that name, or of another one that it makes; the names beside it are got.
#[test]
fn sizes_that_are_wrong() {
    let long = Name { name: [spelt(&"x".repeat(63))].concat(), vendor: VENDOR };
    assert_eq!(long.name.len(), 128);
    let store = Store::new(image(1, &[(A, &[1; 5]), (RATE, &[2; 4]), (long.key(), &[3; 3])]));
    let batch = [A, RATE, long.key()];
    let got = [Got(5), Got(4), Got(3)];
    let (places, sizes) = engine::placed(&batch);
    assert_eq!(sizes, [20, 26, 144]);
    for place in 0..3 {
        let wrong = [
            0,
            1,
            2,
            4,
            10,
            14,
            15,
            16,
            17,
            18,
            19,
            21,
            25,
            27,
            142,
            143,
            145,
            146,
            160,
            256,
            288,
            400,
            432,
            0x100,
            0x1_0014,
            0x1_001A,
            0x1_0090,
            0x8000_0014,
            u32::MAX - 143,
            u32::MAX,
        ];
        for size in wrong {
            if size == sizes[place] {
                continue;
            }
            let mut others = sizes.clone();
            others[place] = size;
            let mut items = got;
            items[place] = BAD_NAME;
            assert_eq!(store.placed(&places, &others, 12).items, items, "size {size} of name {place}");
        }
        // every size of one byte and more: the name is the one that the bytes make
        for size in 0..300 {
            let mut others = sizes.clone();
            others[place] = size;
            let left = store.placed(&places, &others, 12);
            let keys: Vec<Key> = (0..3).map(|place| asked_at(&places, place, others[place] as usize)).collect();
            assert_eq!(left, store.by_paper(&keys, 12), "size {size} of name {place}");
        }
    }
    for size in [0, 15, 16, 145, u32::MAX] {
        assert_eq!(store.placed(&places, &[size; 3], 12).items, [BAD_NAME; 3], "all of size {size}");
        assert_eq!(store.placed(&vec![0; KEY * NAMES], &[size; NAMES], 12).items, [BAD_NAME; NAMES], "64 of size {size}");
    }
    // one place's bytes are not the next one's: where a name goes on behind its place it is not well formed
    let joined = [&places[..KEY], &places[..KEY]].concat();
    assert_eq!(store.placed(&joined, &[KEY as u32 + 20, 20], 12).items, [BAD_NAME, Got(5)]);
}

/// Keys that end before their places do: a name counts if its own bytes are there.
#[test]
fn fewer_bytes_than_places() {
    let long = named(&"x".repeat(63), VENDOR);
    let values = [(A, &[1; 5][..]), (long.key(), &[3; 3]), (RATE, &[2; 4])];
    let store = Store::new(image(1, &values));
    let batch = [A, long.key(), RATE];
    let (places, sizes) = engine::placed(&batch);
    for length in 0..=places.len() {
        let ends = [20, 144 + 144, 288 + 26];
        let items: Vec<Said> = ends.iter().zip([Got(5), Got(3), Got(4)]).map(|(end, got)| if *end <= length { got } else { BAD_NAME }).collect();
        assert_eq!(store.placed(&places[..length], &sizes, 12).items, items, "{length} bytes");
    }
    // no bytes at all, and 64 sizes that want some
    assert_eq!(store.placed(&[], &[20; NAMES], 12).items, [BAD_NAME; NAMES]);
    assert_eq!(store.placed(&places[..20], &[20; NAMES], 12).items, [vec![Got(5)], vec![BAD_NAME; 63]].concat());
    // the bytes that are there make a name, but more are wanted
    for wanted in [21, 22, 24, 26, 143, 144, 145, 1000] {
        assert_eq!(store.placed(&places[..20], &[wanted], 12).items, [BAD_NAME], "{wanted} of 20 bytes");
        assert_eq!(store.placed(&places[..KEY + 144], &[20, 144, wanted], 12).items, [Got(5), Got(3), BAD_NAME]);
        assert_eq!(store.placed(&[&places[..KEY], &places[..20]].concat(), &[20, wanted], 12).items, [Got(5), BAD_NAME]);
    }
    // more bytes than names
    let more = [&places[..], &[0xC6; 1000]].concat();
    assert_eq!(store.placed(&more, &sizes, 12).items, [Got(5), Got(3), Got(4)]);
    assert_eq!(store.placed(&more, &sizes[..1], 12).items, [Got(5)]);
}

/// What is lent may begin at any address, but for numbers.
#[test]
fn any_address() {
    let (names, data, store) = settings(40);
    let (places, sizes) = engine::placed(&keys(&names));
    let wanted = expected(&data, 900);
    for shift in 0..8 {
        let [mut whole, mut shifted, mut buffer] = [vec![0; shift], vec![0; shift], vec![FILL; 900 + shift]];
        whole.extend_from_slice(&store.image);
        shifted.extend_from_slice(&places);
        let mut told = [BEFORE; NAMES];
        let answer =
            engine::lent::get_placed(store.context, &store.session, &whole[shift..], &shifted[shift..], &sizes, &mut told, &mut buffer[shift..]);
        let items: Vec<Said> = told[..40].iter().map(|item| Said::of(&reply(item))).collect();
        assert_eq!(Left { answer, items, buffer: buffer[shift..].to_vec() }, wanted, "{shift} bytes on");
        assert!(told[40..].iter().all(|item| *item == BEFORE));
    }
}

/// Entries of a key in any states: its 3F entry is the value, else its 3E; whichever comes first, and however many keys are between.
#[test]
fn entries_of_one_name() {
    let states = [0x7F, ADDED, REPLACED, DELETED, 0x3C];
    let others: Vec<Name> = (0..20).map(setting).collect();
    for first in states {
        for second in states {
            for between in [0, 1, 20] {
                let mut entries = vec![(A, first, 0x07, &[1; 5][..])];
                entries.extend(others[..between].iter().map(|name| (name.key(), ADDED, 0x07, &[9; 2][..])));
                entries.push((A, second, 0x03, &[2; 3]));
                let store = Store::new(image_of(2, &entries));
                let doubled = first == second && [ADDED, REPLACED].contains(&first);
                let item = match [(first, Got(5)), (second, Got(3))] {
                    [(ADDED, got), _] | [_, (ADDED, got)] | [(REPLACED, got), _] | [_, (REPLACED, got)] => got,
                    _ => ABSENT,
                };
                let left = store.many(&[A, B, A], 100);
                match doubled {
                    true => assert_eq!((left.answer, left.items), (refused(Rule::Unready), vec![])),
                    false => assert_eq!((left.answer, left.items), (DONE, vec![item, ABSENT, item]), "{first:02X} and {second:02X}"),
                }
            }
        }
    }
}

/// At runtime values without 0x04 are absent; their room is others'.
#[test]
fn at_runtime() {
    let entries = [(A, ADDED, 0x03, &[1; 5][..]), (B, ADDED, 0x07, &[2; 4]), (RATE, ADDED, 0x23, &[3; 3]), (RECORD, ADDED, 0x0F, &[4; 2])];
    let mut store = Store::new(image_of(1, &entries));
    let keys = [A, B, RATE, RECORD, A, B];
    for phase in [0, 1] {
        store.session.phase = phase;
        assert_eq!(store.many(&keys, 23).items, [Got(5), Got(4), Got(3), Got(2), Got(5), Got(4)]);
    }
    for phase in [RUNTIME, 3, u32::MAX] {
        store.session.phase = phase;
        assert_eq!(store.many(&keys, 10).items, [ABSENT, Got(4), ABSENT, Got(2), ABSENT, Got(4)]);
        assert_eq!(store.many(&keys, 9).items, [ABSENT, Got(4), ABSENT, Got(2), ABSENT, short(4)]);
    }
}

/// 02 (f): key names and error records are ours under the modem's GUID too.
#[test]
fn names_that_are_always_ours() {
    let values = [(varstore::paper::request::PK, ADDED, 0x27, &[1; 5][..]), (RECORD, ADDED, 0x0F, &[2; 4]), (A, ADDED, 0x07, &[3; 3])];
    for vendor in [*varstore::paper::request::PK.vendor, *RECORD.vendor, VENDOR] {
        for (side, foreign) in [(OURS, false), (MODEM, true)] {
            let mut store = Store::new(image_of(1, &values)).shared(side);
            store.session.setup.modem.vendor = vendor;
            let said = |key, got| if is_modems(&store.session.setup, key) == foreign { got } else { FOREIGN };
            let wanted = [said(values[0].0, Got(5)), said(RECORD, Got(4)), said(A, Got(3))];
            assert_eq!(store.many(&values.map(|value| value.0), 12).items, wanted, "side {side}");
        }
    }
}

/// The engine finds the names of a call by their marks. A mark's place goes by the sum of a key's words, modulo 1,279, and its sign by the seven bits that follow. Keys under
/// GUIDs whose first words differ by multiples of 1,279 have one place, and by multiples of 1,279 * 128 one sign too.
fn alike(index: usize, step: u64) -> Name {
    let mut vendor = VENDOR;
    vendor[..8].copy_from_slice(&(index as u64 * step).to_le_bytes());
    named("AB", vendor)
}

/// The same under one GUID: names of so many characters that differ in the second and the fifth, whose sum is one.
fn alike_spelt(index: usize, characters: usize) -> Name {
    let [second, fifth] = [0x4000 - index as u32, 0x100 + index as u32].map(|number| char::from_u32(number).expect("a character"));
    named(&format!("S{second}me{fifth}{:x<1$}", "", characters - 5), VENDOR)
}

/// Marks of one place: 64 names of it, all of them there, every second one, or none; in a region of others that have it too, and of some that have not.
#[test]
fn names_of_one_place() {
    let kinds: [fn(usize) -> Name; 5] = [
        |index| alike(index, 1279),
        |index| alike(index, 1279 * 64),
        |index| alike(index, 1279 * 128),
        |index| alike_spelt(index, 5),
        |index| alike_spelt(index, 17),
    ];
    for name in kinds {
        let names: Vec<Name> = (0..200).map(name).collect();
        let plain: Vec<Name> = (0..50).map(setting).collect();
        for (kept, others) in [(1, 0), (2, 0), (2, 50), (3, 50), (200, 50)] {
            let standing = || names.iter().enumerate().filter(|(index, _)| index % kept == 0);
            let data: Vec<Vec<u8>> = standing().map(|(index, _)| vec![index as u8; 1 + index % 5]).collect();
            let values = standing().map(|(_, name)| name.key()).zip(data.iter().map(|data| &data[..]));
            let between = plain[..others].iter().map(|name| (name.key(), &[7; 3][..]));
            let store = Store::new(image(7, &values.chain(between).collect::<Vec<_>>()));
            for begin in [0, 1, 68, 136] {
                let left = store.many(&keys(&names[begin..begin + 64]), 200);
                let got = |index: usize| index % kept == 0;
                let wanted: Vec<Vec<u8>> = (begin..begin + 64).filter(|index| got(*index)).map(|index| vec![index as u8; 1 + index % 5]).collect();
                let wanted = expected(&wanted, 200);
                let mut items = wanted.items.into_iter();
                let items: Vec<Said> = (begin..begin + 64).map(|index| if got(index) { items.next().expect("an item") } else { ABSENT }).collect();
                assert_eq!((left.answer, left.items, left.buffer), (DONE, items, wanted.buffer), "{kept}, {others}, from {begin}");
            }
            // one of the place among others, and two
            for alone in [1, 2, 3] {
                let asked = [keys(&names[..alone]), keys(&plain), keys(&names[100..100 + alone])].concat();
                store.many(&asked, 4000);
            }
        }
    }
}

/// Names of one place in both states: a 3F and a 3E entry of each, in either order.
#[test]
fn states_of_one_place() {
    for step in [1279, 1279 * 128] {
        let names: Vec<Name> = (0..64).map(|index| alike(index, step)).collect();
        for order in [[ADDED, REPLACED], [REPLACED, ADDED]] {
            let mut entries = vec![];
            for state in order {
                let data: &[u8] = if state == ADDED { &[1; 2] } else { &[2; 3] };
                // every third has one of them only
                entries.extend(
                    names
                        .iter()
                        .enumerate()
                        .filter(|(index, _)| index % 3 != usize::from(state == ADDED))
                        .map(|(_, name)| (name.key(), state, 0x07, data)),
                );
            }
            let store = Store::new(image_of(3, &entries));
            let items: Vec<Said> = (0..64).map(|index| if index % 3 == 1 { Got(3) } else { Got(2) }).collect();
            assert_eq!(store.many(&keys(&names), 149).items, items);
        }
    }
}

/// A batch on an image: names of values that stand, names near to them or by chance, repeated ones; mostly of one side.
fn batch(r: &mut Random, image: &[u8], setup: &Setup) -> (Vec<Name>, u32) {
    let standing: Vec<Name> = match (PAPER.check)(image).answer {
        DONE => common::book::Book::of(image).values.into_iter().map(|value| value.name).collect(),
        _ => vec![],
    };
    let count = r.pick(&[0, 1, 2, 3, 5, 10, 20, 40, 63, 64, 64, 64, 65, 66, 80]);
    let mut names: Vec<Name> = vec![];
    for _ in 0..count {
        let name = match r.below(8) {
            0 if !names.is_empty() => names[r.below(names.len())].clone(),
            1 | 2 => generate::name(r),
            _ if standing.is_empty() => generate::name(r),
            3 => {
                let mut near = standing[r.below(standing.len())].clone();
                match r.below(3) {
                    0 => near.vendor[r.below(16)] ^= 1 << r.below(8),
                    1 => near.name[0] ^= 1 << r.below(8),
                    _ => near.name.truncate(r.below(near.name.len() + 1)),
                }
                near
            }
            _ => standing[r.below(standing.len())].clone(),
        };
        names.push(name);
    }
    let side = match names.first() {
        Some(name) => generate::side(r, setup, name.key()),
        None => r.pick(&[OURS, MODEM]),
    };
    (names, side)
}

/// Images, sessions and batches by chance. The calls are reads: n, dead bytes and w are of no account.
#[test]
fn random_batches() {
    let (mut wholes, mut items) = ([0; 24], [0; 24]);
    rounds(6, 300, |r| {
        let (image, _) = generate::image(r);
        let session = generate::session(r);
        let mut store = Store { image, session, context: Context::worn(r.below(3) as u64, &[28, 30, 60]).paged(generate::width(r)) };
        for _ in 0..6 {
            let (names, side) = batch(r, &store.image, &store.session.setup);
            store.context = store.context.by(side);
            let room = r.pick(&[0, 1, 4, 5, 60, 100, 500, 2048, 5000, 20_000]) + r.below(3);
            let left = store.many(&keys(&names), room);
            if r.once_in(8) {
                by_single_gets(&store, &names, &left);
            }
            wholes[rule_of(left.answer)] += 1;
            left.items.iter().for_each(|item| items[if let No(rule, _) = item { rule.number() as usize } else { 0 }] += 1);
        }
    });
    let seen =
        |counts: &[usize; 24]| counts.iter().enumerate().filter(|(_, count)| **count > 0).map(|(rule, count)| (rule, *count)).collect::<Vec<_>>();
    println!("calls {:?}, names {:?}", seen(&wholes), seen(&items));
    let rules = |counts: &[usize; 24]| seen(counts).into_iter().map(|(rule, _)| rule).collect::<Vec<_>>();
    assert_eq!(rules(&wholes), [0, 2, 3], "the rules of calls");
    assert_eq!(rules(&items), [0, 3, 11, 14, 22], "the rules of names");
    assert!(wholes.iter().chain(&items).all(|count| *count == 0 || *count > 100));
}

fn rule_of(answer: Answer) -> usize {
    match answer {
        Answer::Refused(rule) => rule.number() as usize,
        _ => 0,
    }
}

/// The second implementation's gets, one by one.
fn by_single_gets(store: &Store, names: &[Name], left: &Left) {
    if left.answer != DONE {
        return;
    }
    let (mut single, mut used) = (vec![FILL; left.buffer.len()], 0);
    for (name, item) in names.iter().zip(&left.items) {
        let found = (PAPER.get)(store.context, &store.session, &store.image, name.key(), &mut single[used..]);
        assert_eq!(Said::of(&found), *item, "{name:X?}");
        used += found.size as usize;
    }
    same_bytes("the buffer", &single, &left.buffer);
}

/// Sessions of another writer: any numbers, or bytes by chance.
#[test]
fn any_session() {
    let (names, _, store) = settings(64);
    let mut r = Random::new(0x6767);
    for turn in 0..500 {
        let mut store = store.clone();
        store.session = generate::session(&mut r);
        match r.below(5) {
            0 => store.session.phase = r.number() as u32,
            1 => store.session.count = r.number() as u32,
            2 => store.session.setup.rules = r.number() as u32,
            3 => store.session.setup.modem.vendor = if r.once_in(2) { VENDOR } else { [0; 16] },
            _ => store.session.locks.iter_mut().for_each(|byte| *byte = r.byte()),
        }
        store.context =
            Context { limit: r.number(), count: r.number() as u32, dead: [r.number() as u32; 16], width: r.number() as u32, side: r.below(3) as u32 };
        assert_eq!(store.many(&keys(&names[..r.below(65)]), 700).answer, DONE, "turn {turn}");
    }
}

/// "Acquisition reads some sixty settings as it starts": in both implementations, on a store that a run has left, behind the same table of calls.
#[test]
fn sixty_settings_at_the_start() {
    for calls in BOTH {
        let names: Vec<Name> = (0..60).map(setting).collect();
        let mut image = generate::empty(3);
        let setup = Setup::alone(image.len());
        let session = (calls.start_up)(Context::NO_LIMIT, &mut image, &setup).session;
        for (number, name) in names.iter().enumerate() {
            let request = varstore::interface::Request { key: name.key(), attributes: 0x07, data: &data_of(number), presence: 0, verdict: 0 };
            assert!(matches!((calls.set)(Context::NO_LIMIT, &session, &mut image, &request), Answer::Done(1..)));
        }
        let mut buffer = vec![FILL; 4096];
        let replies = (calls.get_many)(Context::NO_LIMIT, &session, &image, &keys(&names), &mut buffer);
        let data: Vec<Vec<u8>> = (0..60).map(data_of).collect();
        assert_eq!(left(replies, buffer), expected(&data, 4096), "{}", calls.who);
        let missing = (calls.get_many)(Context::NO_LIMIT, &session, &image, &[RATE, A], &mut []);
        assert_eq!(left(missing, vec![]).items, [ABSENT, ABSENT], "{}", calls.who);
        let replaced = varstore::interface::Request { key: RATE, attributes: 0x07, data: OLD, presence: 0, verdict: 0 };
        assert!(matches!((calls.set)(Context::NO_LIMIT, &session, &mut image, &replaced), Answer::Done(1..)));
        let found = (calls.get_many)(Context::NO_LIMIT, &session, &image, &[RATE, A], &mut [0; 4]);
        assert_eq!(left(found, vec![]).items, [Got(4), ABSENT], "{}", calls.who);
    }
}
