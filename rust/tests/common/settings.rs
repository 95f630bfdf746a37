//! 02 (e), written once more for the tests: which rules are for a name, what breaks one, and what a set that is done or refused by 21 tells of them.

use super::book::Book;
use super::generate::Asked;
use varstore::interface::{Key, Request, Session, Setting};

/// Those of the first 32 rules that are for a well-formed name.
fn rules_for<'a>(session: &'a Session, key: Key) -> Vec<&'a Setting> {
    let is_for = |setting: &&Setting| setting.name.get(..setting.size as usize) == Some(key.name) && setting.vendor == *key.vendor;
    (0..32).filter(|&place| place < session.setup.rules).map(|place| &session.setup.settings[place as usize]).filter(is_for).collect()
}

/// Whether the session has a rule for the name.
pub fn is_ruled(session: &Session, key: Key) -> bool {
    !rules_for(session, key).is_empty()
}

/// What breaks a rule where these data would stand, or where nothing would.
fn breach(setting: &Setting, data: Option<&[u8]>) -> Option<&'static str> {
    if setting.fixed != 0 {
        return Some("read-only");
    }
    let data = data?;
    let bytes = |place: u64| data.get(usize::try_from(place).expect("64 bits")).copied();
    let (at, size) = (u64::from(setting.at), data.len() as u64);
    let number = match setting.width {
        1 => bytes(at).map(u32::from),
        2 => bytes(at).zip(bytes(at + 1)).map(|(low, high)| u16::from_le_bytes([low, high]).into()),
        4 => (0..4).map(|k| bytes(at + k)).collect::<Option<Vec<u8>>>().map(|bytes| u32::from_le_bytes(bytes.try_into().expect("4 bytes"))),
        _ => return Some("width"),
    };
    let listed = setting.numbers.iter().zip(0..setting.count).map(|(number, _)| *number);
    match number {
        _ if size < setting.least.into() => Some("smallest size"),
        _ if size > setting.most.into() => Some("largest size"),
        None => Some("place"),
        Some(number) if setting.ranged == 0 => (!listed.into_iter().any(|other| other == number)).then_some("list"),
        Some(number) => (number < setting.low || number > setting.high).then_some("range"),
    }
}

/// What the book has under the name.
fn data_of<'a>(book: &'a Book, key: Key) -> Option<&'a [u8]> {
    book.values.iter().find(|value| value.name.key() == key).map(|value| &value.data[..])
}

/// "Any set done in it leaves the variable it names with no value that its rules forbid", and none is done, deletes among them, where a rule says read-only.
pub fn check_kept(session: &Session, request: &Request, book: &Book) {
    let data = data_of(book, request.key);
    for rule in rules_for(session, request.key) {
        assert_eq!(
            breach(rule, data),
            None,
            "{} bytes, {:X?}, stand against {rule:?}",
            data.map_or(0, <[u8]>::len),
            data.map(|data| &data[..data.len().min(48)])
        );
    }
}

/// What was asked, and what breaks a rule for its name: a call that 21 refuses on what the book has.
pub fn check_broken(session: &Session, asked: &Asked, book: &Book) -> [String; 2] {
    let (request, mut after) = (asked.request(), book.clone());
    after.set(&request);
    let (before, data) = (data_of(book, request.key), data_of(&after, request.key));
    let breaches: Vec<_> = rules_for(session, request.key).into_iter().filter_map(|rule| breach(rule, data)).collect();
    assert!(!breaches.is_empty(), "21, and no rule is broken: {asked:?} in {:?}", session.setup);
    let asked = match (before, data) {
        (None, None) => "an empty append to nothing",
        (Some(_), None) => "a delete",
        (Some(old), Some(data)) if old == data && asked.attributes & 0x40 != 0 => "an empty append",
        (Some(old), Some(data)) if old == data => "an equal set",
        (Some(_), Some(_)) if asked.attributes & 0x40 != 0 => "an append",
        (None, Some(_)) if asked.attributes & 0x40 != 0 => "an append that creates",
        (Some(_), Some(_)) => "a set that replaces",
        (None, Some(_)) => "a set that creates",
    };
    [asked.into(), breaches[0].into()]
}
