//! 02 (e): settings that must make sense. Rules for variables by name and GUID: a smallest and largest size, read-only or not, and at a byte offset a field that must
//! be in a list or between two numbers. "Up to 32 such rules (more are ignored, as are numbers past eight) stand in the session".

use crate::interface::{Key, Session, Setting, NUMBERS, SETTINGS};

/// Data as they would stand: an append's behind the old data.
type Joined<'a> = [&'a [u8]; 2];

/// Whether a set or delete breaks a rule for its name, of which all must hold. `data` are those that would stand, none where no value would: then, as for a delete,
/// only read-only is obeyed, "which also refuses every set".
pub fn breaks_rule(session: &Session, key: Key, data: Option<Joined>) -> bool {
    rules_for(session, key).any(|rule| rule.fixed != 0 || data.is_some_and(|data| forbids(rule, data)))
}

/// The rules for a well-formed name. One whose own name is not well formed equals none, so it is for no variable.
fn rules_for<'a>(session: &'a Session, key: Key<'a>) -> impl Iterator<Item = &'a Setting> {
    let rules = session.setup.settings.iter().take((session.setup.rules as usize).min(SETTINGS));
    let size = key.name.len();
    rules.filter(move |rule| rule.size as usize == size && rule.name[..size] == *key.name && rule.vendor == *key.vendor)
}

/// Whether a rule forbids the data: by their size, or by the field. "A field of another width, or one not wholly inside the data, breaks its rule."
fn forbids(rule: &Setting, data: Joined) -> bool {
    let size = data[0].len() + data[1].len();
    !(rule.least as usize..=rule.most as usize).contains(&size) || !field(rule, data).is_some_and(|number| is_among(rule, number))
}

/// "a field of 1, 2 or 4 bytes". No offset wraps: 64 bits hold its end.
fn field(rule: &Setting, data: Joined) -> Option<u32> {
    let (at, width) = (rule.at as usize, rule.width as usize);
    if !matches!(width, 1 | 2 | 4) || at + width > data[0].len() + data[1].len() {
        return None;
    }
    let bytes = data[0].iter().chain(data[1]).skip(at).take(width);
    Some(bytes.zip(0..).fold(0, |number, (&byte, place)| number | u32::from(byte) << (8 * place)))
}

/// "in a list of up to eight numbers or between two numbers, ends included".
fn is_among(rule: &Setting, number: u32) -> bool {
    match rule.ranged {
        0 => rule.numbers[..(rule.count as usize).min(NUMBERS)].contains(&number),
        _ => (rule.low..=rule.high).contains(&number),
    }
}
