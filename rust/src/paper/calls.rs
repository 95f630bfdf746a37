//! The calls. Each that stores has two halves: its list of stores, or the rule broken; and the list made up to n.

use super::entry::{Contents, Entry, RT};
use super::image::{blank, Parts};
use super::layout::Authenticated;
use super::modes::{beside, Mode, PLAT_MODE};
use super::profiles::{self, share_a_name};
use super::records::is_record;
use super::region::{self, changed, find, values, Standing};
use super::request::{change, Change, PK};
use super::rules::{broken, of_the_call, of_the_change, of_the_mode, of_the_name, of_the_room, of_what_stands, ready, sizes_after, Ready};
use super::session::{is_runtime, session_new};
use super::stores::{clearing, compaction, deletion, formatting, in_tail, resumption, Stores, Wanting};
use super::tenants::{exceeded, Side, Sizes};
use super::work;
use crate::interface::{Answer, Checked, Context, Key, Platform, Replies, Reply, Request, Rule, Session, Setup, Started, DEAD, NAMES};

/// Whether a call may use the image: rules 1 and 2.
pub fn check(image: &[u8]) -> Checked {
    match ready::<Authenticated>(image) {
        Ok(ready) => Checked { answer: Answer::Done(0), blocks: ready.parts.blocks as u32, tail: ready.tail as u32 },
        Err(rule) => Checked { answer: Answer::Refused(rule), blocks: 0, tail: 0 },
    }
}

/// 02 (j): the mode that the image says, after rules 1 and 2.
pub fn present_mode(image: &[u8]) -> Platform {
    match ready::<Authenticated>(image) {
        Ok(ready) => Platform { answer: Answer::Done(0), mode: Mode::of(ready.parts.region).number() },
        Err(rule) => Platform { answer: Answer::Refused(rule), mode: 0 },
    }
}

/// At runtime, values without RT are absent to get and next-name.
fn is_seen(session: &Session, value: &Entry) -> bool {
    !is_runtime(session) || value.attributes() & RT != 0
}

/// The value's data into the front of the buffer. Rules 1, 2, 3, 22, 11 and 14. It makes no stores, so no n stops it and none fails.
pub fn get(context: Context, session: &Session, image: &[u8], key: Key, buffer: &mut [u8]) -> Reply {
    match ready::<Authenticated>(image) {
        Ok(ready) => got(context, session, ready.parts.region, key, buffer),
        Err(rule) => refusal(rule, 0),
    }
}

/// 02 (g): "one call for up to 64 names that checks once and gives for each what a get would, the data one after another in one buffer". Rules 1, 2 and 3: "More than 64
/// are refused 3, after 2"; of each name 3, 22, 11 and 14. "Each get has what the ones before it left of the buffer; a refused one takes none".
pub fn get_many(context: Context, session: &Session, image: &[u8], keys: &[Key], buffer: &mut [u8]) -> Replies {
    let checked = ready::<Authenticated>(image).and_then(|ready| broken(Rule::Name, keys.len() > NAMES).map(|()| ready));
    let region = match checked {
        Ok(ready) => ready.parts.region,
        Err(rule) => return Replies { answer: Answer::Refused(rule), items: vec![] },
    };
    let mut used = 0;
    let item = |key: &Key| {
        let reply = got(context, session, region, *key, &mut buffer[used..]);
        used += reply.size as usize;
        reply
    };
    Replies { answer: Answer::Done(0), items: keys.iter().map(item).collect() }
}

/// A get on the region of an image that was checked.
fn got(context: Context, session: &Session, region: &[u8], key: Key, buffer: &mut [u8]) -> Reply {
    let found = || {
        of_the_name(&session.setup, Side::of(context.side), key)?;
        find(region, key).value().filter(|value| is_seen(session, value)).ok_or(Rule::Absent)
    };
    match found() {
        Ok(value) => reply(buffer, [value.data(), &[]], value.attributes()),
        Err(rule) => refusal(rule, 0),
    }
}

/// The GUID and name of the value after the named one into the front of the buffer. Rules 1, 2, 3, 22, 11 and 14; the empty name is no side's. 02 (f): "Next-name
/// shows a side only its own values".
pub fn next_name(context: Context, session: &Session, image: &[u8], key: Key, buffer: &mut [u8]) -> Reply {
    let found = || {
        let ready = ready::<Authenticated>(image)?;
        let (side, begins) = (Side::of(context.side), key.name == [0, 0]);
        if !begins {
            of_the_name(&session.setup, side, key)?;
        }
        let is_own = |value: &Entry| Side::owning(&session.setup, value.key()) == side;
        let mut values = values(ready.parts.region).filter(|value| is_seen(session, value) && is_own(value));
        if !begins && !values.any(|value| value.is_for(key)) {
            return Err(Rule::Absent);
        }
        values.next().ok_or(Rule::Absent)
    };
    match found() {
        Ok(value) => reply(buffer, [value.vendor(), value.name()], 0),
        Err(rule) => refusal(rule, 0),
    }
}

/// Writes the front of the buffer and no more, unless the buffer is too short (rule 14).
fn reply(buffer: &mut [u8], parts: [&[u8]; 2], attributes: u32) -> Reply {
    let size = parts[0].len() + parts[1].len();
    if buffer.len() < size {
        return refusal(Rule::Buffer, size as u32);
    }
    let (first, second) = buffer[..size].split_at_mut(parts[0].len());
    first.copy_from_slice(parts[0]);
    second.copy_from_slice(parts[1]);
    Reply { answer: Answer::Done(0), size: size as u32, attributes, needed: 0 }
}

fn refusal(rule: Rule, needed: u32) -> Reply {
    Reply { answer: Answer::Refused(rule), size: 0, attributes: 0, needed }
}

/// A call is stopped exactly if its list of stores is longer than n: the image is then as after the first n. 02 (h): "23 when a byte store fails, at that store,
/// the earlier ones remaining", and "A stop before it comes first".
fn made(stores: Result<Stores, Rule>, context: Context, image: &mut [u8]) -> Answer {
    let stores = match stores {
        Ok(stores) => stores,
        Err(rule) => return Answer::Refused(rule),
    };
    if stores.make_worn(context.limit, dead(&context), image).failed {
        return Answer::Refused(Rule::Worn);
    }
    match stores.len() as u64 {
        count if count <= context.limit => Answer::Done(count),
        _ => Answer::Stopped,
    }
}

/// "up to 16 dead addresses (more are ignored)": each takes up a place, also one given twice or outside the image.
pub fn dead(context: &Context) -> &[u32] {
    &context.dead[..(context.count as usize).min(DEAD)]
}

/// 02 (i): "w .. is 1, 2, 4, 8 or 16, any other counts as 1".
pub fn width(context: &Context) -> usize {
    match context.width {
        w @ (1 | 2 | 4 | 8 | 16) => w as usize,
        _ => 1,
    }
}

/// Sets, appends to or deletes a value. Rules 1 to 13, 17, 18, 21, 22, 23 and 24.
pub fn set(context: Context, session: &Session, image: &mut [u8], request: &Request) -> Answer {
    made(set_stores(width(&context), context.side, session, image, request), context, image)
}

/// The list of stores of w bytes, where a side asks.
pub fn set_stores(w: usize, side: u32, session: &Session, image: &[u8], request: &Request) -> Result<Stores, Rule> {
    let ready = ready::<Authenticated>(image)?;
    let (region, key) = (ready.parts.region, request.key);
    of_the_call(session, Side::of(side), request)?;
    let standing = find(region, key);
    let value = standing.value();
    let payload = of_what_stands(session, region, request, value.as_ref())?;
    let change = change(request, payload, value);
    of_the_change(session, key, value.as_ref(), &change)?;
    let beside = beside(region, key, value.as_ref(), &change);
    let put = match change {
        Change::Nothing => return Ok(Stores::new(w)),
        Change::Delete => None,
        Change::Put(contents) => Some(contents),
    };
    match (beside, put) {
        (Some(mode), put) => both(w, session, &ready, put.as_ref(), mode.as_ref()),
        (None, None) => Ok(deletion(w, &standing)),
        (None, Some(contents)) => alone(w, session, &ready, &standing, key, &contents),
    }
}

/// One value is put: in the tail if it fits there, else by a compaction. Rules 18 and 13.
fn alone(w: usize, session: &Session, ready: &Ready, standing: &Standing, key: Key, contents: &Contents) -> Result<Stores, Rule> {
    let region = ready.parts.region;
    let sizes = sizes_after(&session.setup, region, key, contents);
    of_the_room(session, region.len(), Side::owning(&session.setup, key), is_record(contents.attributes), &sizes)?;
    if ready.tail + contents.entry_size::<Authenticated>(key) <= region.len() {
        return Ok(in_tail(w, standing, ready.tail, key, contents));
    }
    let after = changed(region, region.len(), key, Some(contents));
    Ok(compaction(w, &ready.parts, ready.records, filled(after, region.len())))
}

/// 02 (j): "where mode and PK change together it is one compaction, PlatMode last, PK before it". Rule 13, which judges the values after both changes, if one of them is put.
fn both(w: usize, session: &Session, ready: &Ready, pk: Option<&Contents>, mode: Option<&Contents>) -> Result<Stores, Rule> {
    let length = ready.parts.length();
    let after = changed(&changed(ready.parts.region, length, PK, pk), length, PLAT_MODE, mode);
    if pk.is_some() || mode.is_some() {
        // both are ours, and no error records
        of_the_room(session, length, Side::Ours, false, &Sizes::of(&session.setup, values(&after)))?;
    }
    Ok(compaction(w, &ready.parts, ready.records, filled(after, length)))
}

/// A region's rest is FF.
fn filled(mut region: Vec<u8>, length: usize) -> Vec<u8> {
    region.resize(length, 0xFF);
    region
}

/// 02 (l): up to eight settings as one change. Rules 1, 2, 25 and 26; of each item those of a set before 18; then 13, and 23.
pub fn profile(context: Context, session: &Session, image: &mut [u8], file: &[u8]) -> Answer {
    made(profile_stores(width(&context), context.side, session, image, file), context, image)
}

/// "Each item is checked in turn as if those before it stood; room is judged after the last, if one stores a value; changed values stand last, in file order. The whole
/// profile is one compaction, or no stores if nothing differs".
pub fn profile_stores(w: usize, side: u32, session: &Session, image: &[u8], file: &[u8]) -> Result<Stores, Rule> {
    let ready = ready::<Authenticated>(image)?;
    let (length, side) = (ready.parts.length(), Side::of(side));
    let items = profiles::read(file).ok_or(Rule::File)?;
    broken(Rule::Twice, share_a_name(&items))?;
    // header and values as they stand after the items so far, where something differs: before the last they may take more than L
    let (mut after, mut stores_a_value) = (None, false);
    for item in &items {
        let region = after.as_deref().unwrap_or(ready.parts.region);
        let put = match of_the_item(session, side, region, item)? {
            Change::Nothing => continue,
            Change::Delete => None,
            Change::Put(contents) => Some(contents),
        };
        stores_a_value |= put.is_some();
        after = Some(changed(region, length, item.key, put.as_ref()));
    }
    let Some(after) = after else { return Ok(Stores::new(w)) };
    if stores_a_value {
        // every item's value is the asking side's, and no error record
        of_the_room(session, length, side, false, &Sizes::of(&session.setup, values(&after)))?;
    }
    Ok(compaction(w, &ready.parts, ready.records, filled(after, length)))
}

/// What an item of a profile changes in a region. Rules 3, 22, 4, 5, 17, 6, 7, 24, 11, 12 and 21; by its attributes it breaks none of 8, 9, 10 and 18, and changes no PK.
fn of_the_item<'a>(session: &Session, side: Side, region: &'a [u8], item: &Request<'a>) -> Result<Change<'a>, Rule> {
    of_the_call(session, side, item)?;
    let value = find(region, item.key).value();
    let payload = of_what_stands(session, region, item, value.as_ref())?;
    let change = change(item, payload, value);
    of_the_change(session, item.key, value.as_ref(), &change)?;
    Ok(change)
}

/// 02 (j): a request for audit (2) or deployed mode (3). "A mode request meets 1, 2, 22, 6 (PlatMode, and PK if lost), 24, 13", and 23.
pub fn mode(context: Context, session: &Session, image: &mut [u8], to: u32) -> Answer {
    made(mode_stores(width(&context), context.side, session, image, to), context, image)
}

/// "A mode alone is stored as a set stores; where mode and PK change together it is one compaction".
pub fn mode_stores(w: usize, side: u32, session: &Session, image: &[u8], to: u32) -> Result<Stores, Rule> {
    let ready = ready::<Authenticated>(image)?;
    let region = ready.parts.region;
    let transition = of_the_mode(session, Side::of(side), Mode::of(region), to)?;
    match transition.loses_pk {
        true => both(w, session, &ready, None, Some(&transition.stored)),
        false => alone(w, session, &ready, &find(region, PLAT_MODE), PLAT_MODE, &transition.stored),
    }
}

/// Formatting meets 1, and 23.
pub fn format(context: Context, image: &mut [u8]) -> Answer {
    made(format_stores(width(&context), image), context, image)
}

pub fn format_stores(w: usize, image: &[u8]) -> Result<Stores, Rule> {
    Parts::of(image).map(|parts| formatting(w, &parts)).ok_or(Rule::Length)
}

/// Finishes what a power cut has left, and makes a fresh session. Rules 1, 2 and 22, and 23.
pub fn start_up(context: Context, image: &mut [u8], setup: &Setup) -> Started {
    let answer = made(start_up_stores(width(&context), image, setup), context, image);
    Started { answer, session: session_new(setup) }
}

/// 02 (f): 22 on the values that it finds, "(in the spare if pending)".
pub fn start_up_stores(w: usize, image: &[u8], setup: &Setup) -> Result<Stores, Rule> {
    let parts = Parts::of(image).ok_or(Rule::Length)?;
    if let Some(record) = work::pending(&parts) {
        broken(Rule::Tenant, exceeded(setup, parts.spare))?;
        return Ok(resumption(w, &parts, record));
    }
    let tail = region::sound::<Authenticated>(parts.region).ok_or(Rule::Unready)?;
    broken(Rule::Tenant, exceeded(setup, parts.region))?;
    let records = work::read(parts.work).filter(|records| !records.ends_in_spare_complete);
    let wanting = Wanting { erase_spare: !blank(parts.spare), erase_work: records.is_none(), compact: !blank(&parts.region[tail..]) };
    Ok(clearing(w, &parts, records.map_or(0, |records| records.used), wanting))
}
