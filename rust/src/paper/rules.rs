//! Rules a call can break, in checking order. The first broken is the answer.

use super::entry::{well_formed, Contents, Entry, APPEND, MOST_DATA, RT, STORABLE, TIME_BASED};
use super::image::{blank, Parts};
use super::layout::{Authenticated, Layout};
use super::modes::{transition, Mode, Transition, PLAT_MODE};
use super::records::{is_record, record_name};
use super::region::{self, REGION_HEADER};
use super::request::{is_later, key_name, payload, wanted, Change, Payload, PK};
use super::session::{is_boot, is_locked, is_runtime, record_space, reserve};
use super::settings::breaks_rule;
use super::tenants::{Side, Sizes};
use super::work;
use crate::interface::{Key, Request, Rule, Session, Setup};

pub fn broken(rule: Rule, is: bool) -> Result<(), Rule> {
    if is {
        Err(rule)
    } else {
        Ok(())
    }
}

/// An image that a call may use: its parts, where the tail begins, and the number of used records.
pub struct Ready<'a> {
    pub parts: Parts<'a>,
    pub tail: usize,
    pub records: usize,
}

/// Rules 1 and 2 for a call, on an image of a layout.
pub fn ready<F: Layout>(image: &[u8]) -> Result<Ready<'_>, Rule> {
    let parts = Parts::of(image).ok_or(Rule::Length)?;
    let tail = region::clean::<F>(parts.region).ok_or(Rule::Unready)?;
    broken(Rule::Unready, !blank(parts.spare))?;
    let records = work::read(parts.work).ok_or(Rule::Unready)?;
    broken(Rule::Unready, records.ends_in_spare_complete)?;
    Ok(Ready { parts, tail, records: records.used })
}

/// Rules 3 and 22: the name by itself. 02 (f): "22 .. when a call names the other side's name, the empty one apart, after 3".
pub fn of_the_name(setup: &Setup, side: Side, key: Key) -> Result<(), Rule> {
    broken(Rule::Name, !well_formed(key.name))?;
    broken(Rule::Tenant, Side::owning(setup, key) != side)
}

/// Rules 3, 22, 4, 5, 17 and 6: the call by itself.
pub fn of_the_call(session: &Session, side: Side, request: &Request) -> Result<(), Rule> {
    let attributes = request.attributes;
    let without_append = attributes & !APPEND;
    let known = without_append == 0 || STORABLE.contains(&without_append);
    let hidden = is_runtime(session) && attributes != 0 && attributes & RT == 0;
    of_the_name(&session.setup, side, request.key)?;
    broken(Rule::Attributes, !known || attributes == APPEND || hidden)?;
    broken(Rule::KeyAttributes, key_name(request.key).is_some() && attributes != 0x27 && attributes != 0x67)?;
    // 02 (a): "17 when a call with attributes other than 0 has attribute 0x08 without this GUID and name form, or both of those without 0x08, after 5"
    broken(Rule::Record, attributes != 0 && is_record(attributes) != record_name(request.key))?;
    broken(Rule::Locked, !is_boot(session) && is_locked(session, request.key))
}

/// Rules 7, 8, 9, 24 and 10: the call beside what stands. Gives the stamp and data proper that rule 8 has found.
pub fn of_what_stands<'a>(session: &Session, region: &[u8], request: &Request<'a>, value: Option<&Entry>) -> Result<Payload<'a>, Rule> {
    if let Some(value) = value {
        let without_append = request.attributes & !APPEND;
        let stored = value.attributes();
        let other = without_append != 0 && without_append != stored;
        let bare = without_append == 0 && stored & TIME_BASED != 0;
        let hidden = is_runtime(session) && stored & RT == 0;
        broken(Rule::Standing, other || bare || hidden)?;
    }
    let payload = payload(request).ok_or(Rule::Descriptor)?;
    let wanted = wanted(session, region, request, value);
    broken(Rule::Verdict, !wanted.is_empty() && !wanted.contains(&request.verdict))?;
    // 02 (j): "24 when .. a set or delete names PlatMode, after 9"
    broken(Rule::Mode, request.key == PLAT_MODE)?;
    // 02 (b): rule 10 no longer concerns appends
    let append = request.attributes & APPEND != 0;
    broken(Rule::Stamp, !wanted.is_empty() && !append && value.is_some_and(|value| !is_later(payload.stamp, value.stamp())))?;
    Ok(payload)
}

/// Rules 22, 6 and 24 for a mode request: PlatMode is ours, "6 (PlatMode, and PK if lost)", "24 when another transition is requested".
pub fn of_the_mode(session: &Session, side: Side, from: Mode, to: u32) -> Result<Transition, Rule> {
    let transition = transition(from, to);
    of_the_name(&session.setup, side, PLAT_MODE)?;
    let locked = is_locked(session, PLAT_MODE) || transition.is_some_and(|transition| transition.loses_pk) && is_locked(session, PK);
    broken(Rule::Locked, !is_boot(session) && locked)?;
    transition.ok_or(Rule::Mode)
}

/// Rules 11, 12 and 21: what the change would leave of the value.
pub fn of_the_change(session: &Session, key: Key, value: Option<&Entry>, change: &Change) -> Result<(), Rule> {
    match change {
        // 02 (e): "Rules are tried on the data as they would stand, if any, also where nothing changes. Deletes obey only read-only"
        Change::Nothing => broken(Rule::Setting, breaks_rule(session, key, value.map(|value| [value.data(), &[]]))),
        Change::Delete => {
            broken(Rule::Absent, value.is_none())?;
            broken(Rule::Setting, breaks_rule(session, key, None))
        }
        Change::Put(contents) => {
            broken(Rule::DataSize, contents.data_size() > MOST_DATA)?;
            broken(Rule::Setting, breaks_rule(session, key, Some([contents.old, contents.new])))
        }
    }
}

/// Rules 18 and 13, which a change meets that stores a value. 02 (a): "18 when after a set of one their rounded sizes exceed H, before 13 and with its exemptions"; 02 (f):
/// "Rule 13 .. reads a side's sum without error records, with its reserve at runtime, against its share, and still 28 plus all values against L (an error record's set
/// meets only this)". `sizes` are those of all values after the change, in a region of so many bytes.
pub fn of_the_room(session: &Session, length: usize, side: Side, of_a_record: bool, sizes: &Sizes) -> Result<(), Rule> {
    if of_a_record {
        broken(Rule::RecordRoom, sizes.records > record_space(session))?;
    } else {
        broken(Rule::Room, sizes.of_side(side) + reserve(session, side) > side.share(&session.setup))?;
    }
    broken(Rule::Room, REGION_HEADER as u64 + sizes.all() > length as u64)
}

/// The sizes of all values after one is put.
pub fn sizes_after(setup: &Setup, region: &[u8], key: Key, contents: &Contents) -> Sizes {
    let mut sizes = Sizes::of(setup, region::values::<Authenticated>(region).filter(|value| !value.is_for(key)));
    sizes.add(setup, key, contents.attributes, contents.entry_size::<Authenticated>(key));
    sizes
}
