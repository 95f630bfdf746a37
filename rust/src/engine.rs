//! The proved engine behind the same calls as `paper`, and its planning calls: the declarations of `c/varstore.h`, and thin wrappers over them. All unsafe
//! code is here.

use std::mem::{offset_of, size_of};

use crate::interface::{
    Answer, Checked, Context, Guid, Key, Listed, Platform, Replies, Reply, Request, Rule, Session, Setting, Setup, Started, Tenant, NAMES,
};
use crate::plan::{Content, Operation, Plan, OPERATIONS};

/// The C structures that are not part of the interface as they stand.
#[derive(Clone, Copy)]
#[repr(C)]
struct RawAnswer {
    kind: u32,
    rule: u32,
    stores: u64,
}

impl RawAnswer {
    fn answer(self) -> Answer {
        match (self.kind, self.rule, self.stores) {
            (0, 0, stores) => Answer::Done(stores),
            (1, 0, 0) => Answer::Stopped,
            (2, rule, 0) => Answer::Refused(Rule::numbered(rule).unwrap_or_else(|| panic!("the library answered rule {rule}"))),
            other => panic!("the library answered {other:?}"),
        }
    }
}

#[repr(C)]
struct RawReply {
    answer: RawAnswer,
    size: u32,
    attributes: u32,
    needed: u32,
}

/// What a call for several names tells of one of them: the rule that refuses it, 0 if it is done, and what a get gives.
#[derive(Clone, Copy, PartialEq, Eq, Debug)]
#[repr(C)]
pub struct Item {
    pub rule: u32,
    pub size: u32,
    pub attributes: u32,
    pub needed: u32,
}

/// The items of a call.
pub type Told = [Item; NAMES];

/// The bytes of a key's place, GUID and name, as next-name writes them.
pub const KEY: usize = 144;

#[repr(C)]
struct RawRoom {
    answer: RawAnswer,
    storage: u32,
    remaining: u32,
    largest: u32,
}

/// What a query tells.
#[derive(Clone, Copy, PartialEq, Eq, Debug)]
pub struct Room {
    pub answer: Answer,
    pub storage: u32,
    pub remaining: u32,
    pub largest: u32,
}

impl RawRoom {
    fn room(self) -> Room {
        Room { answer: self.answer.answer(), storage: self.storage, remaining: self.remaining, largest: self.largest }
    }
}

#[repr(C)]
struct RawListed {
    answer: RawAnswer,
    session: Session,
}

#[repr(C)]
struct RawChecked {
    answer: RawAnswer,
    blocks: u32,
    tail: u32,
}

#[repr(C)]
struct RawPlatform {
    answer: RawAnswer,
    mode: u32,
}

#[repr(C)]
struct RawStarted {
    answer: RawAnswer,
    session: Session,
}

#[derive(Clone, Copy)]
#[repr(C)]
struct RawOperation {
    kind: u64,
    at: u64,
    from: u64,
    len: u64,
}

#[repr(C)]
struct RawPlan {
    rule: u32,
    deciding: u64,
    operations: [RawOperation; OPERATIONS],
}

/// The layout that `c/varstore.h` asserts: a structure's size, and the offsets of its fields.
macro_rules! laid_out {
    ($type:ident $size:literal $($field:ident $offset:literal)*) => {
        const _: () = assert!(size_of::<$type>() == $size $(&& offset_of!($type, $field) == $offset)*);
    };
}

const _: () = assert!(size_of::<usize>() == 8 && size_of::<*const u8>() == 8);
laid_out!(Context 88 limit 0 count 8 dead 12 width 76 side 80);
laid_out!(Setting 216 size 0 least 4 most 8 fixed 12 at 16 width 20 ranged 24 low 28 high 32 count 36 numbers 40 name 72 vendor 200);
laid_out!(Tenant 24 share 0 reserve 4 vendor 8);
laid_out!(Setup 6956 custom 0 reserve 4 records 8 share 12 modem 16 rules 40 settings 44);
// with the padding of its alignment, which C's does not have
laid_out!(Session 9336 phase 0 setup 4 count 6960 sizes 6964 locks 7028);
laid_out!(RawAnswer 16 kind 0 rule 4 stores 8);
laid_out!(RawReply 32 answer 0 size 16 attributes 20 needed 24);
laid_out!(Item 16 rule 0 size 4 attributes 8 needed 12);
laid_out!(RawRoom 32 answer 0 storage 16 remaining 20 largest 24);
laid_out!(RawListed 9352 answer 0 session 16);
laid_out!(RawChecked 24 answer 0 blocks 16 tail 20);
laid_out!(RawPlatform 24 answer 0 mode 16);
laid_out!(RawStarted 9352 answer 0 session 16);
laid_out!(RawOperation 32 kind 0 at 8 from 16 len 24);
laid_out!(RawPlan 400 rule 0 deciding 8 operations 16);

/// The functions under the names that the library has for them: with the form of `c/varstore.h` that these declarations were written for.
macro_rules! of_form {
    ($form:literal $(fn $name:ident($($argument:ident: $type:ty),*) -> $result:ty;)*) => {
        extern "C" {
            $(#[link_name = concat!(stringify!($name), "_form", $form)] fn $name($($argument: $type),*) -> $result;)*
        }
    };
}

#[rustfmt::skip]
of_form! { 11
    fn vs_check(image: *const u8, image_len: usize) -> RawChecked;
    fn vs_present_mode(image: *const u8, image_len: usize) -> RawPlatform;
    fn vs_session_new(setup: Setup) -> Session;
    fn vs_phase(session: Session, phase: u32) -> Session;
    fn vs_lock(session: Session, side: u32, name: *const u8, name_len: usize, vendor: *const Guid) -> RawListed;
    fn vs_get(context: Context, session: Session, image: *const u8, image_len: usize, name: *const u8, name_len: usize,
              vendor: *const Guid, buffer: *mut u8, buffer_len: usize) -> RawReply;
    fn vs_get_many(context: Context, session: Session, image: *const u8, image_len: usize, keys: *const u8, keys_len: usize,
                   sizes: *const u32, sizes_len: usize, told: *mut Told, buffer: *mut u8, buffer_len: usize) -> RawAnswer;
    fn vs_next_name(context: Context, session: Session, image: *const u8, image_len: usize, name: *const u8, name_len: usize,
                    vendor: *const Guid, buffer: *mut u8, buffer_len: usize) -> RawReply;
    fn vs_set(context: Context, session: Session, image: *mut u8, image_len: usize, name: *const u8, name_len: usize,
              vendor: *const Guid, attributes: u32, data: *const u8, data_len: usize, presence: u32, verdict: u32,
              content: *mut Content) -> RawAnswer;
    fn vs_profile(context: Context, session: Session, image: *mut u8, image_len: usize, file: *const u8, file_len: usize, content: *mut Content) -> RawAnswer;
    fn vs_mode(context: Context, session: Session, image: *mut u8, image_len: usize, mode: u32, content: *mut Content) -> RawAnswer;
    fn vs_format(context: Context, image: *mut u8, image_len: usize, content: *mut Content) -> RawAnswer;
    fn vs_start_up(context: Context, image: *mut u8, image_len: usize, setup: Setup, content: *mut Content) -> RawStarted;
    fn vs_from_plain(image: *const u8, image_len: usize, target: *mut u8, target_len: usize) -> RawAnswer;
    fn vs_to_plain(image: *const u8, image_len: usize, target: *mut u8, target_len: usize) -> RawAnswer;
    fn vs_plan_set(session: Session, side: u32, image: *const u8, image_len: usize, name: *const u8, name_len: usize, vendor: *const Guid,
                   attributes: u32, data: *const u8, data_len: usize, presence: u32, verdict: u32, content: *mut Content) -> RawPlan;
    fn vs_plan_profile(session: Session, side: u32, image: *const u8, image_len: usize, file: *const u8, file_len: usize, content: *mut Content) -> RawPlan;
    fn vs_plan_mode(session: Session, side: u32, image: *const u8, image_len: usize, mode: u32, content: *mut Content) -> RawPlan;
    fn vs_plan_start_up(image: *const u8, image_len: usize, setup: Setup, content: *mut Content) -> RawPlan;
    fn vs_plan_format(image: *const u8, image_len: usize, content: *mut Content) -> RawPlan;
    fn vs_query(context: Context, session: Session, image: *const u8, image_len: usize, attributes: u32) -> RawRoom;
    fn vs_query_lent(context: Context, session: *const Session, image: *const u8, image_len: usize, attributes: u32) -> RawRoom;
    fn vs_session_fresh(session: *mut Session) -> ();
    fn vs_phase_lent(session: *mut Session, phase: u32) -> ();
    fn vs_lock_lent(session: *mut Session, side: u32, name: *const u8, name_len: usize, vendor: *const Guid) -> RawAnswer;
    fn vs_get_lent(context: Context, session: *const Session, image: *const u8, image_len: usize, name: *const u8, name_len: usize,
                   vendor: *const Guid, buffer: *mut u8, buffer_len: usize) -> RawReply;
    fn vs_get_many_lent(context: Context, session: *const Session, image: *const u8, image_len: usize, keys: *const u8, keys_len: usize,
                        sizes: *const u32, sizes_len: usize, told: *mut Told, buffer: *mut u8, buffer_len: usize) -> RawAnswer;
    fn vs_next_name_lent(context: Context, session: *const Session, image: *const u8, image_len: usize, name: *const u8, name_len: usize,
                         vendor: *const Guid, buffer: *mut u8, buffer_len: usize) -> RawReply;
    fn vs_set_lent(context: Context, session: *const Session, image: *mut u8, image_len: usize, name: *const u8, name_len: usize,
                   vendor: *const Guid, attributes: u32, data: *const u8, data_len: usize, presence: u32, verdict: u32,
                   content: *mut Content) -> RawAnswer;
    fn vs_profile_lent(context: Context, session: *const Session, image: *mut u8, image_len: usize, file: *const u8, file_len: usize,
                       content: *mut Content) -> RawAnswer;
    fn vs_mode_lent(context: Context, session: *const Session, image: *mut u8, image_len: usize, mode: u32, content: *mut Content) -> RawAnswer;
    fn vs_start_up_lent(context: Context, image: *mut u8, image_len: usize, session: *mut Session, content: *mut Content) -> RawAnswer;
    fn vs_plan_set_lent(session: *const Session, side: u32, image: *const u8, image_len: usize, name: *const u8, name_len: usize, vendor: *const Guid,
                        attributes: u32, data: *const u8, data_len: usize, presence: u32, verdict: u32, content: *mut Content) -> RawPlan;
    fn vs_plan_profile_lent(session: *const Session, side: u32, image: *const u8, image_len: usize, file: *const u8, file_len: usize,
                            content: *mut Content) -> RawPlan;
    fn vs_plan_mode_lent(session: *const Session, side: u32, image: *const u8, image_len: usize, mode: u32, content: *mut Content) -> RawPlan;
}

impl RawReply {
    fn reply(self) -> Reply {
        Reply { answer: self.answer.answer(), size: self.size, attributes: self.attributes, needed: self.needed }
    }
}

impl Item {
    fn reply(self) -> Reply {
        let answer = RawAnswer { kind: if self.rule == 0 { 0 } else { 2 }, rule: self.rule, stores: 0 };
        Reply { answer: answer.answer(), size: self.size, attributes: self.attributes, needed: self.needed }
    }
}

impl RawOperation {
    fn operation(self) -> Operation {
        let [at, from, len] = [self.at, self.from, self.len].map(|number| usize::try_from(number).expect("64 bits"));
        match (self.kind, u8::try_from(from)) {
            (0, _) if (at, from, len) == (0, 0, 0) => Operation::Nothing,
            (1, Ok(value)) if len == 1 => Operation::Mark { at, value },
            (2, _) if from == 0 => Operation::Erase { first: at, count: len },
            (3, _) => Operation::Program { at, from, len },
            (4, _) if len == 60 => Operation::Header { at, from },
            (kind, _) => panic!("the library planned operation {kind} with {at}, {from}, {len}"),
        }
    }
}

impl RawPlan {
    /// A refused call has no operation, and none decides.
    fn plan(self) -> Result<Plan, Rule> {
        let operations = self.operations.map(RawOperation::operation);
        let deciding = Some(self.deciding as usize).filter(|&number| number != OPERATIONS);
        assert!(deciding.is_none_or(|number| matches!(operations.get(number), Some(Operation::Mark { .. }))), "operation {deciding:?} decides");
        match self.rule {
            0 => Ok(Plan { deciding, operations }),
            rule => {
                assert!(deciding.is_none() && operations == [Operation::Nothing; OPERATIONS], "refused {rule}, and {operations:?}");
                Err(Rule::numbered(rule).unwrap_or_else(|| panic!("the library planned rule {rule}")))
            }
        }
    }
}

pub fn check(image: &[u8]) -> Checked {
    let raw = unsafe { vs_check(image.as_ptr(), image.len()) };
    Checked { answer: raw.answer.answer(), blocks: raw.blocks, tail: raw.tail }
}

/// The mode that an image says.
pub fn present_mode(image: &[u8]) -> Platform {
    let raw = unsafe { vs_present_mode(image.as_ptr(), image.len()) };
    Platform { answer: raw.answer.answer(), mode: raw.mode }
}

pub fn session_new(setup: &Setup) -> Session {
    unsafe { vs_session_new(*setup) }
}

pub fn phase(session: Session, to: u32) -> Session {
    unsafe { vs_phase(session, to) }
}

pub fn lock(session: Session, side: u32, key: Key) -> Listed {
    let raw = unsafe { vs_lock(session, side, key.name.as_ptr(), key.name.len(), key.vendor) };
    Listed { answer: raw.answer.answer(), session: raw.session }
}

pub fn get(context: Context, session: &Session, image: &[u8], key: Key, buffer: &mut [u8]) -> Reply {
    let (name, size) = (key.name.as_ptr(), key.name.len());
    let (front, length) = (buffer.as_mut_ptr(), buffer.len());
    unsafe { vs_get(context, *session, image.as_ptr(), image.len(), name, size, key.vendor, front, length) }.reply()
}

/// Keys in their places, and the size of each. Of a name over 128 bytes what fits goes over, and its full size.
pub fn placed(keys: &[Key]) -> (Vec<u8>, Vec<u32>) {
    let mut places = vec![0; KEY * keys.len()];
    for (place, key) in places.chunks_exact_mut(KEY).zip(keys) {
        place.iter_mut().zip(key.vendor.iter().chain(key.name)).for_each(|(place, byte)| *place = *byte);
    }
    (places, keys.iter().map(|key| (key.vendor.len() + key.name.len()) as u32).collect())
}

/// What a call on placed keys tells of them.
fn replies(keys: &[Key], call: impl FnOnce(&[u8], &[u32], &mut Told) -> Answer) -> Replies {
    let (places, sizes) = placed(keys);
    let mut told = [Item { rule: u32::MAX, size: u32::MAX, attributes: u32::MAX, needed: u32::MAX }; NAMES];
    let answer = call(&places, &sizes, &mut told);
    let count = if answer == Answer::Done(0) { keys.len() } else { 0 };
    Replies { answer, items: told[..count].iter().map(|item| item.reply()).collect() }
}

/// The call for several names as C makes it: what is in the places need be no keys, and `told` keeps what the call does not write.
pub fn get_placed(context: Context, session: &Session, image: &[u8], keys: &[u8], sizes: &[u32], told: &mut Told, buffer: &mut [u8]) -> Answer {
    let (places, length) = (keys.as_ptr(), keys.len());
    let (numbers, count) = (sizes.as_ptr(), sizes.len());
    let (front, room) = (buffer.as_mut_ptr(), buffer.len());
    unsafe { vs_get_many(context, *session, image.as_ptr(), image.len(), places, length, numbers, count, told, front, room) }.answer()
}

pub fn get_many(context: Context, session: &Session, image: &[u8], keys: &[Key], buffer: &mut [u8]) -> Replies {
    replies(keys, |places, sizes, told| get_placed(context, session, image, places, sizes, told, buffer))
}

pub fn next_name(context: Context, session: &Session, image: &[u8], key: Key, buffer: &mut [u8]) -> Reply {
    let (name, size) = (key.name.as_ptr(), key.name.len());
    let (front, length) = (buffer.as_mut_ptr(), buffer.len());
    unsafe { vs_next_name(context, *session, image.as_ptr(), image.len(), name, size, key.vendor, front, length) }.reply()
}

pub fn set(context: Context, session: &Session, image: &mut [u8], request: &Request, content: &mut Content) -> Answer {
    let Request { key, attributes, data, presence, verdict } = *request;
    let (name, size) = (key.name.as_ptr(), key.name.len());
    let (bytes, length) = (data.as_ptr(), data.len());
    let (first, whole) = (image.as_mut_ptr(), image.len());
    unsafe { vs_set(context, *session, first, whole, name, size, key.vendor, attributes, bytes, length, presence, verdict, content) }.answer()
}

/// The settings of a file as one change.
pub fn profile(context: Context, session: &Session, image: &mut [u8], file: &[u8], content: &mut Content) -> Answer {
    unsafe { vs_profile(context, *session, image.as_mut_ptr(), image.len(), file.as_ptr(), file.len(), content) }.answer()
}

/// A request for audit or deployed mode.
pub fn mode(context: Context, session: &Session, image: &mut [u8], to: u32, content: &mut Content) -> Answer {
    unsafe { vs_mode(context, *session, image.as_mut_ptr(), image.len(), to, content) }.answer()
}

pub fn format(context: Context, image: &mut [u8], content: &mut Content) -> Answer {
    unsafe { vs_format(context, image.as_mut_ptr(), image.len(), content) }.answer()
}

pub fn start_up(context: Context, image: &mut [u8], setup: &Setup, content: &mut Content) -> Started {
    let raw = unsafe { vs_start_up(context, image.as_mut_ptr(), image.len(), *setup, content) };
    Started { answer: raw.answer.answer(), session: raw.session }
}

pub fn from_plain(source: &[u8], target: &mut [u8]) -> Answer {
    unsafe { vs_from_plain(source.as_ptr(), source.len(), target.as_mut_ptr(), target.len()) }.answer()
}

pub fn to_plain(source: &[u8], target: &mut [u8]) -> Answer {
    unsafe { vs_to_plain(source.as_ptr(), source.len(), target.as_mut_ptr(), target.len()) }.answer()
}

/// What a set that a side asks is to store; the operations take their bytes from the content.
pub fn plan_set(session: &Session, side: u32, image: &[u8], request: &Request, content: &mut Content) -> Result<Plan, Rule> {
    let Request { key, attributes, data, presence, verdict } = *request;
    let (name, size) = (key.name.as_ptr(), key.name.len());
    let (bytes, length) = (data.as_ptr(), data.len());
    let (first, whole) = (image.as_ptr(), image.len());
    unsafe { vs_plan_set(*session, side, first, whole, name, size, key.vendor, attributes, bytes, length, presence, verdict, content) }.plan()
}

/// The same of a profile.
pub fn plan_profile(session: &Session, side: u32, image: &[u8], file: &[u8], content: &mut Content) -> Result<Plan, Rule> {
    unsafe { vs_plan_profile(*session, side, image.as_ptr(), image.len(), file.as_ptr(), file.len(), content) }.plan()
}

/// The same of a mode request.
pub fn plan_mode(session: &Session, side: u32, image: &[u8], to: u32, content: &mut Content) -> Result<Plan, Rule> {
    unsafe { vs_plan_mode(*session, side, image.as_ptr(), image.len(), to, content) }.plan()
}

/// The same of a start-up, whose session is `session_new`'s.
pub fn plan_start_up(image: &[u8], setup: &Setup, content: &mut Content) -> Result<Plan, Rule> {
    unsafe { vs_plan_start_up(image.as_ptr(), image.len(), *setup, content) }.plan()
}

pub fn plan_format(image: &[u8], content: &mut Content) -> Result<Plan, Rule> {
    unsafe { vs_plan_format(image.as_ptr(), image.len(), content) }.plan()
}

/// What UEFI's QueryVariableInfo asks, of the class of these attributes.
pub fn query(context: Context, session: &Session, image: &[u8], attributes: u32) -> Room {
    unsafe { vs_query(context, *session, image.as_ptr(), image.len(), attributes) }.room()
}

/// The calls over a session that stays where it is.
pub mod lent {
    use super::*;

    pub fn query(context: Context, session: &Session, image: &[u8], attributes: u32) -> Room {
        unsafe { vs_query_lent(context, session, image.as_ptr(), image.len(), attributes) }.room()
    }

    /// The session that a start-up begins with, in the place of one that holds its setup.
    pub fn session_fresh(session: &mut Session) {
        unsafe { vs_session_fresh(session) }
    }

    pub fn phase(session: &mut Session, to: u32) {
        unsafe { vs_phase_lent(session, to) }
    }

    pub fn lock(session: &mut Session, side: u32, key: Key) -> Answer {
        unsafe { vs_lock_lent(session, side, key.name.as_ptr(), key.name.len(), key.vendor) }.answer()
    }

    pub fn get(context: Context, session: &Session, image: &[u8], key: Key, buffer: &mut [u8]) -> Reply {
        let (name, size) = (key.name.as_ptr(), key.name.len());
        let (front, length) = (buffer.as_mut_ptr(), buffer.len());
        unsafe { vs_get_lent(context, session, image.as_ptr(), image.len(), name, size, key.vendor, front, length) }.reply()
    }

    pub fn get_placed(context: Context, session: &Session, image: &[u8], keys: &[u8], sizes: &[u32], told: &mut Told, buffer: &mut [u8]) -> Answer {
        let (places, length) = (keys.as_ptr(), keys.len());
        let (numbers, count) = (sizes.as_ptr(), sizes.len());
        let (front, room) = (buffer.as_mut_ptr(), buffer.len());
        unsafe { vs_get_many_lent(context, session, image.as_ptr(), image.len(), places, length, numbers, count, told, front, room) }.answer()
    }

    pub fn get_many(context: Context, session: &Session, image: &[u8], keys: &[Key], buffer: &mut [u8]) -> Replies {
        replies(keys, |places, sizes, told| get_placed(context, session, image, places, sizes, told, buffer))
    }

    pub fn next_name(context: Context, session: &Session, image: &[u8], key: Key, buffer: &mut [u8]) -> Reply {
        let (name, size) = (key.name.as_ptr(), key.name.len());
        let (front, length) = (buffer.as_mut_ptr(), buffer.len());
        unsafe { vs_next_name_lent(context, session, image.as_ptr(), image.len(), name, size, key.vendor, front, length) }.reply()
    }

    pub fn set(context: Context, session: &Session, image: &mut [u8], request: &Request, content: &mut Content) -> Answer {
        let Request { key, attributes, data, presence, verdict } = *request;
        let (name, size) = (key.name.as_ptr(), key.name.len());
        let (bytes, length) = (data.as_ptr(), data.len());
        let (first, whole) = (image.as_mut_ptr(), image.len());
        unsafe { vs_set_lent(context, session, first, whole, name, size, key.vendor, attributes, bytes, length, presence, verdict, content) }.answer()
    }

    pub fn profile(context: Context, session: &Session, image: &mut [u8], file: &[u8], content: &mut Content) -> Answer {
        unsafe { vs_profile_lent(context, session, image.as_mut_ptr(), image.len(), file.as_ptr(), file.len(), content) }.answer()
    }

    pub fn mode(context: Context, session: &Session, image: &mut [u8], to: u32, content: &mut Content) -> Answer {
        unsafe { vs_mode_lent(context, session, image.as_mut_ptr(), image.len(), to, content) }.answer()
    }

    /// The session holds the setup, and becomes the fresh one.
    pub fn start_up(context: Context, image: &mut [u8], session: &mut Session, content: &mut Content) -> Answer {
        unsafe { vs_start_up_lent(context, image.as_mut_ptr(), image.len(), session, content) }.answer()
    }

    pub fn plan_set(session: &Session, side: u32, image: &[u8], request: &Request, content: &mut Content) -> Result<Plan, Rule> {
        let Request { key, attributes, data, presence, verdict } = *request;
        let (name, size) = (key.name.as_ptr(), key.name.len());
        let (bytes, length) = (data.as_ptr(), data.len());
        let (first, whole) = (image.as_ptr(), image.len());
        unsafe { vs_plan_set_lent(session, side, first, whole, name, size, key.vendor, attributes, bytes, length, presence, verdict, content) }.plan()
    }

    pub fn plan_profile(session: &Session, side: u32, image: &[u8], file: &[u8], content: &mut Content) -> Result<Plan, Rule> {
        unsafe { vs_plan_profile_lent(session, side, image.as_ptr(), image.len(), file.as_ptr(), file.len(), content) }.plan()
    }

    pub fn plan_mode(session: &Session, side: u32, image: &[u8], to: u32, content: &mut Content) -> Result<Plan, Rule> {
        unsafe { vs_plan_mode_lent(session, side, image.as_ptr(), image.len(), to, content) }.plan()
    }
}
