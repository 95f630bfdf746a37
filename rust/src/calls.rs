//! Both implementations as tables of calls, so that tests and benchmarks run on either.

use std::cell::RefCell;

use crate::engine;
use crate::interface::{Answer, Checked, Context, Key, Listed, Platform, Replies, Reply, Request, Session, Setup, Started};
use crate::paper;
use crate::plan::Content;

/// An implementation of documents 01 and 02, call by call.
#[derive(Clone, Copy)]
pub struct Calls {
    pub who: &'static str,
    pub check: fn(&[u8]) -> Checked,
    pub session_new: fn(&Setup) -> Session,
    pub phase: fn(Session, u32) -> Session,
    pub lock: fn(Session, u32, Key) -> Listed,
    pub get: Read,
    pub get_many: fn(Context, &Session, &[u8], &[Key], &mut [u8]) -> Replies,
    pub next_name: Read,
    pub set: fn(Context, &Session, &mut [u8], &Request) -> Answer,
    pub profile: fn(Context, &Session, &mut [u8], &[u8]) -> Answer,
    pub mode: fn(Context, &Session, &mut [u8], u32) -> Answer,
    pub present_mode: fn(&[u8]) -> Platform,
    pub format: fn(Context, &mut [u8]) -> Answer,
    pub start_up: fn(Context, &mut [u8], &Setup) -> Started,
    pub from_plain: Move,
    pub to_plain: Move,
}

/// Get and next-name.
pub type Read = fn(Context, &Session, &[u8], Key, &mut [u8]) -> Reply;

/// A source and a target.
pub type Move = fn(&[u8], &mut [u8]) -> Answer;

pub const PAPER: Calls = Calls {
    who: "paper",
    check: paper::check,
    session_new: paper::session_new,
    phase: paper::phase,
    lock: paper::lock,
    get: paper::get,
    get_many: paper::get_many,
    next_name: paper::next_name,
    set: paper::set,
    profile: paper::profile,
    mode: paper::mode,
    present_mode: paper::present_mode,
    format: paper::format,
    start_up: paper::start_up,
    from_plain: paper::from_plain,
    to_plain: paper::to_plain,
};

pub const ENGINE: Calls = Calls {
    who: "engine",
    check: engine::check,
    session_new: engine::session_new,
    phase: engine::phase,
    lock: engine::lock,
    get: engine::get,
    get_many: engine::get_many,
    next_name: engine::next_name,
    set: |context, session, image, request| lent(|content| engine::set(context, session, image, request, content)),
    profile: |context, session, image, file| lent(|content| engine::profile(context, session, image, file, content)),
    mode: |context, session, image, to| lent(|content| engine::mode(context, session, image, to, content)),
    present_mode: engine::present_mode,
    format: |context, image| lent(|content| engine::format(context, image, content)),
    start_up: |context, image, setup| lent(|content| engine::start_up(context, image, setup, content)),
    from_plain: engine::from_plain,
    to_plain: engine::to_plain,
};

/// The engine with its session lent to get, next-name, set, profile and mode request.
pub const LENT: Calls = Calls {
    who: "lent",
    get: engine::lent::get,
    next_name: engine::lent::next_name,
    set: |context, session, image, request| lent(|content| engine::lent::set(context, session, image, request, content)),
    profile: |context, session, image, file| lent(|content| engine::lent::profile(context, session, image, file, content)),
    mode: |context, session, image, to| lent(|content| engine::lent::mode(context, session, image, to, content)),
    ..ENGINE
};

/// Lends a call of the engine the content, as the last call has left it.
pub fn lent<T>(call: impl FnOnce(&mut Content) -> T) -> T {
    thread_local!(static CONTENT: RefCell<Box<Content>> = RefCell::new(Box::new([0xA5; size_of::<Content>()])));
    CONTENT.with_borrow_mut(|content| call(content))
}

/// Both, for what is to hold of either.
pub const BOTH: [Calls; 2] = [PAPER, ENGINE];
