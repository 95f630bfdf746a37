//! Session: phase, custom mode, run-time reserves, shares, the records' bytes, the modem's GUID, the rules for settings and the lock list, by value.

use super::entry::well_formed;
use super::rules::{broken, of_the_name};
use super::tenants::Side;
use crate::interface::{Answer, Guid, Key, Listed, Rule, Session, Setup, Tenant, BOOT, PLACE, PLACES, RUNTIME};

const MOST_RESERVE: u32 = 4096;
const VENDOR_IN_PLACE: usize = 128;
/// 02 (f): the locks that a side has.
const LOCKS: usize = 8;

/// A start-up's fresh session: boot, no locks, list bytes zero. A reserve above 4,096 is kept as 4,096; shares, H, the modem's GUID and the rules as they are.
pub fn session_new(setup: &Setup) -> Session {
    let modem = Tenant { reserve: setup.modem.reserve.min(MOST_RESERVE), ..setup.modem };
    Session {
        phase: BOOT,
        setup: Setup { custom: (setup.custom != 0) as u32, reserve: setup.reserve.min(MOST_RESERVE), modem, ..*setup },
        count: 0,
        sizes: [0; PLACES],
        locks: [0; PLACES * PLACE],
    }
}

/// The phase only goes forward: moving to an earlier one changes nothing.
pub fn phase(session: Session, to: u32) -> Session {
    let to = to.min(RUNTIME);
    if to > session.phase.min(RUNTIME) {
        Session { phase: to, ..session }
    } else {
        session
    }
}

/// Locks meet 3, 22, 15, 16 only; a name already listed is accepted unchanged.
pub fn lock(mut session: Session, side: u32, key: Key) -> Listed {
    let answer = match place_for(&session, Side::of(side), key) {
        Err(rule) => Answer::Refused(rule),
        Ok(free) => {
            if let Some(place) = free {
                session.sizes[place] = key.name.len() as u32;
                let bytes = &mut session.locks[place * PLACE..][..PLACE];
                bytes.fill(0);
                bytes[..key.name.len()].copy_from_slice(key.name);
                bytes[VENDOR_IN_PLACE..].copy_from_slice(key.vendor);
                session.count += 1;
            }
            Answer::Done(0)
        }
    };
    Listed { answer, session }
}

/// The free place that a lock fills; none for a name already listed. 02 (f): "16, eight of that side's names or no free place".
fn place_for(session: &Session, side: Side, key: Key) -> Result<Option<usize>, Rule> {
    of_the_name(&session.setup, side, key)?;
    broken(Rule::LockPhase, !is_boot(session))?;
    if is_locked(session, key) {
        return Ok(None);
    }
    let place = count(session);
    broken(Rule::LockSpace, locks_of(session, side) >= LOCKS || place == PLACES)?;
    Ok(Some(place))
}

pub fn is_boot(session: &Session) -> bool {
    session.phase == BOOT
}

pub fn is_runtime(session: &Session) -> bool {
    session.phase >= RUNTIME
}

/// A side's reserve, which counts at runtime only; above 4,096 it counts as 4,096.
pub fn reserve(session: &Session, side: Side) -> u64 {
    let reserve = match side {
        _ if !is_runtime(session) => 0,
        Side::Ours => session.setup.reserve,
        Side::Modem => session.setup.modem.reserve,
    };
    reserve.min(MOST_RESERVE).into()
}

/// H, which nothing caps: it may be above L.
pub fn record_space(session: &Session) -> u64 {
    session.setup.records.into()
}

/// A lock count above 16 counts as 16.
fn count(session: &Session) -> usize {
    (session.count as usize).min(PLACES)
}

/// The listed names that are well formed, each as often as it is listed.
fn listed(session: &Session) -> impl Iterator<Item = Key<'_>> {
    let places = session.locks.chunks_exact(PLACE).zip(session.sizes).take(count(session));
    places.filter_map(|(place, size)| {
        let (name, vendor): (_, &Guid) = place.split_last_chunk().expect("144 bytes");
        name.get(..size as usize).filter(|name| well_formed(name)).map(|name| Key { name, vendor })
    })
}

/// Whether a well-formed name is listed. A listed name that is not well formed equals none, so it locks nothing.
pub fn is_locked(session: &Session, key: Key) -> bool {
    listed(session).any(|other| other == key)
}

/// How many places hold names of a side. Those with names that are not well formed are no side's, and take a place.
fn locks_of(session: &Session, side: Side) -> usize {
    listed(session).filter(|key| Side::owning(&session.setup, *key) == side).count()
}
