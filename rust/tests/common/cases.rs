//! The images and calls of the power cuts' cases, which other tests play too.

use super::cuts::Run;
use super::generate::{self, Asked, Name, BLOCK};
use super::modes::PLAT_MODE;
use super::profiles::{self, Profile};
use super::stored::Call;
use super::wear::Wear;
use super::{signed, A, B, NEW, OLD, RATE, VENDOR};
use varstore::interface::{Answer, Key, Setting, Setup, AUDIT_MODE, DEPLOYED_MODE, OURS};
use varstore::paper::request::PK;

pub const C: Key = Key { name: b"C\0\0\0", vendor: &VENDOR };
pub const S: Key = Key { name: b"S\0\0\0", vendor: &VENDOR };

pub fn asked(key: Key, attributes: u32, data: &[u8]) -> Asked {
    Asked { name: Name { name: key.name.to_vec(), vendor: *key.vendor }, attributes, data: data.to_vec(), presence: 0, verdict: 3, side: OURS }
}

pub fn set(key: Key, data: &[u8]) -> Call {
    Call::Set(asked(key, 0x07, data))
}

/// A set of a hardware error record.
pub fn record(key: Key, data: &[u8]) -> Call {
    Call::Set(asked(key, 0x0F, data))
}

pub fn delete(key: Key) -> Call {
    Call::Set(asked(key, 0, &[]))
}

/// A profile of settings with attributes 0x07; empty data delete.
pub fn profile(settings: &[(Key, &[u8])]) -> Call {
    Call::Profile(Profile { file: profiles::settings(settings), side: OURS })
}

/// A mode request.
pub fn mode(to: u32) -> Call {
    Call::Mode { to, side: OURS }
}

/// A set of PK by the verdict that is wanted where it is absent, or a set or delete by that which is wanted where it is there.
pub fn enrolled(data: &[u8]) -> Call {
    Call::Set(asked(PK, 0x27, &signed(2024, data)))
}

pub fn by_the_key(data: &[u8]) -> Call {
    Call::Set(Asked { verdict: 1, ..asked(PK, 0x27, &signed(2025, data)) })
}

/// A run on an empty store. Its former region holds other values under the same names.
pub fn empty(blocks: usize) -> Run {
    let image = generate::empty(blocks);
    let mut former = Run::new(image.clone(), image[..blocks * BLOCK].to_vec());
    for (key, data) in [(RATE, &[0xE0; 4][..]), (B, &[0xE1; 700]), (A, &[0xE2; 500])] {
        former.whole(&set(key, data));
    }
    Run::new(image, former.image[..blocks * BLOCK].to_vec())
}

/// The cases' images are made by whole and stopped calls.
impl Run {
    pub fn whole(&mut self, call: &Call) -> u64 {
        match self.make(call, u64::MAX) {
            Answer::Done(stores) => stores,
            other => panic!("{other:?} is the answer to {call:?}"),
        }
    }

    pub fn with(mut self, key: Key, data: &[u8]) -> Run {
        self.whole(&set(key, data));
        self
    }

    /// The same in a session with so many bytes for records, and the rest of L for others.
    pub fn with_space(mut self, records: u32) -> Run {
        self.session.setup = Setup { share: Setup::alone(self.image.len()).share, ..self.session.setup }.with_records(records);
        self
    }

    /// The same with rules for settings.
    pub fn with_rules(mut self, rules: &[Setting]) -> Run {
        self.session.setup = self.session.setup.ruled(rules);
        self
    }

    pub fn with_record(mut self, key: Key, data: &[u8]) -> Run {
        self.whole(&record(key, data));
        self
    }

    pub fn stopped(mut self, call: &Call, n: u64) -> Run {
        assert_eq!(self.make(call, n), Answer::Stopped);
        self
    }

    /// The same with so many records used; the account of wear begins here.
    pub fn recorded(mut self, used: usize) -> Run {
        let work = self.former.len();
        self.image[work..][..used].fill(0xF8);
        Run { wear: Wear::of(&self.image), ..self }
    }
}

/// A store in which RATE has a 3F entry, and a leftover 3E beside it.
pub fn with_leftover() -> Run {
    empty(1).with(RATE, OLD).with(A, OLD).stopped(&set(RATE, NEW), 76)
}

/// A store in which RATE has a 3E entry only.
pub fn being_replaced() -> Run {
    empty(1).with(RATE, OLD).with(A, OLD).stopped(&set(RATE, NEW), 1)
}

/// A region whose tail has no room for more than some bytes: deleted entries, a leftover beside its 3F, a 3E alone, and
/// a value with a stamp are in it.
pub fn crowded(blocks: usize) -> Run {
    let mut run = empty(blocks).with(RATE, OLD).stopped(&set(RATE, NEW), 76).with(C, OLD).stopped(&set(C, NEW), 1);
    run.whole(&Call::Set(asked(S, 0x27, &signed(2024, OLD))));
    let more = (0..2 * blocks as u8 - 1).fold(run.with(A, &[1; 700]), |run, turn| run.with(B, &[turn; 2000]));
    more.with(A, &[2; 600])
}

/// What compacts a crowded region.
pub fn compacting() -> Call {
    set(A, &[3; 700])
}

/// What changes a crowded region by one profile: a value that stays, one that is replaced, one that goes, and two new ones.
pub fn profiling() -> Call {
    profile(&[(RATE, NEW), (A, &[3; 700]), (C, &[]), (Key { name: b"D\0\0\0", ..A }, OLD), (Key { name: b"E\0\0\0", ..A }, &[5; 40])])
}

/// 02 (j): a run in each of user, audit and deployed mode on the values of another.
impl Run {
    pub fn in_user_mode(mut self) -> Run {
        self.whole(&enrolled(&[0x4B; 30]));
        self
    }

    pub fn in_audit_mode(mut self) -> Run {
        self.whole(&mode(AUDIT_MODE));
        self
    }

    pub fn in_deployed_mode(self) -> Run {
        let mut run = self.in_user_mode();
        run.whole(&mode(DEPLOYED_MODE));
        run
    }

    /// With a byte under PlatMode's name that counts as absent: another writer's, put in the place of one that was stored.
    pub fn with_stray(mut self, byte: u8) -> Run {
        let at = self.image.windows(18).position(|window| window == PLAT_MODE.name).expect("a stored mode") + 18;
        self.image[at] = byte;
        Run::new(self.image, self.former)
    }
}

/// The changes of mode and PK together: user to audit, audit to deployed, deployed to setup, and PK that comes or goes beside a byte that counts as absent.
pub fn joint_changes(run: impl Fn() -> Run) -> Vec<(Run, Call)> {
    vec![
        (run().in_user_mode(), mode(AUDIT_MODE)),
        (run().in_audit_mode(), enrolled(NEW)),
        (run().in_deployed_mode(), by_the_key(&[])),
        (run().in_deployed_mode().with_stray(2), mode(AUDIT_MODE)),
        (run().in_deployed_mode().with_stray(2), by_the_key(&[])),
        (run().in_audit_mode().with_stray(3), enrolled(NEW)),
    ]
}

/// A compaction of b blocks makes 1 + L stores before its deciding one, of index 1 + L.
pub fn decided(blocks: usize) -> u64 {
    (blocks * BLOCK + 2) as u64
}

/// The start id's first byte stands in the tail.
pub fn with_dirty_tail(blocks: usize) -> Run {
    empty(blocks).with(A, &[1; 500]).with(RATE, OLD).stopped(&set(B, NEW), 1)
}
