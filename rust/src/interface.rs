//! What goes into a call and comes out of it, in both implementations.

use std::fmt;

pub type Guid = [u8; 16];

/// Rules a call can break, by their numbers. Those of 01 are in checking order; 02's are not: 22 is tried after 3 and, by a start-up, after 2, 17 after 5, 21 and then 18
/// between 12 and 13, 24 after 9, a move tries 1, 19, 20, 13, a profile 25 and 26 after 2, a mode request 22, 6, 24, 13 after 2, and 23 is met by a store. No call meets 27: a
/// season's script of another form.
#[derive(Clone, Copy, PartialEq, Eq, PartialOrd, Ord, Debug)]
#[repr(u32)]
pub enum Rule {
    Length = 1,
    Unready,
    Name,
    Attributes,
    KeyAttributes,
    Locked,
    Standing,
    Descriptor,
    Verdict,
    Stamp,
    Absent,
    DataSize,
    Room,
    Buffer,
    LockPhase,
    LockSpace,
    Record,
    RecordRoom,
    Source,
    TimeBased,
    Setting,
    Tenant,
    Worn,
    Mode,
    File,
    Twice,
    Script,
}

impl Rule {
    pub const ALL: [Rule; 27] = [
        Rule::Length,
        Rule::Unready,
        Rule::Name,
        Rule::Attributes,
        Rule::KeyAttributes,
        Rule::Locked,
        Rule::Standing,
        Rule::Descriptor,
        Rule::Verdict,
        Rule::Stamp,
        Rule::Absent,
        Rule::DataSize,
        Rule::Room,
        Rule::Buffer,
        Rule::LockPhase,
        Rule::LockSpace,
        Rule::Record,
        Rule::RecordRoom,
        Rule::Source,
        Rule::TimeBased,
        Rule::Setting,
        Rule::Tenant,
        Rule::Worn,
        Rule::Mode,
        Rule::File,
        Rule::Twice,
        Rule::Script,
    ];

    pub fn number(self) -> u32 {
        self as u32
    }

    pub fn numbered(number: u32) -> Option<Rule> {
        Rule::ALL.into_iter().find(|rule| rule.number() == number)
    }
}

/// The answer is done with its number of stores, stopped, or refused holding its rule.
#[derive(Clone, Copy, PartialEq, Eq, Debug)]
pub enum Answer {
    Done(u64),
    Stopped,
    Refused(Rule),
}

/// Places for dead addresses.
pub const DEAD: usize = 16;

/// 02 (f): the sides that a call may carry.
pub const OURS: u32 = 0;
pub const MODEM: u32 = 1;

/// What every call and start-up takes: the number n of stores after which it is stopped; 02 (h)'s dead addresses, offsets in the image, of which there are
/// `count`, above 16 counting as 16; 02 (i)'s width w, where other numbers than 1, 2, 4, 8 and 16 count as 1; and 02 (f)'s side, where other numbers than the modem's
/// count as ours. Format and start-up are no side's.
#[derive(Clone, Copy, PartialEq, Eq, Debug)]
#[repr(C)]
pub struct Context {
    pub limit: u64,
    pub count: u32,
    pub dead: [u32; DEAD],
    pub width: u32,
    pub side: u32,
}

impl Context {
    pub const NO_LIMIT: Context = Context::with(u64::MAX);

    /// Stopped after n stores, on a chip that stores bytes, of which none is dead, and asked by our side.
    pub const fn with(limit: u64) -> Context {
        Context { limit, count: 0, dead: [0; DEAD], width: 1, side: OURS }
    }

    /// The same on a chip with dead bytes: those addresses that have a place, and how many were given.
    pub fn worn(limit: u64, dead: &[u32]) -> Context {
        let mut context = Context { count: dead.len() as u32, ..Context::with(limit) };
        context.dead.iter_mut().zip(dead).for_each(|(place, address)| *place = *address);
        context
    }

    /// The same on a chip that programs pages.
    pub const fn paged(self, width: u32) -> Context {
        Context { width, ..self }
    }

    /// The same where a side asks.
    pub const fn by(self, side: u32) -> Context {
        Context { side, ..self }
    }
}

pub const BOOT: u32 = 0;
pub const AFTER_END_OF_DXE: u32 = 1;
pub const RUNTIME: u32 = 2;

/// 02 (j): the modes. A mode request asks for audit or deployed; of any other number it asks for what 24 refuses.
pub const SETUP_MODE: u32 = 0;
pub const USER_MODE: u32 = 1;
pub const AUDIT_MODE: u32 = 2;
pub const DEPLOYED_MODE: u32 = 3;

/// Places of the lock list, and the bytes of one.
pub const PLACES: usize = 16;
pub const PLACE: usize = 144;

/// 02 (g): the most names of one call.
pub const NAMES: usize = 64;

/// 02 (l): the most settings of a profile.
pub const ITEMS: usize = 8;

/// Places for 02 (e)'s rules, and for the numbers of one.
pub const SETTINGS: usize = 32;
pub const NUMBERS: usize = 8;

/// 02 (e): a rule for the variable of a name, `size` bytes of `name`, and a GUID: its smallest and largest size; whether it is read-only (`fixed` is not 0); and at
/// the offset `at` a field of `width` bytes, which is between `low` and `high`, ends included, or, where `ranged` is 0, one of `count` numbers, above 8 counting
/// as 8.
#[derive(Clone, Copy, PartialEq, Eq)]
#[repr(C)]
pub struct Setting {
    pub size: u32,
    pub least: u32,
    pub most: u32,
    pub fixed: u32,
    pub at: u32,
    pub width: u32,
    pub ranged: u32,
    pub low: u32,
    pub high: u32,
    pub count: u32,
    pub numbers: [u32; NUMBERS],
    pub name: [u8; 128],
    pub vendor: Guid,
}

impl Setting {
    /// What stands in a place without a rule: its name is not well formed, so that it would be for no variable.
    pub const NONE: Setting = Setting {
        size: 0,
        least: 0,
        most: 0,
        fixed: 0,
        at: 0,
        width: 0,
        ranged: 0,
        low: 0,
        high: 0,
        count: 0,
        numbers: [0; NUMBERS],
        name: [0; 128],
        vendor: [0; 16],
    };

    /// A rule that any data but empty ones keep. Of a name over 128 bytes what fits goes over, and its full size.
    pub fn any(key: Key) -> Setting {
        let mut setting = Setting { size: key.name.len() as u32, most: u32::MAX, width: 1, vendor: *key.vendor, ..Setting::NONE };
        setting.name.iter_mut().zip(key.name).for_each(|(place, byte)| *place = *byte);
        setting.between(u32::MIN, u32::MAX)
    }

    /// The same with another field.
    pub const fn field(self, at: u32, width: u32) -> Setting {
        Setting { at, width, ..self }
    }

    /// The same with another smallest and largest size.
    pub const fn sized(self, least: u32, most: u32) -> Setting {
        Setting { least, most, ..self }
    }

    /// The same where the field is to be between two numbers.
    pub const fn between(self, low: u32, high: u32) -> Setting {
        Setting { ranged: 1, low, high, ..self }
    }

    /// The same where it is to be one of a list: the numbers that have a place, and how many were given.
    pub fn one_of(self, numbers: &[u32]) -> Setting {
        let mut setting = Setting { ranged: 0, count: numbers.len() as u32, ..self };
        setting.numbers.iter_mut().zip(numbers).for_each(|(place, number)| *place = *number);
        setting
    }

    pub const fn read_only(self) -> Setting {
        Setting { fixed: 1, ..self }
    }
}

/// On one line, and of the name's bytes only those that count.
impl fmt::Debug for Setting {
    fn fmt(&self, f: &mut fmt::Formatter<'_>) -> fmt::Result {
        let Setting { size, least, most, fixed, at, width, ranged, low, high, count, numbers, name, vendor } = self;
        let name = &name[..name.len().min(*size as usize)];
        write!(f, "{size} bytes {name:X?} of {vendor:X?}: {least} to {most} bytes, read-only {fixed}, {width} at {at}, ")?;
        match ranged {
            0 => write!(f, "{count} of {numbers:?}"),
            _ => write!(f, "{low} to {high}"),
        }
    }
}

/// 02 (f): what the modem has: its share of bytes, its run-time reserve, and the GUID of its names.
#[derive(Clone, Copy, PartialEq, Eq, Debug)]
#[repr(C)]
pub struct Tenant {
    pub share: u32,
    pub reserve: u32,
    pub vendor: Guid,
}

/// What a start-up is given, and its session keeps: custom mode, the run-time reserve R, 02 (a)'s H, the bytes that hardware error records have of their own, 02 (f)'s
/// share of ours and what the modem has, and 02 (e)'s rules, `rules` of them, above 32 counting as 32.
#[derive(Clone, Copy, PartialEq, Eq)]
#[repr(C)]
pub struct Setup {
    pub custom: u32,
    pub reserve: u32,
    pub records: u32,
    pub share: u32,
    pub modem: Tenant,
    pub rules: u32,
    pub settings: [Setting; SETTINGS],
}

impl Setup {
    /// All numbers 0, the modem's GUID too: there is room for nothing.
    pub const NOTHING: Setup = Setup {
        custom: 0,
        reserve: 0,
        records: 0,
        share: 0,
        modem: Tenant { share: 0, reserve: 0, vendor: [0; 16] },
        rules: 0,
        settings: [Setting::NONE; SETTINGS],
    };

    /// What a station without a modem is given, whose image has so many bytes. 02 (f): "In 01's cases our share is L less 28, the rest 0."
    pub const fn alone(image_len: usize) -> Setup {
        Setup { share: ((image_len / 4096).saturating_sub(1) / 2 * 4096).saturating_sub(28) as u32, ..Setup::NOTHING }
    }

    /// The same for b = 1.
    pub const PLAIN: Setup = Setup::alone(3 * 4096);

    /// Custom mode, else the same.
    pub const CUSTOM: Setup = Setup { custom: 1, ..Setup::PLAIN };

    /// The same with so many bytes for records, which our share has less: as far as it goes, both fit beside each other.
    pub const fn with_records(self, records: u32) -> Setup {
        Setup { records, share: self.share.saturating_sub(records), ..self }
    }

    /// The same with rules: those that have a place, and how many were given.
    pub fn ruled(&self, settings: &[Setting]) -> Setup {
        let mut setup = Setup { rules: settings.len() as u32, settings: Setup::NOTHING.settings, ..*self };
        setup.settings.iter_mut().zip(settings).for_each(|(place, setting)| *place = *setting);
        setup
    }
}

/// Of the places for rules only those in use: there are many bytes.
impl fmt::Debug for Setup {
    fn fmt(&self, f: &mut fmt::Formatter<'_>) -> fmt::Result {
        let Setup { custom, reserve, records, share, modem, rules, settings } = self;
        write!(f, "custom {custom}, reserve {reserve}, records {records}, share {share}, the modem's share {}, ", modem.share)?;
        write!(f, "reserve {} and vendor {:X?}, {rules} rules ", modem.reserve, modem.vendor)?;
        f.debug_list().entries(settings.iter().take(*rules as usize)).finish()
    }
}

/// Phase, what the start-up was given, and the lock list. A place of the list holds the name, zeros up to 128 bytes, then the GUID. It is aligned as the stack is on which it
/// is handed over, so that the copy is made by words of 8 bytes; C's has 9,332 bytes, and this one is padded to 9,336.
#[derive(Clone, Copy, PartialEq, Eq, Debug)]
#[repr(C, align(8))]
pub struct Session {
    pub phase: u32,
    pub setup: Setup,
    pub count: u32,
    pub sizes: [u32; PLACES],
    pub locks: [u8; PLACES * PLACE],
}

/// A name with its GUID.
#[derive(Clone, Copy, PartialEq, Eq, Debug)]
pub struct Key<'a> {
    pub name: &'a [u8],
    pub vendor: &'a Guid,
}

/// What a set is asked. A verdict is 0 none, 1 PK, 2 KEK, 3 the payload's own key, 4 the variable's creator.
#[derive(Clone, Copy, PartialEq, Eq, Debug)]
pub struct Request<'a> {
    pub key: Key<'a>,
    pub attributes: u32,
    pub data: &'a [u8],
    pub presence: u32,
    pub verdict: u32,
}

/// What a get or next-name gives beside the buffer's front. Where it is refused, size and attributes are 0; `needed` is the buffer length
/// that would do if it is refused for the buffer, else 0.
#[derive(Clone, Copy, PartialEq, Eq, Debug)]
pub struct Reply {
    pub answer: Answer,
    pub size: u32,
    pub attributes: u32,
    pub needed: u32,
}

/// What 02 (g)'s call for several names gives beside the buffer's front: of each name what a get gives. Where the whole call is refused there are no items.
#[derive(Clone, PartialEq, Eq, Debug)]
pub struct Replies {
    pub answer: Answer,
    pub items: Vec<Reply>,
}

/// What a lock gives: the session as it came where the answer is a refusal.
#[derive(Clone, Copy, PartialEq, Eq, Debug)]
pub struct Listed {
    pub answer: Answer,
    pub session: Session,
}

/// What a start-up gives: a fresh session, also when it is refused or stopped.
#[derive(Clone, Copy, PartialEq, Eq, Debug)]
pub struct Started {
    pub answer: Answer,
    pub session: Session,
}

/// Rules 1 and 2 on an image: b and the offset of the tail, both 0 if refused.
#[derive(Clone, Copy, PartialEq, Eq, Debug)]
pub struct Checked {
    pub answer: Answer,
    pub blocks: u32,
    pub tail: u32,
}

/// 02 (j): rules 1 and 2 on an image, and the mode that it says; 0 if refused.
#[derive(Clone, Copy, PartialEq, Eq, Debug)]
pub struct Platform {
    pub answer: Answer,
    pub mode: u32,
}
