//! *The book*: the list of values that the calls' arguments and answers alone have made.

use super::generate::Name;
use super::modes::{mode_of, mode_value, PLAT_MODE};
use super::tenants::is_modems;
use varstore::calls::Calls;
use varstore::interface::{Answer, Context, Key, Request, Session, Setup, AUDIT_MODE, MODEM, NAMES, RUNTIME};
use varstore::paper::image::Parts;
use varstore::paper::layout::{Authenticated, Layout};
use varstore::paper::region;
use varstore::paper::request::PK;

#[derive(Clone, PartialEq, Eq, Debug)]
pub struct Value {
    pub name: Name,
    pub attributes: u32,
    pub stamp: [u8; 16],
    pub data: Vec<u8>,
}

impl Value {
    /// At runtime, values without RT are absent to get and next-name.
    fn is_seen(&self, session: &Session) -> bool {
        session.phase < RUNTIME || self.attributes & 0x04 != 0
    }
}

#[derive(Clone, PartialEq, Eq, Debug)]
pub struct Book {
    pub values: Vec<Value>,
}

impl Book {
    /// The list of values of an image that a done start-up has left.
    pub fn of(image: &[u8]) -> Book {
        Book::of_form::<Authenticated>(image)
    }

    /// The same of a clean image in a form of its own.
    pub fn of_form<F: Layout>(image: &[u8]) -> Book {
        Book::in_region::<F>(Parts::of(image).expect("the length of an image").region)
    }

    /// The same of a sound region.
    pub fn in_region<F: Layout>(region: &[u8]) -> Book {
        let values = region::values::<F>(region).map(|value| Value {
            name: Name { name: value.name().to_vec(), vendor: *value.vendor() },
            attributes: value.attributes(),
            stamp: *value.stamp(),
            data: value.data().to_vec(),
        });
        Book { values: values.collect() }
    }

    fn place(&self, key: Key) -> Option<usize> {
        self.values.iter().position(|value| value.name.key() == key)
    }

    /// What is under a name.
    pub fn value(&self, key: Key) -> Option<&Value> {
        self.place(key).map(|place| &self.values[place])
    }

    fn remove(&mut self, key: Key) {
        self.values.retain(|value| value.name.key() != key);
    }

    /// What a set that is done, or had its deciding store complete, changes. 02 (j): "audit to deployed when PK is enrolled", "a PK that comes or goes also removes a byte that
    /// counts as absent, and one deleted in deployed the 3"; "the book in 01 takes PK's change, if any, then PlatMode's".
    pub fn set(&mut self, request: &Request) {
        let (mode, stood) = (mode_of(&self.values), self.place(PK).is_some());
        self.set_alone(request);
        if self.place(PK).is_some() != stood {
            self.remove(PLAT_MODE);
            if mode == AUDIT_MODE {
                self.values.push(mode_value(3));
            }
        }
    }

    /// The same of a mode request: "user to audit, losing PK"; "a stored mode goes to the end even where its byte stays".
    pub fn mode(&mut self, to: u32) {
        if to == AUDIT_MODE {
            self.remove(PK);
        }
        self.remove(PLAT_MODE);
        self.values.push(mode_value(to as u8));
    }

    /// A delete takes its value out; any other set drops the old value, if any, and adds at the end. An empty append, or equal data and attributes with neither 0x20 nor 0x40
    /// among them, changes nothing. 02 (b): an append with 0x20 stores the later stamp of the two, the old one if neither is later.
    fn set_alone(&mut self, request: &Request) {
        let (stamp, proper) = stored(request);
        let append = request.attributes & 0x40 != 0;
        let place = self.place(request.key);
        if append && proper.is_empty() {
            return;
        }
        let equal = |place: usize| self.values[place].attributes == request.attributes && self.values[place].data == proper;
        if request.attributes & 0x60 == 0 && place.is_some_and(equal) {
            return;
        }
        let old = place.map(|place| self.values.remove(place));
        if request.attributes == 0 || proper.is_empty() {
            return;
        }
        let old = old.filter(|_| append);
        let stamp = match &old {
            Some(old) if request.attributes & 0x20 != 0 && moment(&old.stamp) >= moment(&stamp) => old.stamp,
            _ => stamp,
        };
        let mut data = old.map_or(vec![], |old| old.data);
        data.extend_from_slice(proper);
        let name = Name { name: request.key.name.to_vec(), vendor: *request.key.vendor };
        self.values.push(Value { name, attributes: request.attributes & !0x40, stamp, data });
    }

    /// What an accepted get gives: attributes and data.
    pub fn get(&self, session: &Session, key: Key) -> Option<(u32, &[u8])> {
        let value = &self.values[self.place(key)?];
        value.is_seen(session).then_some((value.attributes, &value.data))
    }

    /// What an accepted next-name gives: of a side's own values the one behind the named one, or the first.
    pub fn next(&self, session: &Session, side: u32, key: Key) -> Option<&Name> {
        let is_own = |value: &&Value| is_modems(&session.setup, value.name.key()) == (side == MODEM);
        let mut seen = self.values.iter().filter(|value| value.is_seen(session)).filter(is_own);
        if key.name != [0, 0] {
            seen.find(|value| value.name.key() == key)?;
        }
        seen.next().map(|value| &value.name)
    }

    /// Panics unless an implementation's next-name and get list these values, in this order and no others, and calls for up to 64 names give the same data.
    pub fn check_listed(&self, calls: &Calls, image: &[u8]) {
        let session = (calls.session_new)(&Setup::PLAIN);
        let mut last = Name { name: vec![0, 0], vendor: [0; 16] };
        for value in &self.values {
            let mut buffer = [0xA5; 144];
            let reply = (calls.next_name)(Context::NO_LIMIT, &session, image, last.key(), &mut buffer);
            assert_eq!(reply.answer, Answer::Done(0), "next-name after {last:X?}");
            let size = reply.size as usize;
            let name = Name { name: buffer[16..size].to_vec(), vendor: *buffer.first_chunk().expect("16 of 144 bytes") };
            assert_eq!(name, value.name, "next-name after {last:X?}");
            let mut data = [0x5A; 2048];
            let reply = (calls.get)(Context::NO_LIMIT, &session, image, name.key(), &mut data);
            assert_eq!((reply.answer, reply.attributes), (Answer::Done(0), value.attributes), "get of {name:X?}");
            assert!(data[..reply.size as usize] == value.data[..], "data of {name:X?}");
            last = name;
        }
        let reply = (calls.next_name)(Context::NO_LIMIT, &session, image, last.key(), &mut [0; 144]);
        assert_eq!(reply.answer, Answer::Refused(varstore::interface::Rule::Absent), "next-name after the book's last, {last:X?}");
        self.values.chunks(NAMES).for_each(|values| check_got(values, calls, &session, image));
    }
}

/// Panics unless one call gives all of these values.
fn check_got(values: &[Value], calls: &Calls, session: &Session, image: &[u8]) {
    let data: Vec<u8> = values.iter().flat_map(|value| &value.data).copied().collect();
    let keys: Vec<Key> = values.iter().map(|value| value.name.key()).collect();
    let mut buffer = vec![0x5A; data.len()];
    let replies = (calls.get_many)(Context::NO_LIMIT, session, image, &keys, &mut buffer);
    let told: Vec<_> = replies.items.iter().map(|item| (item.answer, item.size as usize, item.attributes)).collect();
    let wanted: Vec<_> = values.iter().map(|value| (Answer::Done(0), value.data.len(), value.attributes)).collect();
    assert!(replies.answer == Answer::Done(0) && told == wanted && buffer == data, "several names at once: {told:?}");
}

/// What is compared of a stamp: year down to second.
fn moment(stamp: &[u8; 16]) -> (u16, &[u8]) {
    (u16::from_le_bytes([stamp[0], stamp[1]]), &stamp[2..7])
}

/// The stamp and the data proper of an accepted set.
pub fn stored<'a>(request: &Request<'a>) -> ([u8; 16], &'a [u8]) {
    if request.attributes & 0x20 == 0 {
        return ([0; 16], request.data);
    }
    let stamp = *request.data.first_chunk().expect("a descriptor");
    let length = u32::from_le_bytes(*request.data[16..].first_chunk().expect("a descriptor"));
    (stamp, &request.data[16 + length as usize..])
}
