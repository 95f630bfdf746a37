//! 02 (l), written once more for the tests: the bytes of a profile's file, and the items of a file, as the sets that the book takes.

use super::generate::{Asked, Name};
use varstore::interface::{Key, OURS};

/// What a profile is asked: its file, and who asks.
#[derive(Clone)]
pub struct Profile {
    pub file: Vec<u8>,
    pub side: u32,
}

/// The items, or of a file that has none the first bytes.
impl std::fmt::Debug for Profile {
    fn fmt(&self, f: &mut std::fmt::Formatter<'_>) -> std::fmt::Result {
        match items(&self.file) {
            Some(items) => write!(f, "side {}, a profile of {items:?}", self.side),
            None => write!(f, "side {}, a file of {} bytes {:02X?}", self.side, self.file.len(), &self.file[..self.file.len().min(48)]),
        }
    }
}

/// A number in its shortest form: "groups of seven bits, low group first, top bit set where another follows". One above 2,097,151 has more groups than the form allows.
pub fn number(number: usize) -> Vec<u8> {
    match number {
        0..0x80 => vec![number as u8],
        _ => [vec![0x80 | (number & 0x7F) as u8], self::number(number >> 7)].concat(),
    }
}

/// An item whose sizes are those of its name and data.
pub fn item(key: Key, attributes: u32, data: &[u8]) -> Vec<u8> {
    sized([number(attributes as usize), number(key.name.len()), number(data.len())], key, data)
}

/// An item whose three numbers are these bytes.
pub fn sized(numbers: [Vec<u8>; 3], key: Key, data: &[u8]) -> Vec<u8> {
    [&numbers.concat()[..], key.vendor, key.name, data].concat()
}

/// A file of items.
pub fn file(items: &[Vec<u8>]) -> Vec<u8> {
    [number(items.len()), items.concat()].concat()
}

/// The file of settings with attributes 0x07; empty data delete.
pub fn settings(settings: &[(Key, &[u8])]) -> Vec<u8> {
    file(&settings.iter().map(|(key, data)| item(*key, 0x07, data)).collect::<Vec<_>>())
}

/// The items of a file as sets, if it is of the form.
pub fn items(file: &[u8]) -> Option<Vec<Asked>> {
    let (count, mut rest) = number_in(file)?;
    let mut items = vec![];
    for _ in 0..count {
        let ([attributes, name, data], bytes) = three(rest)?;
        let end = 16 + name + data;
        if ![3, 7].contains(&attributes) || bytes.len() < end {
            return None;
        }
        let vendor = bytes[..16].try_into().expect("16 bytes");
        items.push(Asked {
            name: Name { name: bytes[16..16 + name].to_vec(), vendor },
            attributes: attributes as u32,
            data: bytes[16 + name..end].to_vec(),
            presence: 0,
            verdict: 0,
            side: OURS,
        });
        rest = &bytes[end..];
    }
    (count <= 8 && rest.is_empty()).then_some(items)
}

fn three(bytes: &[u8]) -> Option<([usize; 3], &[u8])> {
    let (first, bytes) = number_in(bytes)?;
    let (second, bytes) = number_in(bytes)?;
    let (third, bytes) = number_in(bytes)?;
    Some(([first, second, third], bytes))
}

/// The number at the front of bytes, and what follows it. Its bytes end with the first one below 0x80; there are three at most, and they are those of the shortest form.
fn number_in(bytes: &[u8]) -> Option<(usize, &[u8])> {
    let length = 1 + bytes.iter().position(|byte| *byte < 0x80)?;
    let value = bytes[..length].iter().rev().fold(0, |value: usize, byte| value.saturating_mul(0x80) | usize::from(byte & 0x7F));
    (length <= 3 && number(value) == bytes[..length]).then_some((value, &bytes[length..]))
}
