//! 02 (l): "A profile holds up to eight settings in a file: their number, then for each attributes, name size, data size, GUID, name and data."

use crate::interface::{Key, Request, ITEMS};

/// The most groups of a number.
const GROUPS: usize = 3;
/// "Attributes are 0x03 or 0x07".
const ATTRIBUTES: [usize; 2] = [0x03, 0x07];

/// The settings of a file in their order, each as the set that it asks for: "empty data deletes". None if the file is not of this form or leaves bytes over.
pub fn read(file: &[u8]) -> Option<Vec<Request<'_>>> {
    let mut rest = Rest(file);
    let count = rest.number().filter(|count| *count <= ITEMS)?;
    let items = (0..count).map(|_| rest.item()).collect::<Option<_>>()?;
    rest.0.is_empty().then_some(items)
}

/// "26 when two items share name and GUID": by their bytes, so that names which are not well formed count too.
pub fn share_a_name(items: &[Request]) -> bool {
    (1..items.len()).any(|later| items[..later].iter().any(|item| item.key == items[later].key))
}

/// What is left of a file.
pub(super) struct Rest<'a>(pub(super) &'a [u8]);

impl<'a> Rest<'a> {
    fn bytes(&mut self, count: usize) -> Option<&'a [u8]> {
        let (front, rest) = self.0.split_at_checked(count)?;
        self.0 = rest;
        Some(front)
    }

    /// "Numbers are groups of seven bits, low group first, top bit set where another follows, shortest form, three at most": where there are several, the last is not 0.
    pub(super) fn number(&mut self) -> Option<usize> {
        let mut number = 0;
        for group in 0..GROUPS {
            let byte = self.bytes(1)?[0];
            number |= usize::from(byte & 0x7F) << (7 * group);
            if byte & 0x80 == 0 {
                return (group == 0 || byte != 0).then_some(number);
            }
        }
        None
    }

    /// Attributes, name size, data size, GUID, name and data. What no name or no data can have is of the form: the set that it asks for is refused.
    pub(super) fn item(&mut self) -> Option<Request<'a>> {
        let attributes = self.number().filter(|number| ATTRIBUTES.contains(number))? as u32;
        let (name_size, data_size) = (self.number()?, self.number()?);
        let vendor = self.bytes(16)?.first_chunk().expect("16 bytes");
        let (name, data) = (self.bytes(name_size)?, self.bytes(data_size)?);
        Some(Request { key: Key { name, vendor }, attributes, data, presence: 0, verdict: 0 })
    }
}
