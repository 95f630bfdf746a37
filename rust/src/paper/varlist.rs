//! The text of the program `varlist`.

use std::fmt::Write;

use super::layout::Authenticated;
use super::region::values;
use super::rules::ready;

/// Region length, tail offset, number of values; then for each GUID, name bytes, attributes and data size. If refused, the rule's number.
pub fn varlist(image: &[u8]) -> String {
    let ready = match ready::<Authenticated>(image) {
        Ok(ready) => ready,
        Err(rule) => return format!("refused {}\n", rule.number()),
    };
    let region = ready.parts.region;
    let mut text = format!("region {} used {} live {}\n", region.len(), ready.tail, values::<Authenticated>(region).count());
    for value in values::<Authenticated>(region) {
        hexadecimal(&mut text, value.vendor());
        text.push(' ');
        hexadecimal(&mut text, value.name());
        writeln!(text, " {:02X} {}", value.attributes(), value.data_size()).expect("a string takes all");
    }
    text
}

fn hexadecimal(text: &mut String, bytes: &[u8]) {
    for byte in bytes {
        write!(text, "{byte:02X}").expect("a string takes all");
    }
}
