//! Work block: the first 64 bytes are records, the rest FF.

use super::image::{blank, Parts};
use super::layout::Authenticated;
use super::region;

pub const RECORDS: usize = 64;

pub const UNUSED: u8 = 0xFF;
pub const BEGUN: u8 = 0xFE;
pub const SPARE_COMPLETE: u8 = 0xFC;
pub const DESTINATION_COMPLETE: u8 = 0xF8;

/// The used records of a well-formed work block.
#[derive(Clone, Copy)]
pub struct Records {
    pub used: usize,
    pub ends_in_spare_complete: bool,
}

/// None if the work block is not well formed: only the four records, no used one after an unused one, FC only in the last used, the rest FF.
pub fn read(work: &[u8]) -> Option<Records> {
    let used = work[..RECORDS].iter().position(|&record| record == UNUSED).unwrap_or(RECORDS);
    if !blank(&work[used..]) {
        return None;
    }
    let (last, earlier) = match work[..used].split_last() {
        Some((&last, earlier)) => (last, earlier),
        None => return Some(Records { used: 0, ends_in_spare_complete: false }),
    };
    let past = |record: u8| record == BEGUN || record == DESTINATION_COMPLETE;
    let well_formed = earlier.iter().all(|&record| past(record)) && (past(last) || last == SPARE_COMPLETE);
    well_formed.then_some(Records { used, ends_in_spare_complete: last == SPARE_COMPLETE })
}

/// *Pending*: well formed, last used is FC, and the spare is a clean region. Gives the place of that FC.
pub fn pending(parts: &Parts) -> Option<usize> {
    let records = read(parts.work)?;
    (records.ends_in_spare_complete && region::clean::<Authenticated>(parts.spare).is_some()).then(|| records.used - 1)
}
