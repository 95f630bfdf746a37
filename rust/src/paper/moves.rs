//! 02 (d): a lent image moved to the new form or back into another lent image. It meets 1 on both images, 19 in the place of 2, 20, and 13 without reserves.

use super::entry::TIME_BASED;
use super::image::Parts;
use super::layout::{Authenticated, Layout, Plain};
use super::region::{values, write_values};
use super::rules::{broken, ready};
use crate::interface::{Answer, Rule};

/// From the plain form to the new one; stamps become zero.
pub fn from_plain(source: &[u8], target: &mut [u8]) -> Answer {
    moved::<Plain, Authenticated>(source, target)
}

/// From the new form to the plain one.
pub fn to_plain(source: &[u8], target: &mut [u8]) -> Answer {
    moved::<Authenticated, Plain>(source, target)
}

/// The target then holds header, values as 3F entries, and FF, to the image's end; if refused, what it held. A move counts 0 stores.
fn moved<F: Layout, T: Layout>(source: &[u8], target: &mut [u8]) -> Answer {
    match region_moved::<F, T>(source, target) {
        Ok(region) => {
            let (front, rest) = target.split_at_mut(region.len());
            front.copy_from_slice(&region);
            rest.fill(0xFF);
            Answer::Done(0)
        }
        Err(rule) => Answer::Refused(rule),
    }
}

/// The target's region as far as it is used, or the rule broken. Of the target only the length is looked at.
fn region_moved<F: Layout, T: Layout>(source: &[u8], target: &[u8]) -> Result<Vec<u8>, Rule> {
    broken(Rule::Length, Parts::of(source).is_none())?;
    let length = Parts::of(target).ok_or(Rule::Length)?.length();
    let region = ready::<F>(source).map_err(|_| Rule::Source)?.parts.region;
    // the plain form is the one that keeps no stamps
    broken(Rule::TimeBased, T::STAMP.is_none() && values::<F>(region).any(|value| value.attributes() & TIME_BASED != 0))?;
    let mut bytes = Vec::new();
    write_values::<F, T>(&mut bytes, length, values(region));
    broken(Rule::Room, bytes.len() > length)?;
    Ok(bytes)
}
