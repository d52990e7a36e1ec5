//! The library's rearranging in Rust: a drive to its steps, and back.

use crate::baseline::*;

/// Rearranges a drive: its steps at the front. The sample before the first is taken to be 0.
pub fn rearrange(text: &[u8], steps: &mut [u8]) {
    let mut i = 0;
    while i < text.len() {
        put(steps, i, at(text, i).wrapping_sub(sample_before(text, i)));
        i += 1;
    }
}

/// The sample before place i.
fn sample_before(text: &[u8], i: usize) -> u8 {
    if i == 0 { 0 } else { at(text, i - 1) }
}

/// Restores a drive that was rearranged, at the front.
fn restore(steps: &[u8], text: &mut [u8]) {
    let (mut last, mut i) = (0u8, 0);
    while i < steps.len() {
        let sample = last.wrapping_add(at(steps, i));
        put(text, i, sample);
        last = sample;
        i += 1;
    }
}

/// The refusal of a text or of a result slice, if it has one.
fn fits_refused(text: &[u8], result: &[u8]) -> Option<Answer> {
    if 2047 < text.len() {
        return Some(refused(1, 0));
    }
    if result.len() < text.len() {
        return Some(refused(9, text.len()));
    }
    None
}

/// A drive rearranged to its steps.
#[inline(never)]
pub fn to_steps(text: &[u8], result: &mut [u8]) -> Answer {
    if let Some(a) = fits_refused(text, result) {
        return a;
    }
    rearrange(text, result);
    done(text.len(), 0)
}

/// The drive that is rearranged to these steps.
#[inline(never)]
pub fn from_steps(text: &[u8], result: &mut [u8]) -> Answer {
    if let Some(a) = fits_refused(text, result) {
        return a;
    }
    restore(text, result);
    done(text.len(), 0)
}
