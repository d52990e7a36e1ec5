//! The library's nine-heading profile in Rust: building and checking for drives of a switch joystick.

use crate::baseline::*;
use crate::tables::{copy, text_length, with_loaded};

/// The highest heading; 0 is rest.
const LAST_HEADING: u8 = 8;

/// Whether no sample is above the headings: the loop goes to the end.
fn all_on_heading(text: &[u8]) -> bool {
    let mut on = true;
    let mut i = 0;
    while i < text.len() {
        on = on & (at(text, i) <= LAST_HEADING);
        i += 1;
    }
    on
}

/// How many samples the blocks of sixteen have that stand before the first with a sample above the headings.
fn blocks_on_heading(text: &[u8]) -> usize {
    let blocks = text.len() / 16;
    let mut i = 0;
    while i < blocks {
        let a = 16 * i;
        if !all_on_heading(unsafe { text.get_unchecked(a..a + 16) }) {
            return a;
        }
        i += 1;
    }
    16 * blocks
}

/// The lowest index of a sample above the headings, the text's length if there is none.
fn first_off(text: &[u8]) -> usize {
    let mut i = blocks_on_heading(text);
    while i < text.len() {
        if LAST_HEADING < at(text, i) {
            return i;
        }
        i += 1;
    }
    i
}

/// Whether a text has samples, and the first and the last of them are rest.
fn at_rest(text: &[u8]) -> bool {
    0 < text.len() && at(text, 0) == 0 && at(text, text.len() - 1) == 0
}

/// The refusal of a text that is no drive of the profile, if it is none.
fn profile_refused(text: &[u8]) -> Option<Answer> {
    let off = first_off(text);
    if off < text.len() {
        return Some(refused(11, off));
    }
    if !at_rest(text) {
        return Some(refused(12, 0));
    }
    None
}

/// The table of a drive of the profile.
#[inline(never)]
pub fn build_profile(text: &[u8], chair: u16, work: &mut [u32], result: &mut [u32]) -> Answer {
    if 2047 < text.len() {
        return refused(1, 0);
    }
    if let Some(a) = profile_refused(text) {
        return a;
    }
    build(text, chair, work, result)
}

/// Whether a table is one of a drive of the profile; its number of rules.
#[inline(never)]
pub fn check_profile(table: &[u32], work: &mut [u32]) -> Answer {
    with_loaded(Order::Signed, table, work, |work| {
        let n = text_length(table, work);
        let mut text = [0; 2047];
        copy(part(work, 1, 1 + n), &mut text);
        if let Some(a) = profile_refused(unsafe { text.get_unchecked(..n) }) {
            return a;
        }
        done(table.len() / 2, 0)
    })
}
