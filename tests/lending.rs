//! The library called on slices of which each lies between two guard zones. Nothing outside of a lent slice may change, and no input.

use crate::calls::*;
use crate::library::*;

/// Entries of a guard zone, an odd number: slices of bytes then begin at odd addresses.
const GUARD: usize = 61;

/// What the call answers and leaves, or which guard zone or input it wrote. With `null`, an empty slice is a null pointer.
pub fn serve(call: &Call, lent: &Slices, null: bool) -> Result<(Outcome, Slices), String> {
    let (text, table) = inputs(call);
    let (mut text_lent, mut table_lent) = (Guarded::around(text, null), Guarded::around(table, null));
    let mut work = Guarded::around(&lent.work, null);
    let mut words = Guarded::around(&lent.words, null);
    let mut bytes = Guarded::around(&lent.bytes, null);
    let (s, sn) = text_lent.lend();
    let (t, tn) = table_lent.lend();
    let (w, wn) = work.lend();
    let (r, rn) = words.lend();
    let (b, bn) = bytes.lend();
    let outcome = unsafe {
        match call {
            Call::Build { chair, .. } => replied(sirbolta_build(s, sn, *chair, w, wn, r, rn)),
            Call::Check { .. } => replied(sirbolta_check(t, tn, w, wn)),
            Call::Read { .. } => replied(sirbolta_read(t, tn, w, wn, b, bn)),
            Call::Extract { start, length, .. } => replied(sirbolta_extract(t, tn, *start, *length, w, wn, b, bn)),
            Call::Count { form, .. } => found(sirbolta_count(t, tn, *form, s, sn, w, wn)),
            Call::Locate { form, .. } => found(sirbolta_locate(t, tn, *form, s, sn, w, wn, r, rn)),
            Call::Cuts { .. } => replied(sirbolta_live_cuts(s, sn, r, rn)),
            Call::LyndonLength { position, .. } => replied(sirbolta_lyndon_length(t, tn, *position, w, wn)),
            Call::LyndonArray { .. } => replied(sirbolta_lyndon_array(t, tn, w, wn, r, rn)),
            Call::ToSigned { .. } => replied(sirbolta_to_signed(t, tn, w, wn, r, rn)),
            Call::ToSteps { .. } => replied(sirbolta_to_steps(s, sn, b, bn)),
            Call::FromSteps { .. } => replied(sirbolta_from_steps(s, sn, b, bn)),
            Call::BuildProfile { chair, .. } => replied(sirbolta_build_profile(s, sn, *chair, w, wn, r, rn)),
            Call::CheckProfile { .. } => replied(sirbolta_check_profile(t, tn, w, wn)),
            Call::Census { q, .. } => replied(sirbolta_census(t, tn, *q, w, wn, b, bn, r, rn)),
        }
    };
    if text_lent.taken_back("samples")? != text || table_lent.taken_back("table")? != table {
        return Err("an input was written".into());
    }
    let left = Slices { work: work.taken_back("work")?, words: words.taken_back("words")?, bytes: bytes.taken_back("bytes")? };
    Ok((outcome, left))
}

/// The samples, of a text or a pattern, and the table that the call hands over.
fn inputs(call: &Call) -> (&[u8], &[u32]) {
    match call {
        Call::Build { text, .. } | Call::BuildProfile { text, .. } | Call::ToSteps { text } | Call::FromSteps { text } => (text, &[]),
        Call::Check { table } | Call::CheckProfile { table } | Call::Read { table } | Call::Extract { table, .. } => (&[], table),
        Call::Count { table, pattern, .. } | Call::Locate { table, pattern, .. } => (pattern, table),
        Call::Cuts { pattern } => (pattern, &[]),
        Call::LyndonLength { table, .. } | Call::LyndonArray { table } | Call::ToSigned { table } | Call::Census { table, .. } => (&[], table),
    }
}

fn replied(r: Reply) -> Outcome {
    Outcome { number: r.number, place: r.place, count: r.count, chair: r.chair, tests: 0 }
}

fn found(r: SearchReply) -> Outcome {
    Outcome { number: r.number, place: r.place, count: r.count, chair: r.chair, tests: r.tests }
}

struct Guarded<T> {
    entries: Vec<T>,
    null: bool,
}

impl<T: Copy + PartialEq + From<u8>> Guarded<T> {
    fn around(slice: &[T], null: bool) -> Self {
        let mut entries = Vec::with_capacity(slice.len() + 2 * GUARD);
        entries.extend((0..GUARD).map(guard::<T>));
        entries.extend_from_slice(slice);
        entries.extend((0..GUARD).map(guard::<T>));
        Guarded { entries, null }
    }

    fn lend(&mut self) -> (*mut T, usize) {
        let length = self.entries.len() - 2 * GUARD;
        match self.null && length == 0 {
            true => (std::ptr::null_mut(), 0),
            false => (self.entries[GUARD..].as_mut_ptr(), length),
        }
    }

    fn taken_back(self, name: &str) -> Result<Vec<T>, String> {
        let end = self.entries.len() - GUARD;
        let whole = |zone: &[T]| zone.iter().enumerate().all(|(i, &e)| e == guard(i));
        match whole(&self.entries[..GUARD]) && whole(&self.entries[end..]) {
            true => Ok(self.entries[GUARD..end].to_vec()),
            false => Err(format!("the call wrote beside the {name} slice")),
        }
    }
}

/// Entry i of a guard zone.
fn guard<T: From<u8>>(i: usize) -> T {
    T::from(0x80 | (i * 37) as u8)
}
