//! The copy through two layouts, which strided-rs does not have, by docs/RULES.md.

use crate::input::Layout;
use crate::record::{countable, verdict, Refused};
use crate::reference::{accepted, reach, Positions};

/// What a copy answers; and the verdict on the destination with the words that it needed, if it was reached and these were lent.
#[derive(Clone, Copy, PartialEq, Debug)]
pub struct Copied {
    pub answer: Result<(), Refused>,
    pub verdict: Option<(u8, u64)>,
}

impl Copied {
    fn refused(number: u8, value: u64) -> Copied {
        Copied { answer: Err((number, value)), verdict: None }
    }

    /// The answer without its value, and what it came of.
    pub fn kind(&self, source: &Layout) -> String {
        let enumerated = if self.free() > 0 { ", enumerated" } else { "" };
        match (self.answer, self.verdict) {
            (Ok(()), _) if source.extents().contains(&0) => "done, no positions".to_string(),
            (Ok(()), _) => format!("done{enumerated}"),
            (Err((14, _)), Some((3, _))) => "refused 14, undecided".to_string(),
            (Err((number, _)), _) => format!("refused {number}{enumerated}"),
        }
    }

    /// How many words of scratch, from the first on, may hold anything afterwards.
    pub fn free(&self) -> usize {
        self.verdict.map_or(0, |(_, needed)| needed as usize)
    }
}

/// How many readings a buffer has to have for an accepted layout.
pub fn least_buffer(layout: &Layout) -> u64 {
    if layout.extents().contains(&0) {
        return 0;
    }
    let (_, high) = reach(layout.extents(), layout.strides());
    (layout.offset as i128 + high + 1) as u64
}

/// The refusal that comes before the verdict's own.
fn unsuited(source: &Layout, readings: usize, destination: &Layout, room: usize) -> Option<u8> {
    if source.rank > 16 || destination.rank > 16 {
        Some(1)
    } else if !accepted(source) || !accepted(destination) {
        Some(3)
    } else if source.extents() != destination.extents() {
        Some(12)
    } else if (readings as u64) < least_buffer(source) || (room as u64) < least_buffer(destination) {
        Some(13)
    } else if !countable(destination.extents()) {
        Some(8)
    } else {
        None
    }
}

/// The copy, made in `to` if it is not refused.
pub fn copy(source: &Layout, from: &[i32], destination: &Layout, to: &mut [i32], words: usize) -> Copied {
    if let Some(number) = unsuited(source, from.len(), destination, to.len()) {
        return Copied::refused(number, 0);
    }
    let (verdict, needed) = verdict(destination.extents(), destination.strides());
    if (words as u64) < needed {
        return Copied::refused(9, needed);
    }
    if verdict != 1 {
        return Copied { answer: Err((14, 0)), verdict: Some((verdict, needed)) };
    }
    for ((_, taken), (_, put)) in Positions::of(source).zip(Positions::of(destination)) {
        to[put as usize] = from[taken as usize];
    }
    Copied { answer: Ok(()), verdict: Some((verdict, needed)) }
}
