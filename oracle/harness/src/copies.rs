//! Random inputs of a copy through two layouts: both mostly of the same extents, the buffers mostly just long enough.

use crate::buffers::{self, axes, extents, placed, Axes};
use crate::input::{Layout, List};
use crate::layouts::{self, dense_strides};
use crate::random::Random;
use crate::reference::{reach, words_needed};
use crate::shapes;

/// What is handed over.
pub struct CopyInput {
    pub source: Layout,
    pub from: Vec<i32>,
    pub destination: Layout,
    pub to: Vec<i32>,
    pub words: usize,
}

/// Above so many readings a buffer is drawn too short, but for a destination that is enumerated or Undecided.
const LONGEST: u64 = 1 << 16;

/// Any copy. Enumerations and Undecided destinations need long buffers, so they are rare.
pub fn copy(random: &mut Random) -> CopyInput {
    match random.below(6000) {
        0..=2 => {
            let (source, destination) = undecided(random);
            lent(random, source, destination, buffers::LONGEST)
        }
        3..=14 => {
            let (source, destination) = enumerated(random);
            lent(random, source, destination, buffers::LONGEST)
        }
        15..=600 => {
            let (source, destination) = (layouts::layout(random), layouts::layout(random));
            lent(random, source, destination, LONGEST)
        }
        _ => {
            let (source, destination) = pair(random, 3000);
            lent(random, source, destination, LONGEST)
        }
    }
}

/// A copy with at most 64 readings in each buffer.
pub fn small(random: &mut Random) -> CopyInput {
    let (source, destination) = pair(random, 24);
    lent(random, source, destination, 64)
}

/// Two layouts of few positions.
fn pair(random: &mut Random, positions: u64) -> (Layout, Layout) {
    let ours = extents(random, positions);
    let mut theirs = ours.clone();
    if random.once_in(4) {
        differ(random, &mut theirs);
    }
    let mut source = axes(random, &ours, 2);
    let mut destination = axes(random, &theirs, 8);
    if random.once_in(12) && source.len().max(destination.len()) < 15 {
        for extent in buffers::wide(random) {
            source.push((extent, 0));
            destination.push((extent, 0));
        }
    }
    (placed(random, &source), placed(random, &destination))
}

/// Other extents, or now and then the same: two exchanged, one changed, an axis more or fewer.
fn differ(random: &mut Random, extents: &mut Vec<u64>) {
    let place = random.below(extents.len() as u64 + 1) as usize;
    match random.below(4) {
        0 if extents.len() < 16 => extents.insert(place, random.pick(&[0, 1, 1, 2])),
        1 if place < extents.len() => drop(extents.remove(place)),
        2 if place < extents.len() => extents[place] = random.between(0, 3),
        _ if !extents.is_empty() => {
            let last = extents.len() - 1;
            extents.swap(place.min(last), last);
        }
        _ => {}
    }
}

/// A destination whose verdict is enumerated, in a buffer that can be lent.
fn enumerated(random: &mut Random) -> (Layout, Layout) {
    let (extents, strides) = loop {
        let (extents, strides) = shapes::enumerated_any(random);
        let (low, high) = reach(extents.slice(), strides.slice());
        if high - low < 1 << 22 {
            break (extents, strides);
        }
    };
    beside(random, extents.slice(), strides.slice())
}

/// A destination that is Undecided: dense axes, and over them two that interleave; more than 2^24 positions.
fn undecided(random: &mut Random) -> (Layout, Layout) {
    let (lower, count, top) = random.pick(&[(4, 10, [(3, 2), (6, 3)]), (3, 13, [(4, 3), (3, 4)]), (4, 11, [(3, 2), (2, 3)])]);
    let (mut extents, mut strides) = (vec![], vec![]);
    let mut step = 1;
    for _ in 0..count {
        extents.push(lower);
        strides.push(step);
        step *= lower as i64;
    }
    for (extent, factor) in top {
        extents.push(extent);
        strides.push(factor * step);
    }
    beside(random, &extents, &strides)
}

/// A destination, and a source of the same extents: the same axes, dense ones, or a single reading for all positions.
fn beside(random: &mut Random, extents: &[u64], strides: &[i64]) -> (Layout, Layout) {
    let taken = match random.below(3) {
        0 => List::of(strides),
        1 => dense_strides(random, extents, 1),
        _ => List::of(&vec![0; extents.len()]),
    };
    let axes = |strides: &[i64]| -> Axes { extents.iter().copied().zip(strides.iter().copied()).collect() };
    (placed(random, &axes(taken.slice())), placed(random, &axes(strides)))
}

/// Two buffers and scratch beside the layouts. A buffer is as long as its layout needs or a few readings longer, in one draw of
/// eight one of the two is one short. Scratch has the words that the verdict needs, or a few more, or fewer.
fn lent(random: &mut Random, source: Layout, destination: Layout, longest: u64) -> CopyInput {
    let (mut short_from, mut short_to) = (false, false);
    if random.once_in(8) {
        short_from = random.once_in(2);
        short_to = !short_from;
    }
    let from = buffer(random, &source, longest, short_from);
    let to = buffer(random, &destination, longest, short_to);
    let words = match words_needed(destination.extents(), destination.strides()) {
        Some(needed) if random.once_in(8) => random.below(needed),
        Some(needed) if random.once_in(4) => needed - 1,
        Some(needed) => needed + random.below(3),
        None => random.below(4),
    };
    CopyInput { source, from, destination, to, words: words as usize }
}

fn buffer(random: &mut Random, layout: &Layout, longest: u64, is_short: bool) -> Vec<i32> {
    let length = buffers::length(random, layout, longest, is_short);
    buffers::readings(random, length)
}
