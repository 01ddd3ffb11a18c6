//! Random inputs of means along an axis: mostly an axis below the rank, and buffer and output mostly just long enough.

use crate::averaging::remaining;
use crate::buffers::{self, axes, extents, fitted, placed};
use crate::input::Layout;
use crate::layouts;
use crate::random::Random;
use crate::record::positions;

/// What is handed over.
pub struct MeansInput {
    pub layout: Layout,
    pub axis: u64,
    pub readings: Vec<i32>,
    pub out: Vec<i32>,
}

/// Above so many readings a buffer is drawn too short, and above so many means an output.
const LONGEST: u64 = 1 << 18;

/// Extents at which a chosen axis becomes too long, and some that are by far.
const LONG: [u64; 8] = [65_535, 65_536, 65_536, 65_536, 65_537, 65_538, 1 << 32, u64::MAX];

/// Any means. Those of many readings each take longer, so they are fewer.
pub fn means(random: &mut Random) -> MeansInput {
    let (layout, axis) = match random.below(16) {
        0 => {
            let layout = layouts::layout(random);
            (layout, chosen(random, layout.held()))
        }
        1 | 2 => shaped(random, 6, true),
        _ => shaped(random, 3000, false),
    };
    lent(random, layout, axis, LONGEST)
}

/// Means of at most 64 readings, of which a layout may share some.
pub fn small(random: &mut Random) -> MeansInput {
    let is_long = random.once_in(8);
    let (layout, axis) = shaped(random, 24, is_long);
    lent(random, layout, axis, 64)
}

/// An axis below the rank; now and then any.
fn chosen(random: &mut Random, rank: usize) -> u64 {
    if rank == 0 || random.once_in(16) {
        return layouts::axis(random, rank);
    }
    random.below(rank as u64)
}

/// A layout with a chosen axis that is short, long or without an index, and at most so many positions of the others, but for wide ones.
fn shaped(random: &mut Random, positions: u64, is_long: bool) -> (Layout, u64) {
    let extents = extents(random, positions);
    let mut axes = axes(random, &extents, 2);
    if random.once_in(8) && axes.len() < 15 {
        for extent in buffers::wide(random) {
            let place = random.below(axes.len() as u64 + 1) as usize;
            axes.insert(place, (extent, 0));
        }
    }
    let axis = chosen(random, axes.len());
    if let Some(along) = axes.get_mut(axis as usize) {
        match random.below(8) {
            _ if is_long => *along = long(random),
            0 => along.0 = 0,
            _ => {}
        }
    }
    (placed(random, &axes), axis)
}

/// An axis of many indices, all of one reading or of as many as a buffer can hold.
fn long(random: &mut Random) -> (u64, i64) {
    let extent = if random.once_in(4) { random.between(8, 70_000) } else { random.pick(&LONG) };
    let is_one = extent > 70_000 || random.once_in(3);
    (extent, if is_one { 0 } else { random.pick(&[1, 1, -1, 2, -2, 3]) })
}

/// A buffer and an output beside the layout, each as long as it has to be or a little longer, and one short once in eight.
fn lent(random: &mut Random, layout: Layout, axis: u64, longest: u64) -> MeansInput {
    let is_short = random.once_in(8);
    let length = buffers::length(random, &layout, longest, is_short);
    let count = if axis < layout.held() as u64 { positions(remaining(&layout, axis).extents()) } else { None };
    let is_short = random.once_in(8);
    let room = fitted(random, count.unwrap_or(u64::MAX), longest, is_short);
    MeansInput { layout, axis, readings: readings(random, length), out: buffers::readings(random, room) }
}

/// Readings of any size, at the ends of 32 bits, or about 0; or a number and the next in turn, whose means are halves, at times with one
/// reading that is off by 1.
fn readings(random: &mut Random, length: u64) -> Vec<i32> {
    let ends = [i32::MIN, i32::MAX];
    let mut readings: Vec<i32> = match random.below(6) {
        0 => return buffers::readings(random, length),
        1 => (0..length).map(|_| random.pick(&ends)).collect(),
        2 => vec![random.pick(&ends); length as usize],
        3 => (0..length).map(|_| random.below(9) as i32 - 4).collect(),
        _ => {
            let any = (random.word() as i32).min(i32::MAX - 1);
            let number = random.pick(&[i32::MIN, -1, 0, i32::MAX - 1, any]);
            (0..length).map(|place| number + (place & 1) as i32).collect()
        }
    };
    if length > 0 && random.once_in(2) {
        let place = random.below(length) as usize;
        readings[place] = readings[place].wrapping_add(random.pick(&[1, -1]));
    }
    readings
}
