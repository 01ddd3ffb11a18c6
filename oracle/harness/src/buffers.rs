//! Random layouts of few positions that stand near the front of a buffer, and buffers for them.

use crate::copying::least_buffer;
use crate::input::Layout;
use crate::layouts::{self, dense_strides};
use crate::random::Random;
use crate::reference::{accepted, reach};

pub type Axes = Vec<(u64, i64)>;

/// No buffer is longer.
pub const LONGEST: u64 = 1 << 25;
/// Readings past so many are made without a draw for each.
const DRAWN: u64 = 1 << 16;

/// Extents with at most so many positions; some are 1, and now and then one is 0.
pub fn extents(random: &mut Random, positions: u64) -> Vec<u64> {
    let mut left = positions;
    let mut extents = vec![];
    for _ in 0..random.rank() {
        let extent = if random.once_in(4) { 1 } else { random.between(1, left.min(7)) };
        left /= extent;
        extents.push(extent);
    }
    if !extents.is_empty() && random.once_in(12) {
        let place = random.below(extents.len() as u64) as usize;
        extents[place] = 0;
    }
    extents
}

/// One or two extents for axes of stride 0, which may be as long as any: so there can be more than 2^64-1 positions.
pub fn wide(random: &mut Random) -> Vec<u64> {
    (0..random.between(1, 2)).map(|_| if random.once_in(2) { 1 << 32 } else { random.extent() }).collect()
}

/// Axes of these extents: once in `sharing` some positions share a reading, else they stand apart but for gaps that are too small.
pub fn axes(random: &mut Random, extents: &[u64], sharing: u64) -> Axes {
    let mut strides = dense_strides(random, extents, 3);
    for place in 0..extents.len() {
        if extents[place] < 2 && random.once_in(2) || random.once_in(500) {
            strides.items[place] = random.step();
        }
    }
    if random.once_in(sharing) {
        let small = random.once_in(2);
        for place in 0..extents.len() {
            if small {
                strides.items[place] = random.below(11) as i64 - 5;
            } else if random.once_in(2) {
                strides.items[place] = 0;
            }
        }
    }
    extents.iter().copied().zip(strides.slice().iter().copied()).collect()
}

/// The layout of these axes; mostly its lowest offset is near 0, and its length as large as it has to be or larger.
pub fn placed(random: &mut Random, axes: &[(u64, i64)]) -> Layout {
    let (extents, strides): (Vec<u64>, Vec<i64>) = axes.iter().copied().unzip();
    let (low, high) = reach(&extents, &strides);
    let (len, offset) = if high - low > LONGEST as i128 || random.once_in(16) {
        layouts::placed(random, &extents, &strides)
    } else {
        let offset = random.below(4) as i128 - low;
        let more = if random.once_in(4) { random.of_width(62) } else { random.below(3) };
        ((offset + high) as u64 + 1 + more, offset as i64)
    };
    layouts::handed(random, len, offset, &extents, &strides)
}

/// How long a buffer is: as long as its layout needs, one short, or a few readings longer; anything up to 40 if that is above `longest`.
pub fn length(random: &mut Random, layout: &Layout, longest: u64, is_short: bool) -> u64 {
    let least = if layout.rank <= 16 && accepted(layout) { least_buffer(layout) } else { random.below(longest.min(40)) };
    fitted(random, least, longest, is_short)
}

/// A length of `least`, one less, or a few more; anything up to 40 if that is above `longest`.
pub fn fitted(random: &mut Random, least: u64, longest: u64, is_short: bool) -> u64 {
    match least {
        _ if least > longest => random.below(longest.min(40)),
        _ if is_short => least.saturating_sub(1),
        _ if random.once_in(2) => least,
        _ => (least + random.below(6)).min(longest),
    }
}

/// So many readings; those at the ends of their range among them.
pub fn readings(random: &mut Random, length: u64) -> Vec<i32> {
    if length > DRAWN {
        let start = random.word();
        return (0..length).map(|place| place.wrapping_mul(0x9e37_79b9).wrapping_add(start) as i32).collect();
    }
    (0..length).map(|_| reading(random)).collect()
}

fn reading(random: &mut Random) -> i32 {
    if random.once_in(32) {
        return random.pick(&[0, 1, -1, i32::MAX, i32::MIN]);
    }
    random.word() as i32
}
