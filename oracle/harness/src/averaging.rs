//! Means along an axis, which strided-rs does not have, by docs/RULES.md.

use crate::copying::least_buffer;
use crate::input::Layout;
use crate::record::positions;
use crate::reference::{accepted, Positions};

/// A refusal's number and its values, 0 where it has none.
pub type Refused = (u8, [u64; 2]);

/// Of so many readings a mean is made at most.
const MOST_ALONG: u64 = 65_536;

/// What the call answers, and whether a mean was rounded from a half, below 0 and above.
#[derive(Clone, Copy, PartialEq, Debug)]
pub struct Averaged {
    pub answer: Result<usize, Refused>,
    pub half_below: bool,
    pub half_above: bool,
}

impl Averaged {
    /// The answer without its numbers, and what it came of.
    pub fn kind(&self, layout: &Layout, axis: u64) -> String {
        match self.answer {
            Err((number, _)) => format!("refused {number}"),
            Ok(0) => "done, no means".to_string(),
            Ok(_) => {
                let longest = if layout.extents[axis as usize] == MOST_ALONG { ", of 65536 readings each" } else { "" };
                let halves = match (self.half_below, self.half_above) {
                    (false, false) => "",
                    (true, false) => ", with halves below 0",
                    (false, true) => ", with halves above 0",
                    (true, true) => ", with halves below and above 0",
                };
                format!("done{longest}{halves}")
            }
        }
    }
}

/// The layout of all axes but one, in their order.
pub fn remaining(layout: &Layout, axis: u64) -> Layout {
    let (mut extents, mut strides) = (layout.extents().to_vec(), layout.strides().to_vec());
    extents.remove(axis as usize);
    strides.remove(axis as usize);
    Layout::of(layout.len, layout.offset, &extents, &strides)
}

/// How many means there are, or the first refusal.
fn counted(layout: &Layout, axis: u64, readings: usize, room: usize) -> Result<usize, Refused> {
    if layout.rank > 16 {
        return Err((1, [0; 2]));
    }
    if !accepted(layout) {
        return Err((3, [0; 2]));
    }
    if axis >= layout.rank {
        return Err((5, [axis, layout.rank]));
    }
    let Some(count) = positions(remaining(layout, axis).extents()) else {
        return Err((8, [0; 2]));
    };
    let along = layout.extents[axis as usize];
    if (readings as u64) < least_buffer(layout) {
        Err((13, [0; 2]))
    } else if (room as u64) < count {
        Err((10, [count, 0]))
    } else if along == 0 {
        Err((15, [0; 2]))
    } else if along > MOST_ALONG {
        Err((16, [0; 2]))
    } else {
        Ok(count as usize)
    }
}

/// The quotient to the nearest whole number, halves away from 0; and whether it was a half.
fn nearest(sum: i128, count: i128) -> (i128, bool) {
    let (whole, twice_left) = (sum / count, 2 * (sum % count).abs());
    (if twice_left < count { whole } else { whole + sum.signum() }, twice_left == count)
}

/// The means, put at the front of `out` if they are not refused.
pub fn means(layout: &Layout, axis: u64, readings: &[i32], out: &mut [i32]) -> Averaged {
    let answer = counted(layout, axis, readings.len(), out.len());
    let mut averaged = Averaged { answer, half_below: false, half_above: false };
    if answer.is_err() {
        return averaged;
    }
    let (along, stride) = (layout.extents[axis as usize] as i128, layout.strides[axis as usize] as i128);
    for (mean, (_, start)) in out.iter_mut().zip(Positions::of(&remaining(layout, axis))) {
        let sum = (0..along).map(|index| readings[(start + index * stride) as usize] as i128).sum();
        let (rounded, is_half) = nearest(sum, along);
        averaged.half_below |= is_half && sum < 0;
        averaged.half_above |= is_half && sum > 0;
        *mean = i32::try_from(rounded).expect("a mean lies between the readings");
    }
    averaged
}
