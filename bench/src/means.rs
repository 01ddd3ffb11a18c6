//! Means along an axis, beside the loops that a caller would write: strided-rs has no such call. The loops are handed extents and strides
//! as they run, as ours is, and round in the same way. They test nothing but the place of each reading.

use crate::copying::{self, layout};
use crate::timing::line;
use harness::ours::{strided_means, Layout, Values};
use std::hint::black_box;

/// The extent and the stride of an axis.
type Axis = (usize, usize);

const LONGEST: usize = 65_536;
const MANY: usize = 1 << 19;

fn ours(layout: &Layout, axis: usize, readings: &[i32], out: &mut [i32]) -> u8 {
    let mut values = Values::default();
    // SAFETY: each pointer is that of a struct or has so many readings behind it.
    unsafe { strided_means(layout, axis, readings.as_ptr(), readings.len(), out.as_mut_ptr(), out.len(), &mut values) }
}

/// Readings of up to 20 bits: tenths of a millimetre to 52 m on both sides of 0. A division takes longer past 32 bits.
fn readings(count: usize) -> Vec<i32> {
    copying::readings(count).into_iter().map(|reading| reading >> 12).collect()
}

/// The quotient to the nearest whole number, halves away from 0.
fn nearest(sum: i64, count: usize) -> i32 {
    let count = count as u64;
    let size = ((2 * sum.unsigned_abs() + count) / (2 * count)) as i64;
    (if sum < 0 { -size } else { size }) as i32
}

/// Two loops over places that are stepped: with places that are multiplied out for each reading, long sums took longer.
fn plain(along: Axis, other: Axis, readings: &[i32], out: &mut [i32]) {
    let mut start = 0;
    for mean in &mut out[..other.0] {
        let (mut sum, mut at) = (0, start);
        for _ in 0..along.0 {
            sum += i64::from(readings[at]);
            at += along.1;
        }
        *mean = nearest(sum, along.0);
        start += other.1;
    }
}

/// The means along the axis of that number, beside two loops: over the other axis and over this one.
fn means(case: &str, axes: &[Axis], axis: usize) {
    let along = axes[axis];
    let other = if axes.len() > 1 { axes[1 - axis] } else { (1, 0) };
    let length = axes.iter().map(|&(extent, stride)| (extent - 1) * stride).sum::<usize>() + 1;
    let (extents, strides): (Vec<u64>, Vec<i64>) = axes.iter().map(|&(extent, stride)| (extent as u64, stride as i64)).unzip();
    let layout = layout(length, &extents, &strides);
    // What is hidden from the compiler are thin pointers, as for the verdicts.
    let (readings, mut out, mut plain_out) = (readings(length), vec![0; other.0], vec![0; other.0]);
    assert_eq!(ours(&layout, axis, &readings, &mut out), 0, "{case}");
    plain(along, other, &readings, &mut plain_out);
    assert!(out == plain_out && out.iter().any(|&mean| mean != 0), "{case}");
    line(
        &format!("means, {case}"),
        || ours(black_box(&layout), black_box(axis), black_box(&readings), black_box(&mut out)),
        || plain(black_box(along), black_box(other), black_box(&readings), black_box(&mut plain_out)),
    );
}

pub fn all() {
    means("one of 65,536 readings at stride 2, beside a loop", &[(LONGEST, 2)], 0);
    means("2^19 of two faces, the first axis, beside two loops", &[(2, 1), (MANY, 2)], 0);
    means("2^19 of two faces, the last axis, beside two loops", &[(MANY, 1), (2, MANY)], 1);
    means("three of two readings, beside two loops", &[(2, 1), (3, 2)], 0);
}
