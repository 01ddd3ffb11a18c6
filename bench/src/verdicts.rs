//! The verdict: cases for each of its parts.

use crate::timing::line;
use harness::ours::{axes, strided_is_injective, Axis, Found, Values};
use harness::random::Random;
use harness::reference::words_needed;
use harness::rust::{signed, unsigned};
use std::hint::black_box;
use strided_view::is_injective_layout;

/// Our answer: 1 Distinct, 2 Repeated, 3 Undecided, or 10 and a refusal's number.
fn ours(axes: &[Axis], scratch: &mut [u64]) -> u8 {
    let (mut found, mut values) = (Found::default(), Values::default());
    // SAFETY: each pointer is that of a struct or of a list of the length beside it.
    let number = unsafe {
        strided_is_injective(axes.as_ptr(), axes.len(), scratch.as_mut_ptr(), scratch.len(), &mut found, &mut values)
    };
    if number == 0 {
        found.verdict
    } else {
        10 + number
    }
}

/// Both sides on one shape; the answers must agree.
fn verdict(case: &str, extents: &[u64], strides: &[i64]) {
    let mut scratch = vec![0; words_needed(extents, strides).unwrap_or(0) as usize];
    let axes: Vec<Axis> = axes(extents, strides).collect();
    let answer = ours(&axes, &mut scratch);
    let distinct = is_injective_layout(unsigned(extents), signed(strides));
    assert_eq!(answer == 1, distinct, "{case}: ours {answer}, strided-rs {distinct}");
    // What is hidden from the compiler are thin pointers: a hidden slice goes through memory and stalls.
    let (extents, strides) = (extents.to_vec(), strides.to_vec());
    let words = ["?", "distinct", "repeated", "undecided"];
    line(
        &format!("verdict, {case}, {}", words.get(answer as usize).unwrap_or(&"refused")),
        || ours(black_box(&axes), &mut scratch),
        || is_injective_layout(unsigned(black_box(&extents)), signed(black_box(&strides))),
    );
}

pub fn two_axes() {
    verdict("two axes, s2/g = d1", &[4, 2000], &[2000, 3]);
    verdict("two axes, one longer", &[4, 2001], &[2000, 3]);
    verdict("two axes, strides near 2^32", &[5, 7], &[4294967291, 4294967279]);
    verdict("two axes, strides near 2^61", &[3, 2], &[(1 << 61) - 1, (1 << 61) + 3]);
    verdict("two axes, longest Euclid", &[3, 3], &[1100087778366101931, 679891637638612258]);
    verdict("two axes, g near 2^58", &[3, 3], &[5 << 58, 3 << 58]);
}

pub fn few_axes() {
    verdict("rank 2, dense", &[8, 8], &[1, 8]);
    verdict("rank 3, dense", &[4, 5, 6], &[1, 4, 20]);
    verdict("rank 4, dense, by row", &[4, 5, 6, 7], &[210, 42, 7, 1]);
    verdict("rank 8, dense, by row", &[2, 3, 2, 3, 2, 3, 2, 3], &[648, 216, 108, 36, 18, 6, 3, 1]);
    verdict("rank 3, every other index, backwards", &[8, 3, 5], &[1, -16, 48]);
    verdict("rank 2, a sliding window", &[8, 3], &[1, 1]);
    verdict("rank 3, a broadcast axis", &[4, 5, 6], &[1, 0, 4]);
    verdict("rank 2, crowded", &[8, 8], &[1, 2]);
    verdict("rank 3, count 1", &[2, 2, 2], &[2, 3, 5]);
    verdict("rank 3, two set apart are long", &[2, 2, 5_000_000], &[4, 5, 6]);
    verdict("rank 3, searched", &[3, 4, 5], &[20, 33, 47]);
    verdict("rank 4, searched", &[2, 3, 4, 5], &[101, 211, 307, 401]);
    verdict("rank 4, searched, g = 7", &[2, 3, 4, 5], &[101, 211, 308, 406]);
    verdict("rank 3, strides near 2^60", &[2, 3, 2], &[(1 << 60) + 1, (1 << 60) + 77, (1 << 60) + 1234567]);
    verdict("rank 4, strides near 2^60", &[2, 2, 2, 2], &[(1 << 60) + 1, (1 << 60) + 77, (1 << 60) + 1234567, (1 << 60) + 99]);
}

/// Strides of about 2^47, those of the two set apart multiples of g: no two positions meet.
fn strides(seed: u64, count: usize, apart: [usize; 2], g: i64) -> Vec<i64> {
    let mut random = Random::new(seed);
    let mut strides: Vec<i64> = (0..count).map(|_| (1 << 47) + random.below(1 << 47) as i64).collect();
    if g > 1 {
        apart.iter().for_each(|&axis| strides[axis] = strides[axis] / g * g);
    } else {
        strides[apart[0]] |= 1;
        strides[apart[1]] = strides[apart[0]] + 2;
    }
    strides
}

pub fn searches() {
    let long = [1448; 4];
    verdict("search, 4 axes of 1448, g = 1", &long, &strides(1, 4, [0, 1], 1));
    verdict("search, 4 axes of 1448, g = 1000", &long, &strides(1, 4, [0, 1], 1000));
    let short = [2, 3, 2, 3, 2, 3, 2, 3, 2, 3, 2, 2, 4, 4];
    verdict("search, 14 short axes, g = 1", &short, &strides(2, 14, [12, 13], 1));
    verdict("search, 14 short axes, g = 1000", &short, &strides(2, 14, [12, 13], 1000));
    let threes = [3; 11];
    verdict("search, eleven extents of 3, g = 1", &threes, &strides(3, 11, [0, 1], 1));
    verdict("search, eleven extents of 3, g = 1000", &threes, &strides(3, 11, [0, 1], 1000));
}

/// Doubling an extent of the two set apart costs nothing, doubling another doubles the time.
pub fn growth() {
    let strides = strides(4, 4, [0, 1], 1);
    verdict("growth, 2000 and 2000 apart, 40 and 40", &[2000, 2000, 40, 40], &strides);
    verdict("growth, one of the two set apart doubled", &[4000, 2000, 40, 40], &strides);
    verdict("growth, another doubled", &[2000, 2000, 40, 80], &strides);
}

/// Separated axes of one extent, and over them two that interleave and never meet.
fn stacked(extent: u64, lower: usize, top: [(u64, i64); 2], scale: i64) -> (Vec<u64>, Vec<i64>) {
    let (mut extents, mut strides) = (vec![extent; lower], Vec::new());
    let mut step = scale;
    for _ in 0..lower {
        strides.push(step);
        step *= extent as i64;
    }
    for (extent, factor) in top {
        extents.push(extent);
        strides.push(factor * step);
    }
    (extents, strides)
}

pub fn enumerations() {
    for (case, extent, lower, top, scale) in [
        ("bitmap, 12 axes of 4", 4, 10, [(4, 3), (4, 4)], 1),
        ("bitmap, 15 axes of 3", 3, 13, [(3, 3), (3, 4)], 1),
        ("bitmap, 15 axes of 3, 30 times as wide", 3, 13, [(3, 3), (3, 4)], 20),
        ("list, 12 axes of 4", 4, 10, [(4, 3), (4, 4)], 100),
        ("list, 15 axes of 3", 3, 13, [(3, 3), (3, 4)], 1_000_003),
    ] {
        let (extents, strides) = stacked(extent, lower, top, scale);
        verdict(case, &extents, &strides);
    }
    let mut random = Random::new(5);
    let near: Vec<i64> = (0..15).map(|_| 400_000 + random.below(100_000) as i64).collect();
    verdict("bitmap, 15 axes of 3, strides near 450,000", &[3; 15], &near);
    let wide: Vec<i64> = (0..15).map(|_| (1 << 55) + random.below(1 << 55) as i64).collect();
    verdict("list, 15 axes of 3, strides near 2^55", &[3; 15], &wide);
    let far: Vec<i64> = (0..15).map(|_| 40_000_000 + random.below(10_000_000) as i64).collect();
    verdict("list, 15 axes of 3, strides near 45 million", &[3; 15], &far);
}
