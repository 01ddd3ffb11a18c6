//! Copies through two layouts, beside the loop that a caller would write: strided-rs has no such call. A copy of ours asks for the
//! verdict on the destination first. The loop does so beside the smallest copy alone, by strided-rs.

use crate::timing::line;
use harness::input;
use harness::ours::{strided_copy, Layout, Values};
use harness::rust::{signed, unsigned};
use std::hint::black_box;
use strided_view::is_injective_layout;

const SIDE: usize = 1024;
const MANY: usize = SIDE * SIDE;

pub fn readings(count: usize) -> Vec<i32> {
    (0..count as i32).map(|place| place.wrapping_mul(0x2545_f491)).collect()
}

pub fn layout(len: usize, extents: &[u64], strides: &[i64]) -> Layout {
    Layout::from(&input::Layout::of(len as u64, 0, extents, strides))
}

fn ours(source: &Layout, from: &[i32], destination: &Layout, to: &mut [i32]) -> u8 {
    let mut values = Values::default();
    // SAFETY: each pointer is that of a struct or has so many readings behind it; no scratch is needed here.
    unsafe { strided_copy(source, from.as_ptr(), from.len(), destination, to.as_mut_ptr(), to.len(), [].as_mut_ptr(), 0, &mut values) }
}

/// A copy beside a loop over the same slices, into buffers that hold the same before and afterwards.
fn copy(case: &str, source: &Layout, from: &[i32], destination: &Layout, room: usize, plain: impl Fn(&[i32], &mut [i32])) {
    // What is hidden from the compiler are thin pointers, as for the verdicts.
    let (from, mut to, mut plain_to) = (from.to_vec(), vec![0; room], vec![0; room]);
    assert_eq!(ours(source, &from, destination, &mut to), 0, "{case}");
    plain(&from, &mut plain_to);
    assert!(to == plain_to && to.iter().any(|&reading| reading != 0), "{case}");
    line(
        &format!("copy, {case}"),
        || ours(black_box(source), black_box(&from), black_box(destination), black_box(&mut to)),
        || plain(black_box(&from), black_box(&mut plain_to)),
    );
}

fn dense() {
    let run = layout(MANY, &[MANY as u64], &[1]);
    copy("2^20 readings in one run, beside copy_from_slice", &run, &readings(MANY), &run, MANY, |from, to| to.copy_from_slice(from));
}

/// A loop whose stride the compiler knows is made of wider loads; a copy is handed its strides, as the second loop is.
fn strided() {
    let every_other = layout(2 * MANY, &[MANY as u64], &[2]);
    let run = layout(MANY, &[MANY as u64], &[1]);
    let from = readings(2 * MANY);
    copy("2^20 readings at stride 2, beside a loop at stride 2", &every_other, &from, &run, MANY, |from, to| {
        for (place, reading) in to.iter_mut().enumerate() {
            *reading = from[2 * place];
        }
    });
    let stride = black_box(2);
    copy("2^20 readings at stride 2, beside a loop that is handed its stride", &every_other, &from, &run, MANY, |from, to| {
        for (place, reading) in to.iter_mut().enumerate() {
            *reading = from[stride * place];
        }
    });
}

fn transposed() {
    let side = SIDE as u64;
    let (by_column, by_row) = (layout(MANY, &[side; 2], &[1, side as i64]), layout(MANY, &[side; 2], &[side as i64, 1]));
    copy("1024 x 1024 transposed, beside two loops", &by_column, &readings(MANY), &by_row, MANY, |from, to| {
        for column in 0..SIDE {
            for row in 0..SIDE {
                to[row * SIDE + column] = from[column * SIDE + row];
            }
        }
    });
}

fn six() {
    let (source, destination) = (layout(6, &[2, 3], &[1, 2]), layout(6, &[2, 3], &[3, 1]));
    let (extents, strides) = ([2, 3], [3, 1]);
    copy("6 readings transposed, beside a verdict of strided-rs and two loops", &source, &readings(6), &destination, 6, |from, to| {
        assert!(is_injective_layout(unsigned(black_box(&extents)), signed(black_box(&strides))));
        for column in 0..3 {
            for row in 0..2 {
                to[row * 3 + column] = from[column * 2 + row];
            }
        }
    });
}

pub fn all() {
    dense();
    strided();
    transposed();
    six();
}
