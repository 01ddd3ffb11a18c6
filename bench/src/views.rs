//! Check-in and the three views at ranks 2, 4 and 8. A view of ours starts from a copy of the layout, since strided-rs's leave the
//! old view as it was; check-in of ours writes into a layout that is there.

use crate::timing::line;
use harness::input::Layout;
use harness::ours::{self, strided_broadcast, strided_diagonal_view, strided_new, strided_permute, Values};
use harness::rust::{buffer, signed, unsigned, view};
use std::hint::black_box;
use strided_view::{Result, StridedView};

type Call = unsafe extern "C" fn(*mut ours::Layout, *const u64, usize, *mut Values) -> u8;

/// The view of a layout, made in `to`, which first takes the layout over.
fn viewed(from: &ours::Layout, to: &mut ours::Layout, list: &[u64], call: Call) -> u8 {
    *to = *from;
    let mut values = Values::default();
    // SAFETY: each pointer is that of a struct or of a list of the length beside it.
    let number = unsafe { call(to, list.as_ptr(), list.len(), &mut values) };
    black_box(to);
    number
}

fn checked_in(to: &mut ours::Layout, extents: &[u64], strides: &[i64]) -> u8 {
    // SAFETY: as above.
    let number = unsafe { strided_new(to, extents.as_ptr(), extents.len(), strides.as_ptr(), strides.len()) };
    black_box(to);
    number
}

/// strided-rs's view stays where it was made.
fn made(result: &Result<StridedView<'static, ()>>) -> bool {
    black_box(result).is_ok()
}

/// A dense layout whose last axis has extent 1.
fn dense(rank: usize) -> Layout {
    let mut extents: Vec<u64> = (0..rank as u64).map(|axis| 3 + axis % 3).collect();
    extents[rank - 1] = 1;
    let mut strides = Vec::new();
    let len = extents.iter().fold(1u64, |step, extent| {
        strides.push(step as i64);
        step * extent
    });
    Layout::of(len, 0, &extents, &strides)
}

fn check_in(rank: usize, layout: &Layout) {
    let (extents, strides) = (layout.extents().to_vec(), layout.strides().to_vec());
    let mut to = ours::Layout::from(layout);
    line(
        &format!("check-in, rank {rank}"),
        || checked_in(&mut to, black_box(&extents), black_box(&strides)),
        || made(&StridedView::new(buffer(layout.len), unsigned(black_box(&extents)), signed(black_box(&strides)), 0)),
    );
}

fn permute(rank: usize, layout: &Layout) {
    let axes: Vec<u64> = (0..rank as u64).rev().collect();
    let (from, mut to, view) = (ours::Layout::from(layout), ours::Layout::from(layout), view(layout));
    line(
        &format!("permute, rank {rank}"),
        || viewed(black_box(&from), &mut to, black_box(&axes), strided_permute),
        || made(&black_box(&view).permute(unsigned(black_box(&axes)))),
    );
}

fn broadcast(rank: usize, layout: &Layout) {
    let mut target = layout.extents().to_vec();
    target[rank - 1] = 100;
    let (from, mut to, view) = (ours::Layout::from(layout), ours::Layout::from(layout), view(layout));
    line(
        &format!("broadcast, rank {rank}"),
        || viewed(black_box(&from), &mut to, black_box(&target), strided_broadcast),
        || made(&black_box(&view).broadcast(unsigned(black_box(&target)))),
    );
}

fn diagonal(rank: usize, layout: &Layout) {
    let pairs: Vec<(usize, usize)> = (0..rank / 2).map(|axis| (axis, rank - 1 - axis)).collect();
    let numbers: Vec<u64> = pairs.iter().flat_map(|&(one, other)| [one as u64, other as u64]).collect();
    let (from, mut to, view) = (ours::Layout::from(layout), ours::Layout::from(layout), view(layout));
    line(
        &format!("diagonal_view, rank {rank}, {} pairs", pairs.len()),
        || viewed(black_box(&from), &mut to, black_box(&numbers), strided_diagonal_view),
        || made(&black_box(&view).diagonal_view(black_box(&pairs))),
    );
}

pub fn all() {
    for rank in [2, 4, 8] {
        let layout = dense(rank);
        check_in(rank, &layout);
        permute(rank, &layout);
        broadcast(rank, &layout);
        diagonal(rank, &layout);
    }
}
