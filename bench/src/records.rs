//! The record, written and read: ours alone, strided-rs has none.

use crate::timing::line_alone;
use harness::input;
use harness::ours::{strided_read, strided_write, Layout, Values};
use std::hint::black_box;

fn both(case: &str, extents: &[u64], strides: &[i64], len: u64) {
    let layout = Layout::from(&input::Layout::of(len, 0, extents, strides));
    let mut bytes = [0u8; 300];
    let mut write = || {
        let mut values = Values::default();
        // SAFETY: each pointer is that of a struct or has so many bytes behind it; no scratch is needed here.
        let number = unsafe { strided_write(black_box(&layout), bytes.as_mut_ptr(), bytes.len(), [].as_mut_ptr(), 0, &mut values) };
        assert_eq!(number, 0);
        values.first
    };
    let size = write();
    line_alone(&format!("write, {case}"), write);
    let record = bytes[..size].to_vec();
    let mut to = layout;
    let read = || {
        let mut values = Values::default();
        // SAFETY: as above.
        let number = unsafe { strided_read(&mut to, black_box(&record).as_ptr(), size, [].as_mut_ptr(), 0, &mut values) };
        assert_eq!(number, 0);
        black_box(&mut to).rank
    };
    line_alone(&format!("read, {case}"), read);
}

pub fn all() {
    both("rank 2, merged into one axis", &[2, 3], &[1, 2], 6);
    both("rank 3, transposed", &[4, 5, 6], &[30, 6, 1], 120);
    both("rank 8, with gaps", &[3, 3, 3, 3, 3, 3, 3, 3], &[1, 4, 14, 44, 134, 404, 1214, 3644], 20_000);
}
