//! Our static library: its functions as C has them. A slice is a pointer and a length, a struct a pointer.

use crate::input;
use std::mem::{align_of, offset_of, size_of};

#[repr(C)]
#[derive(Clone, Copy, PartialEq, Debug)]
pub struct Axis {
    pub extent: u64,
    pub stride: i64,
}

#[repr(C)]
#[derive(Clone, Copy, PartialEq, Debug)]
pub struct Layout {
    pub len: u64,
    pub offset: i64,
    pub rank: usize,
    pub axes: [Axis; 16],
}

#[repr(C)]
#[derive(Clone, Copy, PartialEq, Debug, Default)]
pub struct Values {
    pub first: usize,
    pub second: usize,
}

#[repr(C)]
#[derive(Clone, Copy, PartialEq, Debug, Default)]
pub struct Found {
    pub verdict: u8,
    pub count: u64,
}

// Where C has each field: `bindings/c/signatures` holds these numbers to those of the library's sources.
const _: () = {
    assert!(size_of::<Axis>() == 16 && align_of::<Axis>() == 8);
    assert!(offset_of!(Axis, extent) == 0 && offset_of!(Axis, stride) == 8);
    assert!(size_of::<Layout>() == 280 && align_of::<Layout>() == 8);
    assert!(offset_of!(Layout, len) == 0 && offset_of!(Layout, offset) == 8);
    assert!(offset_of!(Layout, rank) == 16 && offset_of!(Layout, axes) == 24);
    assert!(size_of::<Values>() == 16 && align_of::<Values>() == 8);
    assert!(offset_of!(Values, first) == 0 && offset_of!(Values, second) == 8);
    assert!(size_of::<Found>() == 16 && align_of::<Found>() == 8);
    assert!(offset_of!(Found, verdict) == 0 && offset_of!(Found, count) == 8);
};

extern "C" {
    pub fn strided_new(
        layout: *mut Layout, extents: *const u64, extents_len: usize, strides: *const i64, strides_len: usize,
    ) -> u8;
    pub fn strided_validate_bounds(
        len: u64, offset: i64, extents: *const u64, extents_len: usize, strides: *const i64, strides_len: usize,
    ) -> u8;
    pub fn strided_permute(layout: *mut Layout, order: *const u64, order_len: usize, values: *mut Values) -> u8;
    pub fn strided_diagonal_view(layout: *mut Layout, pairs: *const u64, pairs_len: usize, values: *mut Values) -> u8;
    pub fn strided_broadcast(layout: *mut Layout, targets: *const u64, targets_len: usize, values: *mut Values) -> u8;
    pub fn strided_indexed_offset(
        layout: *const Layout, index: *const u64, index_len: usize, offset: *mut i64, values: *mut Values,
    ) -> u8;
    pub fn strided_is_injective(
        axes: *const Axis, axes_len: usize, scratch: *mut u64, scratch_len: usize, found: *mut Found, values: *mut Values,
    ) -> u8;
    pub fn strided_normal_form(layout: *mut Layout) -> u8;
    pub fn strided_copy(
        source: *const Layout, from: *const i32, from_len: usize, destination: *const Layout, to: *mut i32, to_len: usize,
        scratch: *mut u64, scratch_len: usize, values: *mut Values,
    ) -> u8;
    pub fn strided_means(
        layout: *const Layout, axis: usize, readings: *const i32, readings_len: usize, out: *mut i32, out_len: usize, values: *mut Values,
    ) -> u8;
    pub fn strided_write(
        layout: *const Layout, out: *mut u8, out_len: usize, scratch: *mut u64, scratch_len: usize, values: *mut Values,
    ) -> u8;
    pub fn strided_read(
        layout: *mut Layout, bytes: *const u8, bytes_len: usize, scratch: *mut u64, scratch_len: usize, values: *mut Values,
    ) -> u8;
    pub fn strided_step(bytes: *const u8, bytes_len: usize) -> usize;
    pub fn strided_index_order(strides: *const i64, strides_len: usize, out: *mut u64, out_len: usize) -> u8;
    pub fn strided_column_strides(extents: *const u64, extents_len: usize, strides: *mut i64, strides_len: usize) -> u8;
    pub fn strided_row_strides(extents: *const u64, extents_len: usize, strides: *mut i64, strides_len: usize) -> u8;
}

/// Extents and strides as axes, as many as the shorter list has.
pub fn axes<'a>(extents: &'a [u64], strides: &'a [i64]) -> impl Iterator<Item = Axis> + 'a {
    extents.iter().zip(strides).map(|(&extent, &stride)| Axis { extent, stride })
}

/// As it crosses, the places past the rank too.
impl From<&input::Layout> for Layout {
    fn from(from: &input::Layout) -> Layout {
        let axes = std::array::from_fn(|place| Axis { extent: from.extents[place], stride: from.strides[place] });
        Layout { len: from.len, offset: from.offset, rank: from.rank as usize, axes }
    }
}

impl From<&Layout> for input::Layout {
    fn from(from: &Layout) -> input::Layout {
        input::Layout {
            len: from.len,
            offset: from.offset,
            rank: from.rank as u64,
            extents: from.axes.map(|axis| axis.extent),
            strides: from.axes.map(|axis| axis.stride),
        }
    }
}
