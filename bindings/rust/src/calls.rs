//! The calls of the static library as they cross: a slice is a pointer and a length, a struct a pointer.

use crate::{Axis, Layout};
use std::mem::{align_of, offset_of, size_of};

/// What a refusal returns.
#[repr(C)]
#[derive(Clone, Copy, Default)]
pub struct Values {
    pub first: usize,
    pub second: usize,
}

/// A verdict's number, and how many difference vectors were looked at.
#[repr(C)]
#[derive(Clone, Copy, Default)]
pub struct Found {
    pub verdict: u8,
    pub count: u64,
}

// Where C has each field: `bindings/c/signatures` holds these numbers to those of the library's sources.
const _: () = {
    assert!(size_of::<Axis>() == 16 && align_of::<Axis>() == 8);
    assert!(offset_of!(Axis, extent) == 0 && offset_of!(Axis, stride) == 8);
    assert!(size_of::<Layout>() == 280 && align_of::<Layout>() == 8);
    assert!(offset_of!(Layout, len) == 0 && offset_of!(Layout, offset) == 8);
    assert!(offset_of!(Layout, rank) == 16 && offset_of!(Layout, axes) == 24);
    assert!(size_of::<Values>() == 16 && align_of::<Values>() == 8);
    assert!(offset_of!(Values, first) == 0 && offset_of!(Values, second) == 8);
    assert!(size_of::<Found>() == 16 && align_of::<Found>() == 8);
    assert!(offset_of!(Found, verdict) == 0 && offset_of!(Found, count) == 8);
};

extern "C" {
    pub fn strided_new(
        layout: *mut Layout, extents: *const u64, extents_len: usize, strides: *const i64, strides_len: usize,
    ) -> u8;
    pub fn strided_validate_bounds(
        len: u64, offset: i64, extents: *const u64, extents_len: usize, strides: *const i64, strides_len: usize,
    ) -> u8;
    pub fn strided_permute(layout: *mut Layout, order: *const usize, order_len: usize, values: *mut Values) -> u8;
    pub fn strided_diagonal_view(layout: *mut Layout, pairs: *const usize, pairs_len: usize, values: *mut Values) -> u8;
    pub fn strided_broadcast(layout: *mut Layout, targets: *const u64, targets_len: usize, values: *mut Values) -> u8;
    pub fn strided_indexed_offset(
        layout: *const Layout, index: *const u64, index_len: usize, offset: *mut i64, values: *mut Values,
    ) -> u8;
    pub fn strided_is_injective(
        axes: *const Axis, axes_len: usize, scratch: *mut u64, scratch_len: usize, found: *mut Found, values: *mut Values,
    ) -> u8;
    pub fn strided_normal_form(layout: *mut Layout) -> u8;
    pub fn strided_copy(
        source: *const Layout, from: *const i32, from_len: usize, destination: *const Layout, to: *mut i32, to_len: usize,
        scratch: *mut u64, scratch_len: usize, values: *mut Values,
    ) -> u8;
    pub fn strided_means(
        layout: *const Layout, axis: usize, readings: *const i32, readings_len: usize, out: *mut i32, out_len: usize,
        values: *mut Values,
    ) -> u8;
    pub fn strided_write(
        layout: *const Layout, out: *mut u8, out_len: usize, scratch: *mut u64, scratch_len: usize, values: *mut Values,
    ) -> u8;
    pub fn strided_read(
        layout: *mut Layout, bytes: *const u8, bytes_len: usize, scratch: *mut u64, scratch_len: usize, values: *mut Values,
    ) -> u8;
    pub fn strided_step(bytes: *const u8, bytes_len: usize) -> usize;
    pub fn strided_index_order(strides: *const i64, strides_len: usize, out: *mut usize, out_len: usize) -> u8;
    pub fn strided_column_strides(extents: *const u64, extents_len: usize, strides: *mut i64, strides_len: usize) -> u8;
    pub fn strided_row_strides(extents: *const u64, extents_len: usize, strides: *mut i64, strides_len: usize) -> u8;
}
