//! Child module of `view`: hands its private functions out as they are.

use crate::{KernelDType, Result, StrideVec};

impl KernelDType {
    #[inline]
    pub fn validate_bounds(len: usize, dims: &[usize], strides: &[isize], offset: isize) -> Result<()> {
        super::validate_bounds(len, dims, strides, offset)
    }

    #[inline]
    pub fn indexed_offset(dims: &[usize], strides: &[isize], indices: &[usize], base: isize) -> isize {
        super::indexed_offset(dims, strides, indices, base)
    }

    pub fn checked_col_major_strides(dims: &[usize]) -> Result<StrideVec> {
        super::checked_col_major_strides(dims)
    }

    pub fn checked_row_major_strides(dims: &[usize]) -> Result<StrideVec> {
        super::checked_row_major_strides(dims)
    }
}
