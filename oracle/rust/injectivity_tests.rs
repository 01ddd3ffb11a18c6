//! Child module of `injectivity`: hands its private steps out as they are.

use crate::KernelDType;

impl KernelDType {
    /// The step that decides, each by strided-rs's own function: 0 refused, 1 at most one position, 2 separated, 3 crowded, 4 two axes,
    /// 5 the difference search, 6 enumeration, 7 undecided; and whether the positions are distinct, where that step says so.
    pub fn step(dims: &[usize], strides: &[isize]) -> (u8, bool) {
        match super::validate_injective_layout_inputs(dims, strides) {
            None => return (0, false),
            Some(0 | 1) => return (1, true),
            Some(_) => {}
        }
        let block = match super::interleaved_block(dims, strides) {
            None => return (0, false),
            Some(None) => return (2, true),
            Some(Some(block)) => block,
        };
        if !block.may_be_injective() {
            return (3, false);
        }
        if let Some(distinct) = super::two_axis_block_is_injective(dims, strides, &block) {
            return (4, distinct);
        }
        match super::block_differences_avoid_zero(dims, strides, &block) {
            Some(distinct) => (5, distinct),
            None => (6 + u8::from(block.total > super::EXACT_BLOCK_BUDGET as u128), false),
        }
    }

    pub fn gcd(a: u128, b: u128) -> u128 {
        super::gcd(a, b)
    }

    pub fn gcd_and_inverse(a: i128, b: i128) -> (i128, i128) {
        super::gcd_and_inverse(a, b)
    }

    /// Place of the first difference that `collides`, in strided-rs's own walk over (extent - 1, stride); 0 if none.
    pub fn place(axes: &[(u64, u64)], collides: impl Fn(i128) -> bool) -> u64 {
        let mut walked: Vec<super::DifferenceAxis> =
            axes.iter().map(|&(bound, stride)| (0, bound as i128, stride as i128)).collect();
        let boxed = axes.iter().map(|&(bound, _)| 2 * bound as u128 + 1).product();
        let looked_at = std::cell::Cell::new(0u64);
        let counted = |r: i128| {
            looked_at.set(looked_at.get() + 1);
            collides(r)
        };
        if super::difference_walk_collides(&mut walked, boxed, &counted) {
            looked_at.get()
        } else {
            0
        }
    }
}
