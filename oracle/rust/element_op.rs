//! Stand-in for the element operations, which are no part of a layout: names and traits only, enough for the unchanged files to compile.

pub struct Identity;
pub struct Conj;
pub struct Transpose;
pub struct Adjoint;
pub struct Compose;

pub trait ElementOpApply {}

pub trait ElementOp<T> {
    fn apply(value: T) -> T;
}

impl<T> ElementOp<T> for Identity {
    fn apply(value: T) -> T {
        value
    }
}

pub trait ComposableElementOp<T> {
    type ComposeConj;
    type ComposeTranspose;
    type ComposeAdjoint;
}
