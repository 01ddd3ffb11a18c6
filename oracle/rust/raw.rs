//! Stand-in for the raw kernels, which are no part of a layout: names only. `KernelDType` carries the private functions out, see the `tests.rs` files.

pub struct KernelDType;
pub struct ErasedRawStridedMut;
pub struct ErasedRawStridedPtr;
pub struct ErasedRawStridedRef;
pub struct ErasedRawStridedUninitMut;
pub struct KernelStorageElement;
pub struct RawStridedMut;
pub struct RawStridedRef;
