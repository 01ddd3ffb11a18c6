//! strided-rs, our library and a reference of our own, on the same inputs.

pub mod averaging;
pub mod buffers;
pub mod copies;
pub mod copying;
pub mod examples;
pub mod help;
pub mod input;
pub mod layouts;
#[cfg(feature = "ours")]
pub mod lent;
pub mod means;
#[cfg(feature = "ours")]
pub mod ours;
pub mod random;
pub mod record;
pub mod reference;
pub mod rust;
pub mod sessions;
pub mod shapes;
pub mod text;
