//! What the tests and the benchmarks share.
//!
//! The same calls go to three implementations with one interface: the C functions of the proved
//! library, the crate `hiwalgam` over them, and the reference, which is separately written. The
//! proved program `slicewalk` and the reference's walk are a second such pair, with lines for their
//! interface.

pub mod adapters;
pub mod inputs;
pub mod interface;
pub mod slicewalk;
pub mod stick;
