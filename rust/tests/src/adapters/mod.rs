//! One adapter for each implementation.

pub mod c_functions;
mod reference;
mod wrapper;

pub use c_functions::CFunctions;
pub use reference::Reference;
pub use wrapper::Wrapper;
