//! Glue: the modules of `core`.
pub(crate) mod buffer;
pub(crate) mod registry;

pub(crate) use buffer::Buffer;
pub use registry::Registry;
