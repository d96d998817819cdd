//! Glue: the module tree around the Rust's files, the names they import, and the protocol.
#![allow(dead_code)]
extern crate alloc;

pub mod core;
pub mod errors {
    pub use crate::core::registry::RegistryError;
    pub use crate::geometry::{quaternion::QuaternionError, transform::TransformError};
    pub use crate::time::TimeError;
}
pub mod geometry;
pub mod time;

pub use crate::core::Registry;
pub use crate::geometry::{Localized, Transform, Transformable};

mod maps;
pub mod protocol;
mod text;
