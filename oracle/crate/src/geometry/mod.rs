//! Glue: the modules of `geometry`.
pub mod quaternion;
pub mod transform;
pub mod vector3;

pub use quaternion::Quaternion;
pub use transform::{Localized, Transform, Transformable};
pub use vector3::Vector3;
