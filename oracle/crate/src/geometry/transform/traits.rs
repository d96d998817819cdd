//! Glue: the two traits that the Rust names, with no more than it calls.
use super::{Transform, TransformError};
use crate::time::{TimePoint, Timestamp};

pub trait Localized<T: TimePoint = Timestamp> {
    fn frame(&self) -> &str;
    fn timestamp(&self) -> T;
}

pub trait Transformable<T: TimePoint = Timestamp> {
    fn transform(&mut self, transform: &Transform<T>) -> Result<(), TransformError>;
}
