//! Glue: the modules of `time`.
mod error;
mod stamp;
mod timestamp;
mod traits;

pub use error::TimeError;
pub use stamp::Stamp;
pub use timestamp::Timestamp;
pub use traits::TimePoint;
