//! Whether the product and the Rust answer the same.
use crate::ours::Answer;
use transforms::{
    Transform, bench,
    errors::RegistryError,
    time::{Stamp, Timestamp},
};

/// Equal in every bit, any NaN as any other.
pub fn same_floats(ours: &[f64], rust: &[f64]) -> bool {
    let same = |(a, b): (&f64, &f64)| a.to_bits() == b.to_bits() || (a.is_nan() && b.is_nan());
    ours.len() == rust.len() && ours.iter().zip(rust).all(same)
}

/// The Rust's pose, or 3 where that is not finite.
pub fn same_answer(ours: &Answer, rust: bench::Floats) -> bool {
    if rust.iter().any(|x| !x.is_finite()) {
        return ours.number == 3;
    }
    ours.number == 0 && same_floats(&ours.pose.0, &rust)
}

/// The number, frame and range of a refusal.
type Refused = (u32, String, Option<(u64, u64)>);

fn ours_refused(a: &Answer) -> Refused {
    let frame = if matches!(a.number, 9 | 11 | 12) { a.frame.to_string() } else { String::new() };
    (a.number, frame, (a.has_range == 1).then_some((a.start, a.end)))
}

fn rust_refused(error: RegistryError<Timestamp>) -> Refused {
    let range = |r: Option<(Timestamp, Timestamp)>| r.map(|(s, e)| (s.as_nanos(), e.as_nanos()));
    match error {
        RegistryError::UnknownFrame(frame) => (9, frame, None),
        RegistryError::Disconnected { .. } => (10, String::new(), None),
        RegistryError::NotFoundAt { frame, covered, .. } => (11, frame, range(covered)),
        RegistryError::NoCommonTime { frame, covered, .. } => (12, frame, range(covered)),
        other => panic!("not expected here: {other}"),
    }
}

pub fn same_lookup(ours: &Answer, rust: Result<Transform<Timestamp>, RegistryError<Timestamp>>) -> bool {
    match rust {
        Ok(found) => same_answer(ours, bench::floats_of(&found)),
        Err(error) => ours_refused(ours) == rust_refused(error),
    }
}

pub fn same_served(ours: &Answer, rust: Result<bench::Floats, Option<(u64, u64)>>) -> bool {
    match rust {
        Ok(pose) => same_answer(ours, pose),
        Err(range) => ours.number == 11 && (ours.has_range == 1).then_some((ours.start, ours.end)) == range,
    }
}

pub fn same_common(ours: &Answer, rust: Result<Stamp<Timestamp>, RegistryError<Timestamp>>) -> bool {
    match rust {
        Ok(Stamp::Static) => ours.number == 0 && ours.is_static == 1,
        Ok(Stamp::At(at)) => ours.number == 0 && ours.is_static == 0 && ours.instant == at.as_nanos(),
        Err(error) => ours_refused(ours) == rust_refused(error),
    }
}
