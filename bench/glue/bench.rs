//! Glue for the bench: the private names that it measures, as public ones.
use crate::{
    Registry, Transform,
    core::{Buffer, buffer::GetError},
    geometry::{Quaternion, Vector3, transform::Isometry},
    time::{Stamp, Timestamp},
};

pub use libm::{acos, sin, sqrt};

/// Translation x, y, z, then rotation w, x, y, z.
pub type Floats = [f64; 7];

fn isometry([x, y, z, w, i, j, k]: Floats) -> Isometry {
    Isometry { translation: Vector3 { x, y, z }, rotation: Quaternion { w, x: i, y: j, z: k } }
}

fn floats(pose: Isometry) -> Floats {
    let (t, r) = (pose.translation, pose.rotation);
    [t.x, t.y, t.z, r.w, r.x, r.y, r.z]
}

/// A transform that no test has seen yet; without an instant it is static.
pub fn transform(child: &str, parent: &str, instant: Option<u64>, pose: Floats) -> Transform<Timestamp> {
    let pose = isometry(pose);
    let stamp = instant.map_or(Stamp::Static, |at| Stamp::At(Timestamp::from_nanos(at)));
    Transform::unvalidated(parent.into(), child.into(), pose.translation, pose.rotation, stamp)
}

pub fn floats_of(transform: &Transform<Timestamp>) -> Floats {
    floats(transform.isometry())
}

/// A child's buffer, to be asked by itself.
pub struct Held<'a>(&'a Buffer<Timestamp>);

pub fn held<'a>(registry: &'a Registry<Timestamp>, child: &str) -> Option<Held<'a>> {
    registry.buffer(child).map(Held)
}

impl Held<'_> {
    /// The pose, or the range outside which the instant is.
    pub fn get(&self, instant: u64) -> Result<Floats, Option<(u64, u64)>> {
        let range = |error: GetError<Timestamp>| match error {
            GetError::OutOfRange { start, end } => Some((start.as_nanos(), end.as_nanos())),
            _ => None,
        };
        self.0.get(Timestamp::from_nanos(instant)).map(floats).map_err(range)
    }
}

pub fn wipe(registry: &mut Registry<Timestamp>, child: &str, before: u64) -> bool {
    registry.wipe(child, Timestamp::from_nanos(before))
}

pub fn mul(a: Floats, b: Floats) -> Floats {
    floats(isometry(a) * isometry(b))
}

pub fn inverse(pose: Floats) -> Option<Floats> {
    isometry(pose).inverse().ok().map(floats)
}

pub fn interpolate(a: Floats, b: Floats, [start, end, query]: [u64; 3]) -> Option<Floats> {
    let at = Timestamp::from_nanos;
    isometry(a).interpolate(isometry(b), at(start), at(end), at(query)).ok().map(floats)
}
