//! A safe wrapper over the C interface (include/transforms.h). A store borrows its three slices, so
//! that no two of them overlap and nothing else writes them during a call.
mod ffi;
mod map;
mod refusal;

pub use map::{LoadRefusal, Map};
pub use refusal::Refusal;

#[repr(C)]
#[derive(Clone, Copy, Debug, PartialEq)]
pub struct Vector3 {
    pub x: f64,
    pub y: f64,
    pub z: f64,
}

#[repr(C)]
#[derive(Clone, Copy, Debug, PartialEq)]
pub struct Quaternion {
    pub w: f64,
    pub x: f64,
    pub y: f64,
    pub z: f64,
}

/// A pose: where a frame lies, seen from another.
#[repr(C)]
#[derive(Clone, Copy, Debug, PartialEq)]
pub struct Isometry {
    pub translation: Vector3,
    pub rotation: Quaternion,
}

/// For ever, or at an instant in nanoseconds.
#[derive(Clone, Copy, Debug, PartialEq, Eq)]
pub enum Stamp {
    Static,
    At(u64),
}

/// A tree of frames in three slices, of 5 + 4*rows words, rows*samples instants and 7*rows*samples floats.
pub struct Store<'a> {
    pub head: &'a mut [u64],
    pub instants: &'a mut [u64],
    pub poses: &'a mut [f64],
}

impl Store<'_> {
    /// Empties the store, for so many rows and samples a row.
    pub fn open(&mut self, rows: u64, samples: u64, max_age: Option<u64>) -> Result<(), Refusal> {
        let (flag, age) = max_age.map_or((0, 0), |age| (1, age));
        // Here and below: pointers and lengths are those of slices borrowed for the call.
        let answer = unsafe {
            ffi::transforms_open(
                self.head.as_mut_ptr(), self.head.len(),
                self.instants.as_mut_ptr(), self.instants.len(),
                self.poses.as_mut_ptr(), self.poses.len(),
                rows, samples, flag, age,
            )
        };
        answer.taken().map(|_| ())
    }

    /// Adds the child's pose seen from its parent.
    pub fn add_transform(&mut self, child: u32, parent: u32, stamp: Stamp, pose: Isometry) -> Result<(), Refusal> {
        let (is_static, instant) = match stamp {
            Stamp::Static => (1, 0),
            Stamp::At(instant) => (0, instant),
        };
        let answer = unsafe {
            ffi::transforms_add_transform(
                self.head.as_mut_ptr(), self.head.len(),
                self.instants.as_mut_ptr(), self.instants.len(),
                self.poses.as_mut_ptr(), self.poses.len(),
                child, parent, is_static, instant, pose,
            )
        };
        answer.taken().map(|_| ())
    }

    /// The source's pose seen from the target at the instant.
    pub fn get_transform(&self, target: u32, source: u32, instant: u64) -> Result<Isometry, Refusal> {
        let answer = unsafe {
            ffi::transforms_get_transform(
                self.head.as_ptr(), self.head.len(),
                self.instants.as_ptr(), self.instants.len(),
                self.poses.as_ptr(), self.poses.len(),
                target, source, instant,
            )
        };
        answer.taken().map(|answer| answer.pose)
    }

    /// The latest instant at which every moving hop between the two frames has a pose.
    pub fn latest_common_time(&self, target: u32, source: u32) -> Result<Stamp, Refusal> {
        let answer = unsafe {
            ffi::transforms_latest_common_time(
                self.head.as_ptr(), self.head.len(),
                self.instants.as_ptr(), self.instants.len(),
                self.poses.as_ptr(), self.poses.len(),
                target, source,
            )
        };
        let answer = answer.taken()?;
        Ok(if answer.is_static != 0 { Stamp::Static } else { Stamp::At(answer.instant) })
    }

    /// Adds each record of the map as a static frame to a store that holds none.
    pub fn load_map(&mut self, map: Map) -> Result<(), LoadRefusal> {
        let answer = unsafe {
            ffi::transforms_load_map(
                self.head.as_mut_ptr(), self.head.len(),
                self.instants.as_mut_ptr(), self.instants.len(),
                self.poses.as_mut_ptr(), self.poses.len(),
                map.0.as_ptr(), map.0.len(),
            )
        };
        let record = (answer.is_record != 0).then_some(answer.index);
        answer.taken().map(|_| ()).map_err(|refusal| LoadRefusal { record, refusal })
    }

    /// Drops a moving child's samples before the instant.
    pub fn remove_before(&mut self, child: u32, instant: u64) -> Result<(), Refusal> {
        let answer = unsafe {
            ffi::transforms_remove_before(
                self.head.as_mut_ptr(), self.head.len(),
                self.instants.as_mut_ptr(), self.instants.len(),
                self.poses.as_mut_ptr(), self.poses.len(),
                child, instant,
            )
        };
        answer.taken().map(|_| ())
    }
}

impl Isometry {
    pub const IDENTITY: Isometry = Isometry {
        translation: Vector3 { x: 0.0, y: 0.0, z: 0.0 },
        rotation: Quaternion { w: 1.0, x: 0.0, y: 0.0, z: 0.0 },
    };

    /// The product: `other`, given in self's frame, seen from self's parent.
    pub fn mul(self, other: Isometry) -> Result<Isometry, Refusal> {
        unsafe { ffi::transforms_mul(self, other) }.taken().map(|answer| answer.pose)
    }

    pub fn inverse(self) -> Result<Isometry, Refusal> {
        unsafe { ffi::transforms_inverse(self) }.taken().map(|answer| answer.pose)
    }

    /// The pose at `query` between self at `start` and `other` at `end`.
    pub fn interpolate(self, other: Isometry, start: u64, end: u64, query: u64) -> Result<Isometry, Refusal> {
        let answer = unsafe { ffi::transforms_interpolate(self, other, start, end, query) };
        answer.taken().map(|answer| answer.pose)
    }

    /// The pose itself, if its components are finite and its rotation is a unit within 1e-6.
    pub fn validate(self) -> Result<Isometry, Refusal> {
        unsafe { ffi::transforms_validate(self) }.taken().map(|answer| answer.pose)
    }
}
