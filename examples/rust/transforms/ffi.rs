//! include/transforms.h in Rust.
use super::{Isometry, Refusal};

/// `transforms_answer`.
#[repr(C)]
pub struct Answer {
    pub number: u32,
    pub frame: u32,
    pub has_range: u32,
    pub is_static: u32,
    pub is_record: u32,
    pub reserved: u32,
    pub start: u64,
    pub end: u64,
    pub norm: f64,
    pub instant: u64,
    pub index: u64,
    pub pose: Isometry,
}

impl Answer {
    /// The answer itself, unless it is a refusal.
    pub fn taken(self) -> Result<Answer, Refusal> {
        let frame = self.frame;
        let range = (self.has_range != 0).then_some((self.start, self.end));
        Err(match self.number {
            0 => return Ok(self),
            1 => Refusal::Sizes,
            2 => Refusal::UnsoundStore,
            3 => Refusal::NonFiniteValues,
            4 => Refusal::NonUnitRotation { norm: self.norm },
            5 => Refusal::SelfReferentialFrame,
            6 => Refusal::ReparentingNotSupported { parent: frame },
            7 => Refusal::CycleDetected,
            8 => Refusal::StaticDynamicConflict,
            9 => Refusal::UnknownFrame { frame },
            10 => Refusal::Disconnected,
            11 => Refusal::NotFoundAt { frame, range },
            12 => Refusal::NoCommonTime { frame, range },
            13 => Refusal::NonFinite,
            14 => Refusal::ZeroLengthNormalization,
            15 => Refusal::DurationUnderflow,
            16 => Refusal::TreeFull,
            17 => Refusal::RowFull,
            18 => Refusal::MapForm,
            19 => Refusal::StoreInUse,
            number => Refusal::Other { number },
        })
    }
}

/// `transforms_frame_answer`.
#[repr(C)]
pub struct FrameAnswer {
    pub number: u32,
    pub is_known: u32,
    pub frame: u32,
}

/// `transforms_name_answer`.
#[repr(C)]
pub struct NameAnswer {
    pub number: u32,
    pub is_known: u32,
    pub start: usize,
    pub count: usize,
}

#[rustfmt::skip]
extern "C" {
    pub fn transforms_open(
        head: *mut u64, head_len: usize, instants: *mut u64, instants_len: usize, poses: *mut f64, poses_len: usize,
        rows: u64, samples: u64, has_max_age: u32, max_age: u64,
    ) -> Answer;
    pub fn transforms_add_transform(
        head: *mut u64, head_len: usize, instants: *mut u64, instants_len: usize, poses: *mut f64, poses_len: usize,
        child: u32, parent: u32, is_static: u32, instant: u64, pose: Isometry,
    ) -> Answer;
    pub fn transforms_get_transform(
        head: *const u64, head_len: usize, instants: *const u64, instants_len: usize, poses: *const f64, poses_len: usize,
        target: u32, source: u32, instant: u64,
    ) -> Answer;
    pub fn transforms_latest_common_time(
        head: *const u64, head_len: usize, instants: *const u64, instants_len: usize, poses: *const f64, poses_len: usize,
        target: u32, source: u32,
    ) -> Answer;
    pub fn transforms_remove_before(
        head: *mut u64, head_len: usize, instants: *mut u64, instants_len: usize, poses: *mut f64, poses_len: usize,
        child: u32, instant: u64,
    ) -> Answer;
    pub fn transforms_load_map(
        head: *mut u64, head_len: usize, instants: *mut u64, instants_len: usize, poses: *mut f64, poses_len: usize,
        map: *const u8, map_len: usize,
    ) -> Answer;
    pub fn transforms_map_frame(map: *const u8, map_len: usize, name: *const u8, name_len: usize) -> FrameAnswer;
    pub fn transforms_map_name(map: *const u8, map_len: usize, frame: u32) -> NameAnswer;
    pub fn transforms_mul(a: Isometry, b: Isometry) -> Answer;
    pub fn transforms_inverse(pose: Isometry) -> Answer;
    pub fn transforms_interpolate(a: Isometry, b: Isometry, start: u64, end: u64, query: u64) -> Answer;
    pub fn transforms_validate(pose: Isometry) -> Answer;
}
