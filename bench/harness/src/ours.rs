//! The product: a store of three vectors, and the calls on it, with the soundness pass and without.
use crate::scene::{Addition, Pose};

/// `transforms_answer` of include/transforms.h.
#[repr(C)]
#[derive(Clone, Copy)]
pub struct Answer {
    pub number: u32,
    pub frame: u32,
    pub has_range: u32,
    pub is_static: u32,
    pub is_record: u32,
    pub reserved: u32,
    pub start: u64,
    pub end: u64,
    pub norm: f64,
    pub instant: u64,
    pub index: u64,
    pub pose: Pose,
}

/// `transforms_frame_answer`.
#[repr(C)]
#[derive(Clone, Copy)]
pub struct FrameAnswer {
    pub number: u32,
    pub is_known: u32,
    pub frame: u32,
}

/// `transforms_name_answer`.
#[repr(C)]
#[derive(Clone, Copy)]
pub struct NameAnswer {
    pub number: u32,
    pub is_known: u32,
    pub start: usize,
    pub count: usize,
}

// A store as arguments: three pointers, each with its length.
type Words = *const u64;
type WordsMut = *mut u64;
type Floats = *const f64;
type FloatsMut = *mut f64;
type N = usize;

unsafe extern "C" {
    fn transforms_open(h: WordsMut, hn: N, i: WordsMut, n: N, p: FloatsMut, pn: N, rows: u64, samples: u64, has_max_age: u32, max_age: u64) -> Answer;
    fn transforms_add_transform(h: WordsMut, hn: N, i: WordsMut, n: N, p: FloatsMut, pn: N, child: u32, parent: u32, is_static: u32, instant: u64, pose: Pose) -> Answer;
    fn transforms_get_transform(h: Words, hn: N, i: Words, n: N, p: Floats, pn: N, target: u32, source: u32, instant: u64) -> Answer;
    fn transforms_latest_common_time(h: Words, hn: N, i: Words, n: N, p: Floats, pn: N, target: u32, source: u32) -> Answer;
    fn transforms_remove_before(h: WordsMut, hn: N, i: WordsMut, n: N, p: FloatsMut, pn: N, child: u32, instant: u64) -> Answer;
    fn transforms_load_map(h: WordsMut, hn: N, i: WordsMut, n: N, p: FloatsMut, pn: N, map: *const u8, mn: N) -> Answer;
    fn transforms_map_frame(map: *const u8, mn: N, name: *const u8, nn: N) -> FrameAnswer;
    fn transforms_map_name(map: *const u8, mn: N, frame: u32) -> NameAnswer;

    fn inner_check(h: Words, hn: N, i: Words, n: N, p: Floats, pn: N) -> u32;
    fn inner_add_transform(h: WordsMut, hn: N, i: WordsMut, n: N, p: FloatsMut, pn: N, child: u32, parent: u32, is_static: u32, instant: u64, pose: Pose) -> Answer;
    fn inner_get_transform(h: Words, hn: N, i: Words, n: N, p: Floats, pn: N, target: u32, source: u32, instant: u64) -> Answer;
    fn inner_latest_common_time(h: Words, hn: N, i: Words, n: N, p: Floats, pn: N, target: u32, source: u32) -> Answer;
    fn inner_get(i: Words, n: N, p: Floats, pn: N, count: usize, instant: u64) -> Answer;
    fn inner_remove_before(h: WordsMut, hn: N, i: WordsMut, n: N, p: FloatsMut, pn: N, child: u32, instant: u64) -> Answer;

    pub safe fn transforms_mul(a: Pose, b: Pose) -> Answer;
    pub safe fn transforms_inverse(pose: Pose) -> Answer;
    pub safe fn transforms_interpolate(a: Pose, b: Pose, start: u64, end: u64, query: u64) -> Answer;
    safe fn inner_sqrt(x: f64) -> f64;
    safe fn inner_acos(d: f64) -> f64;
    safe fn inner_sin(a: f64) -> f64;
}

pub const SQRT: extern "C" fn(f64) -> f64 = inner_sqrt;
pub const ACOS: extern "C" fn(f64) -> f64 = inner_acos;
pub const SIN: extern "C" fn(f64) -> f64 = inner_sin;

/// The calls on a store, whole or without the pass.
pub struct Calls {
    add: unsafe extern "C" fn(WordsMut, N, WordsMut, N, FloatsMut, N, u32, u32, u32, u64, Pose) -> Answer,
    get: unsafe extern "C" fn(Words, N, Words, N, Floats, N, u32, u32, u64) -> Answer,
    common: unsafe extern "C" fn(Words, N, Words, N, Floats, N, u32, u32) -> Answer,
    wipe: unsafe extern "C" fn(WordsMut, N, WordsMut, N, FloatsMut, N, u32, u64) -> Answer,
}

pub const WHOLE: Calls = Calls {
    add: transforms_add_transform,
    get: transforms_get_transform,
    common: transforms_latest_common_time,
    wipe: transforms_remove_before,
};

pub const INNER: Calls = Calls {
    add: inner_add_transform,
    get: inner_get_transform,
    common: inner_latest_common_time,
    wipe: inner_remove_before,
};

#[derive(Clone, PartialEq)]
pub struct Store {
    pub head: Vec<u64>,
    pub instants: Vec<u64>,
    pub poses: Vec<f64>,
}

impl Store {
    pub fn open(rows: usize, samples: usize, max_age: Option<u64>) -> Self {
        let mut store = Store {
            head: vec![0; 5 + 4 * rows],
            instants: vec![0; rows * samples],
            poses: vec![0.0; 7 * rows * samples],
        };
        let (h, i, p) = (&mut store.head, &mut store.instants, &mut store.poses);
        let opened = unsafe {
            transforms_open(
                h.as_mut_ptr(), h.len(), i.as_mut_ptr(), i.len(), p.as_mut_ptr(), p.len(),
                rows as u64, samples as u64, max_age.is_some() as u32, max_age.unwrap_or(0),
            )
        };
        assert_eq!(opened.number, 0);
        store
    }

    /// 0 where the store is sound.
    pub fn check(&self) -> u32 {
        let (h, i, p) = (&self.head, &self.instants, &self.poses);
        unsafe { inner_check(h.as_ptr(), h.len(), i.as_ptr(), i.len(), p.as_ptr(), p.len()) }
    }

    pub fn add(&mut self, calls: &Calls, a: &Addition) -> Answer {
        let (h, i, p) = (&mut self.head, &mut self.instants, &mut self.poses);
        unsafe {
            (calls.add)(
                h.as_mut_ptr(), h.len(), i.as_mut_ptr(), i.len(), p.as_mut_ptr(), p.len(),
                a.child, a.parent, a.instant.is_none() as u32, a.instant.unwrap_or(0), a.pose,
            )
        }
    }

    pub fn get(&self, calls: &Calls, target: u32, source: u32, instant: u64) -> Answer {
        let (h, i, p) = (&self.head, &self.instants, &self.poses);
        unsafe { (calls.get)(h.as_ptr(), h.len(), i.as_ptr(), i.len(), p.as_ptr(), p.len(), target, source, instant) }
    }

    /// A query on a moving row by itself.
    pub fn get_in_row(&self, row: usize, instant: u64) -> Answer {
        let (samples, count) = (self.head[1] as usize, self.head[5 + 4 * row + 3] as usize);
        let (from, to) = (row * samples, (row + 1) * samples);
        let (i, p) = (&self.instants[from..to], &self.poses[7 * from..7 * to]);
        unsafe { inner_get(i.as_ptr(), i.len(), p.as_ptr(), p.len(), count, instant) }
    }

    pub fn common(&self, calls: &Calls, target: u32, source: u32) -> Answer {
        let (h, i, p) = (&self.head, &self.instants, &self.poses);
        unsafe { (calls.common)(h.as_ptr(), h.len(), i.as_ptr(), i.len(), p.as_ptr(), p.len(), target, source) }
    }

    pub fn wipe(&mut self, calls: &Calls, child: u32, instant: u64) -> Answer {
        let (h, i, p) = (&mut self.head, &mut self.instants, &mut self.poses);
        unsafe { (calls.wipe)(h.as_mut_ptr(), h.len(), i.as_mut_ptr(), i.len(), p.as_mut_ptr(), p.len(), child, instant) }
    }

    pub fn load(&mut self, map: &[u8]) -> Answer {
        let (h, i, p) = (&mut self.head, &mut self.instants, &mut self.poses);
        unsafe {
            transforms_load_map(
                h.as_mut_ptr(), h.len(), i.as_mut_ptr(), i.len(), p.as_mut_ptr(), p.len(), map.as_ptr(), map.len(),
            )
        }
    }

    /// Copies the head and one row from a store of the same sizes.
    pub fn refresh(&mut self, other: &Store, row: usize) {
        let samples = self.head[1] as usize;
        let (from, to) = (row * samples, (row + 1) * samples);
        self.head.copy_from_slice(&other.head);
        self.instants[from..to].copy_from_slice(&other.instants[from..to]);
        self.poses[7 * from..7 * to].copy_from_slice(&other.poses[7 * from..7 * to]);
    }

    pub fn refresh_all(&mut self, other: &Store) {
        self.head.copy_from_slice(&other.head);
        self.instants.copy_from_slice(&other.instants);
        self.poses.copy_from_slice(&other.poses);
    }
}

/// The number of a name of a map file.
pub fn frame_of(map: &[u8], name: &[u8]) -> FrameAnswer {
    unsafe { transforms_map_frame(map.as_ptr(), map.len(), name.as_ptr(), name.len()) }
}

/// The name of a number.
pub fn name_of(map: &[u8], frame: u32) -> NameAnswer {
    unsafe { transforms_map_name(map.as_ptr(), map.len(), frame) }
}
