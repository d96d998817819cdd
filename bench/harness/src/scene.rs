//! The inputs: two chains of frames under one root, or under a root each, with random poses.
use crate::ours::{INNER, Store};
use transforms::{Registry, bench, time::Timestamp};

/// Nanoseconds from one sample to the next.
pub const STEP: u64 = 10_000_000;

/// Translation x, y, z, then rotation w, x, y, z.
#[repr(C)]
#[derive(Clone, Copy)]
pub struct Pose(pub bench::Floats);

pub struct Addition {
    pub child: u32,
    pub parent: u32,
    /// None for a static frame.
    pub instant: Option<u64>,
    pub pose: Pose,
}

impl Addition {
    pub fn transform(&self) -> transforms::Transform<Timestamp> {
        bench::transform(&self.child.to_string(), &self.parent.to_string(), self.instant, self.pose.0)
    }
}

/// Xorshift, of 64 bits.
pub struct Random(pub u64);

impl Random {
    pub fn next(&mut self) -> u64 {
        self.0 ^= self.0 << 13;
        self.0 ^= self.0 >> 7;
        self.0 ^= self.0 << 17;
        self.0
    }

    pub fn below(&mut self, bound: u64) -> u64 {
        self.next() % bound
    }

    /// From -1 to 1.
    pub fn float(&mut self) -> f64 {
        self.next() as i64 as f64 / i64::MAX as f64
    }

    pub fn pose(&mut self) -> Pose {
        let turn = [(); 4].map(|()| self.float());
        let norm = turn.iter().map(|x| x * x).sum::<f64>().sqrt();
        let [w, x, y, z] = turn.map(|part| part / norm);
        Pose([self.float(), self.float(), self.float(), w, x, y, z])
    }
}

#[derive(Clone, Copy, PartialEq)]
pub enum Roots {
    One,
    Two,
}

/// One tree, held by the product and by the Rust.
pub struct Scene {
    pub store: Store,
    pub registry: Registry<Timestamp>,
}

/// The frames are 1 to `rows`: odd ones in one chain, even ones in the other.
pub const ROOT: u32 = 0;
const SECOND_ROOT: u32 = 1_000_000;

/// Numbers all over 32 bits.
pub fn scattered(frame: u32) -> u32 {
    frame.wrapping_mul(2_654_435_761)
}

pub fn parent_of(child: u32, roots: Roots) -> u32 {
    match (child, roots) {
        (1, _) | (2, Roots::One) => ROOT,
        (2, Roots::Two) => SECOND_ROOT,
        _ => child - 2,
    }
}

/// The frame at a depth of the odd chain (0) or of the even one (1); at depth 0 the root.
pub fn frame_at(depth: usize, chain: u32) -> u32 {
    if depth == 0 { ROOT } else { 2 * depth as u32 - 1 + chain }
}

impl Scene {
    pub fn empty(rows: usize, samples: usize, max_age: Option<u64>) -> Self {
        Scene {
            store: Store::open(rows, samples, max_age),
            registry: match max_age {
                None => Registry::new(),
                Some(age) => Registry::with_max_age(std::time::Duration::from_nanos(age)),
            },
        }
    }

    /// All rows used; `held` samples in each at `STEP`, 2 `STEP` and so on, or a static pose where it is 0.
    pub fn filled(rows: usize, samples: usize, held: usize, max_age: Option<u64>, roots: Roots) -> Self {
        Scene::numbered(rows, samples, held, max_age, roots, |frame| frame)
    }

    /// The same, with other numbers for the frames.
    pub fn numbered(
        rows: usize,
        samples: usize,
        held: usize,
        max_age: Option<u64>,
        roots: Roots,
        number: fn(u32) -> u32,
    ) -> Self {
        let mut scene = Scene::empty(rows, samples, max_age);
        let mut random = Random(88172645463325252);
        for child in 1..=rows as u32 {
            let parent = number(parent_of(child, roots));
            let child = number(child);
            if held == 0 {
                scene.add(&Addition { child, parent, instant: None, pose: random.pose() });
            }
            for i in 1..=held as u64 {
                scene.add(&Addition { child, parent, instant: Some(i * STEP), pose: random.pose() });
            }
        }
        assert_eq!(scene.store.check(), 0, "the store is sound");
        scene
    }

    pub fn add(&mut self, addition: &Addition) {
        assert_eq!(self.store.add(&INNER, addition).number, 0);
        self.registry.add_transform(addition.transform()).expect("the Rust takes it");
    }
}
