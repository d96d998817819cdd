//! The refusals, by name, by number and in words.
use std::fmt;

/// First and last instant that a frame holds, if it holds any.
pub type Range = Option<(u64, u64)>;

#[derive(Clone, Copy, Debug, PartialEq)]
pub enum Refusal {
    Sizes,
    UnsoundStore,
    NonFiniteValues,
    NonUnitRotation { norm: f64 },
    SelfReferentialFrame,
    ReparentingNotSupported { parent: u32 },
    CycleDetected,
    StaticDynamicConflict,
    UnknownFrame { frame: u32 },
    Disconnected,
    NotFoundAt { frame: u32, range: Range },
    NoCommonTime { frame: u32, range: Range },
    NonFinite,
    ZeroLengthNormalization,
    DurationUnderflow,
    TreeFull,
    RowFull,
    MapForm,
    StoreInUse,
    /// A refusal of a newer library, which has no name here.
    Other { number: u32 },
}

impl Refusal {
    /// Its number, and its words as `transforms_refusal_words` has them.
    fn told(&self) -> (u32, &'static str) {
        match self {
            Refusal::Sizes => (1, "the sizes or the lengths of the slices are wrong"),
            Refusal::UnsoundStore => (2, "the store is unsound: its words break a rule"),
            Refusal::NonFiniteValues => (3, "a component is not finite"),
            Refusal::NonUnitRotation { .. } => (4, "the rotation is not a unit"),
            Refusal::SelfReferentialFrame => (5, "a frame cannot be its own parent"),
            Refusal::ReparentingNotSupported { .. } => (6, "the child is held under another parent"),
            Refusal::CycleDetected => (7, "the child is already above its parent: a circle"),
            Refusal::StaticDynamicConflict => (8, "static and moving samples do not mix in one frame"),
            Refusal::UnknownFrame { .. } => (9, "the frame is unknown"),
            Refusal::Disconnected => (10, "no path connects the frames"),
            Refusal::NotFoundAt { .. } => (11, "a frame on the way is not served at this instant"),
            Refusal::NoCommonTime { .. } => (12, "the frames have no common time"),
            Refusal::NonFinite => (13, "the norm of the rotation is not finite"),
            Refusal::ZeroLengthNormalization => (14, "the rotation is zero"),
            Refusal::DurationUnderflow => (15, "time runs backwards"),
            Refusal::TreeFull => (16, "the tree is full"),
            Refusal::RowFull => (17, "the row is full"),
            Refusal::MapForm => (18, "this is no map file, or it is damaged"),
            Refusal::StoreInUse => (19, "the store already holds a frame"),
            Refusal::Other { number } => (*number, "a refusal of a newer library"),
        }
    }

    pub fn number(&self) -> u32 {
        self.told().0
    }

    /// What it means.
    pub fn words(&self) -> &'static str {
        self.told().1
    }
}

impl fmt::Display for Refusal {
    fn fmt(&self, f: &mut fmt::Formatter<'_>) -> fmt::Result {
        write!(f, "refused with {}: {}", self.number(), self.words())?;
        match self {
            Refusal::NonUnitRotation { norm } => write!(f, "; the norm is {norm}"),
            Refusal::ReparentingNotSupported { parent } => write!(f, "; the child is under frame {parent}"),
            Refusal::UnknownFrame { frame } => write!(f, "; frame {frame}"),
            Refusal::NotFoundAt { frame, range } | Refusal::NoCommonTime { frame, range } => match range {
                Some((start, end)) => write!(f, "; frame {frame} has samples from {start} to {end} ns"),
                None => write!(f, "; frame {frame} has no sample"),
            },
            _ => Ok(()),
        }
    }
}

impl std::error::Error for Refusal {}
