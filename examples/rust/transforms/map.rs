//! A map file: the book of its names, read from its bytes.
use super::{ffi, Refusal};
use std::fmt;

/// The bytes of a map file.
#[derive(Clone, Copy)]
pub struct Map<'a>(pub &'a [u8]);

/// Why a load is refused: for the store's or the file's sake, or with the number of a record, counted from 0.
#[derive(Clone, Copy, Debug, PartialEq)]
pub struct LoadRefusal {
    pub record: Option<u64>,
    pub refusal: Refusal,
}

impl fmt::Display for LoadRefusal {
    fn fmt(&self, f: &mut fmt::Formatter<'_>) -> fmt::Result {
        match self.record {
            Some(record) => write!(f, "record {record}: {}", self.refusal),
            None => self.refusal.fmt(f),
        }
    }
}

impl std::error::Error for LoadRefusal {}

impl<'a> Map<'a> {
    /// The number of a name, if the file gives it.
    pub fn frame_of(self, name: &[u8]) -> Result<Option<u32>, Refusal> {
        let answer = unsafe { ffi::transforms_map_frame(self.0.as_ptr(), self.0.len(), name.as_ptr(), name.len()) };
        match answer.number {
            0 => Ok((answer.is_known != 0).then_some(answer.frame)),
            _ => Err(Refusal::MapForm),
        }
    }

    /// The name of a number, as a part of the file, if the file gives it.
    pub fn name_of(self, frame: u32) -> Result<Option<&'a [u8]>, Refusal> {
        let answer = unsafe { ffi::transforms_map_name(self.0.as_ptr(), self.0.len(), frame) };
        match answer.number {
            0 => Ok((answer.is_known != 0).then(|| &self.0[answer.start..answer.start + answer.count])),
            _ => Err(Refusal::MapForm),
        }
    }
}
