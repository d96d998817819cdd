//! Glue: `Buffer::remove_before` for one child, whether there is a child, whether a frame is known, and a
//! registry of the same age. The fields of `Registry`, and its `frame_exists`, are private to the parent module.
use super::Registry;
use crate::time::Timestamp;

impl Registry<Timestamp> {
    /// False where `child` is no child.
    pub(crate) fn wipe(&mut self, child: &str, before: Timestamp) -> bool {
        let buffer = self.data.get_mut(child);
        buffer.map(|held| held.remove_before(before)).is_some()
    }

    pub(crate) fn is_empty(&self) -> bool {
        self.data.is_empty()
    }

    /// Whether the frame is a child or a parent, as the Rust has it.
    pub(crate) fn knows(&self, frame: &str) -> bool {
        Self::frame_exists(frame, &self.data)
    }

    pub(crate) fn anew(&self) -> Self {
        self.max_age.map_or_else(Self::new, Self::with_max_age)
    }
}
