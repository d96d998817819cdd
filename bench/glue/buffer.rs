//! Glue for the bench: a copy of a buffer, whose fields are private to the parent module.
use super::{Buffer, Kind};
use crate::time::Timestamp;

impl Buffer<Timestamp> {
    pub(crate) fn copy(&self) -> Self {
        Self {
            parent: self.parent.clone(),
            child: self.child.clone(),
            kind: match &self.kind {
                Kind::Static(slot) => Kind::Static(slot.clone()),
                Kind::Dynamic { data, latest_timestamp, max_age } => {
                    Kind::Dynamic { data: data.clone(), latest_timestamp: *latest_timestamp, max_age: *max_age }
                }
            },
        }
    }
}
