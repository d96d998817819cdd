
// Glue for the bench, behind the oracle's: a child's buffer, a copy of it, and a copy of a whole registry.
impl Registry<Timestamp> {
    pub(crate) fn buffer(&self, child: &str) -> Option<&crate::core::Buffer<Timestamp>> {
        self.data.get(child)
    }

    pub fn copy(&self) -> Self {
        Self {
            data: self.data.iter().map(|(child, buffer)| (child.clone(), buffer.copy())).collect(),
            max_age: self.max_age,
        }
    }

    /// Gives a child the buffer that it has in another registry.
    pub fn refresh(&mut self, other: &Self, child: &str) {
        let (Some(held), Some(prepared)) = (self.data.get_mut(child), other.data.get(child)) else {
            panic!("{child} is no child of both");
        };
        *held = prepared.copy();
    }
}
