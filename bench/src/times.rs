//! What is measured.

/// The times of one piece of work in nanoseconds, by the proved code and by the reference.
#[derive(Clone, Copy)]
pub struct Times {
    pub proved: f64,
    pub plain: f64,
}

impl Times {
    pub fn ratio(self) -> f64 {
        self.proved / self.plain
    }
}
