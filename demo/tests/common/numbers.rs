//! Made-up logs: the same in every run.

/// A small source of numbers.
pub struct Numbers(pub u64);

impl Numbers {
    /// From 0 to `below - 1`.
    pub fn below(&mut self, below: usize) -> usize {
        self.0 = self.0.wrapping_mul(6_364_136_223_846_793_005).wrapping_add(1_442_695_040_888_963_407);
        (self.0 >> 33) as usize % below
    }
}

/// When they begin.
pub const BEGINNINGS: [&str; 8] = [
    "2026-03-02 00:00",
    "2026-03-02 23:30",
    "2024-02-28 13:00",
    "2023-02-28 22:30",
    "2025-12-31 23:30",
    "2000-02-29 00:30",
    "2099-12-30 12:00",
    "2100-02-27 06:30",
];
