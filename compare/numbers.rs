//! Functions on plain numbers: which numbers they are asked, and how answers are held against each other.

/// Small numbers, and the largest.
pub fn edges() -> impl Iterator<Item = u32> + Clone {
    (0..=5).chain([u32::MAX - 1, u32::MAX])
}

/// The same of 64 bits.
pub fn ticks() -> impl Iterator<Item = u64> + Clone {
    (0..=5).chain([u64::MAX - 1, u64::MAX])
}

/// Those of 32 bits, and the numbers about which a queue is full.
pub fn waiters() -> impl Iterator<Item = u32> + Clone {
    edges().chain(62..=66)
}

pub fn equal(what: String, expected: i32, ours: i32) -> Result<(), String> {
    if expected == ours {
        return Ok(());
    }
    Err(format!("  {what}: expected {expected}, ours {ours}"))
}
