//! What both sides are asked, and what both answer.

use std::fmt;

#[derive(Clone, Copy, PartialEq, Eq)]
pub struct Caller {
    pub id: u32,
    pub priority: u32,
}

impl fmt::Debug for Caller {
    fn fmt(&self, f: &mut fmt::Formatter) -> fmt::Result {
        write!(f, "thread {} of priority {}", self.id, self.priority)
    }
}

/// A code as in the C interface, and the woken threads: the id and the result of each.
#[derive(Debug, PartialEq, Eq)]
pub struct Answer {
    pub code: i32,
    pub woken: Vec<(u32, i32)>,
}

impl Answer {
    pub fn code(code: i32) -> Self {
        Answer { code, woken: Vec::new() }
    }

    pub fn woke(code: i32, id: u32, result: i32) -> Self {
        Answer { code, woken: vec![(id, result)] }
    }
}
