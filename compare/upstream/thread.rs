//! Threads of Gale's Rust.

use crate::answer::{Answer, Caller};
use gale::priority::Priority;
use gale::thread::{Thread, ThreadState};

/// The numbers that the C interface gives the states.
pub const STATES: [ThreadState; 4] =
    [ThreadState::Ready, ThreadState::Running, ThreadState::Blocked, ThreadState::Suspended];

pub fn number_of(state: ThreadState) -> u32 {
    STATES.iter().position(|&known| known == state).unwrap() as u32
}

pub fn running(caller: Caller) -> Thread {
    let mut thread = Thread::new(caller.id, Priority::new(caller.priority).unwrap());
    thread.dispatch();
    thread
}

pub fn blocked(caller: Caller) -> Thread {
    let mut thread = running(caller);
    thread.block();
    thread
}

/// Who was woken, and with which result.
pub fn told(thread: &Thread) -> (u32, i32) {
    (thread.id.id, thread.return_value)
}

pub fn woke(code: i32, thread: &Thread) -> Answer {
    Answer { code, woken: vec![told(thread)] }
}
