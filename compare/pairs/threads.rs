//! Threads for the objects that hold a wait queue.

use gale::priority::Priority;
use gale::thread::Thread;
use gale::wait_queue::{WaitQueue, MAX_WAITERS};

fn running(id: u32) -> Thread {
    let mut thread = Thread::new(id, Priority::new(0).unwrap());
    thread.dispatch();
    thread
}

/// Thread 0, which waits nowhere.
pub fn caller() -> Thread {
    running(0)
}

/// A queue of any length: threads 1, 2 and so on, as far as there are entries. Above 64 it is malformed.
pub fn queue(len: u32) -> WaitQueue {
    let mut queue = WaitQueue::new();
    for id in 1..=len.min(MAX_WAITERS) {
        let mut thread = running(id);
        thread.block();
        queue.pend(thread);
    }
    WaitQueue { len, ..queue }
}
