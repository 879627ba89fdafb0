//! The wait queue of Gale's Rust.

use super::thread::{blocked, woke};
use super::Upstream;
use crate::answer::{Answer, Caller};
use gale::thread::Thread;
use gale::wait_queue::{WaitQueue, MAX_WAITERS};

#[derive(Clone, Copy, Debug)]
pub enum Call {
    Pend(Caller),
    UnpendFirst(i32),
    UnpendAll(i32),
}

/// Why upstream's precondition forbids a thread to wait here.
#[derive(PartialEq, Eq)]
pub enum Apart {
    Waits,
    Full,
}

pub fn is_in(queue: &WaitQueue, id: u32) -> bool {
    waiting(queue).any(|thread| thread.id.id == id)
}

pub fn cannot_wait(queue: &WaitQueue, caller: Caller) -> Option<Apart> {
    if is_in(queue, caller.id) {
        Some(Apart::Waits)
    } else if queue.len() == MAX_WAITERS {
        Some(Apart::Full)
    } else {
        None
    }
}

/// Those that wait, in the order in which they would be woken.
pub fn waiting(queue: &WaitQueue) -> impl Iterator<Item = &Thread> {
    queue.entries[..queue.len as usize].iter().map(|entry| entry.as_ref().unwrap())
}

impl Upstream for WaitQueue {
    type Call = Call;
    type Apart = Apart;

    fn apart(&self, call: Call) -> Option<Apart> {
        let Call::Pend(caller) = call else { return None };
        cannot_wait(self, caller)
    }

    fn call(&mut self, call: Call) -> Answer {
        match call {
            Call::Pend(caller) => {
                assert!(self.pend(blocked(caller)));
                Answer::code(1)
            }
            Call::UnpendFirst(result) => self.unpend_first(result).map_or(Answer::code(0), |thread| woke(1, &thread)),
            Call::UnpendAll(result) => Answer::code(self.unpend_all(result) as i32),
        }
    }

    fn copy(&self) -> Self {
        WaitQueue { entries: self.entries, len: self.len }
    }
}
