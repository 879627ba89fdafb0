//! The semaphore of Gale's Rust.

use super::thread::{running, woke};
use super::wait_queue::{self, cannot_wait};
use super::Upstream;
use crate::answer::{Answer, Caller};
use gale::error::EBUSY;
use gale::sem::{GiveDecision, GiveResult, Semaphore, TakeDecision, TakeResult};

#[derive(Clone, Copy, Debug)]
pub enum Call {
    Give,
    TryTake,
    TakeBlocking(Caller),
    Reset,
}

/// Why upstream's precondition forbids a call.
pub enum Apart {
    Available,
    Queue(wait_queue::Apart),
}

pub fn init(count: u32, limit: u32) -> (i32, Option<Semaphore>) {
    match Semaphore::init(count, limit) {
        Ok(sem) => (0, Some(sem)),
        Err(code) => (code, None),
    }
}

impl Upstream for Semaphore {
    type Call = Call;
    type Apart = Apart;

    fn apart(&self, call: Call) -> Option<Apart> {
        let Call::TakeBlocking(caller) = call else { return None };
        if self.count > 0 {
            return Some(Apart::Available);
        }
        cannot_wait(&self.wait_q, caller).map(Apart::Queue)
    }

    fn call(&mut self, call: Call) -> Answer {
        match call {
            Call::Give => match self.give() {
                GiveResult::WokeThread(thread) => woke(0, &thread),
                GiveResult::Incremented => Answer::code(1),
                GiveResult::Saturated => Answer::code(2),
            },
            Call::TryTake => Answer::code(match self.try_take() {
                TakeResult::Acquired => 0,
                TakeResult::WouldBlock => EBUSY,
                TakeResult::Blocked => 1,
            }),
            Call::TakeBlocking(caller) => {
                assert!(self.take_blocking(running(caller)));
                Answer::code(1)
            }
            Call::Reset => Answer::code(self.reset() as i32),
        }
    }

    fn copy(&self) -> Self {
        Semaphore { wait_q: self.wait_q.copy(), ..*self }
    }
}

pub fn give_decision(decision: GiveDecision) -> i32 {
    match decision {
        GiveDecision::WakeThread => 0,
        GiveDecision::Increment => 1,
        GiveDecision::Saturated => 2,
    }
}

pub fn take_decision(decision: TakeDecision) -> i32 {
    match decision {
        TakeDecision::Acquired => 0,
        TakeDecision::WouldBlock => EBUSY,
        TakeDecision::Pend => 1,
    }
}
