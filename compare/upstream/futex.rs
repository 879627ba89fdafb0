//! The futex of Gale's Rust.

use super::thread::{running, told};
use super::wait_queue::{self, cannot_wait};
use super::Upstream;
use crate::answer::{Answer, Caller};
use gale::error::EAGAIN;
use gale::futex::{Futex, WaitDecision, WaitResult, WakeResult};

#[derive(Clone, Copy, Debug)]
pub enum Call {
    Wait { expected: u32, caller: Caller },
    Wake { all: bool },
    ValSet(u32),
}

/// Why upstream's precondition forbids a wait.
pub enum Apart {
    /// The thread could not wait, but the value is not the expected one either.
    Mismatch,
    Queue(wait_queue::Apart),
}

impl Upstream for Futex {
    type Call = Call;
    type Apart = Apart;

    fn apart(&self, call: Call) -> Option<Apart> {
        let Call::Wait { expected, caller } = call else { return None };
        let why = cannot_wait(&self.wait_q, caller)?;
        Some(if self.val == expected { Apart::Queue(why) } else { Apart::Mismatch })
    }

    fn call(&mut self, call: Call) -> Answer {
        match call {
            Call::Wait { expected, caller } => Answer::code(match self.wait(expected, running(caller)) {
                WaitResult::Blocked => 1,
                WaitResult::Mismatch => EAGAIN,
            }),
            Call::Wake { all } => {
                let WakeResult { woken, threads } = self.wake(all);
                let threads = threads[..woken as usize].iter().map(|thread| told(thread.as_ref().unwrap()));
                Answer { code: woken as i32, woken: threads.collect() }
            }
            Call::ValSet(val) => {
                self.val_set(val);
                Answer::code(0)
            }
        }
    }

    fn copy(&self) -> Self {
        Futex { wait_q: self.wait_q.copy(), ..*self }
    }
}

pub fn wait_decision(decision: WaitDecision) -> i32 {
    match decision {
        WaitDecision::Block => 1,
        WaitDecision::Mismatch => EAGAIN,
    }
}
