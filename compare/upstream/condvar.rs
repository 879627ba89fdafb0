//! The condition variable of Gale's Rust, together with the mutex that a wait gives back.

use super::mutex::{self, is_owner};
use super::thread::{running, woke};
use super::wait_queue::{self, cannot_wait};
use super::Upstream;
use crate::answer::{Answer, Caller};
use gale::condvar::{CondVar, SignalAction, SignalResult, WaitAction};
use gale::error::EAGAIN;
use gale::mutex::Mutex;

pub struct CondvarAndMutex {
    pub condvar: CondVar,
    pub mutex: Mutex,
}

#[derive(Clone, Copy, Debug)]
pub enum Call {
    /// Upstream's wait only waits, and leaves the unlock before it to its caller. Both are done here, and no wait
    /// where the unlock is refused.
    Wait(Caller),
    Signal,
    Broadcast,
    Mutex(mutex::Call),
}

/// Why ours is not to answer a call as upstream does.
pub enum Apart {
    /// The caller has locked the mutex more than once. Upstream allows it to wait, and it keeps the mutex.
    Nested,
    Queue(wait_queue::Apart),
    /// As the mutex says.
    Mutex,
}

impl CondvarAndMutex {
    pub fn init() -> Self {
        CondvarAndMutex { condvar: CondVar::init(), mutex: Mutex::init() }
    }
}

impl Upstream for CondvarAndMutex {
    type Call = Call;
    type Apart = Apart;

    fn apart(&self, call: Call) -> Option<Apart> {
        match call {
            Call::Wait(caller) if !is_owner(&self.mutex, caller.id) => None,
            Call::Wait(_) if self.mutex.lock_count > 1 => Some(Apart::Nested),
            Call::Wait(caller) => cannot_wait(&self.condvar.wait_q, caller).map(Apart::Queue),
            Call::Mutex(call) => self.mutex.apart(call).map(|_| Apart::Mutex),
            Call::Signal | Call::Broadcast => None,
        }
    }

    fn call(&mut self, call: Call) -> Answer {
        match call {
            Call::Wait(caller) => {
                let unlocked = self.mutex.call(mutex::Call::Unlock(caller.id));
                assert!(unlocked.code < 0 || self.condvar.wait_blocking(running(caller)));
                unlocked
            }
            Call::Signal => match self.condvar.signal() {
                SignalResult::Woke(thread) => woke(1, &thread),
                SignalResult::Empty => Answer::code(0),
            },
            Call::Broadcast => Answer::code(self.condvar.broadcast() as i32),
            Call::Mutex(call) => self.mutex.call(call),
        }
    }

    fn copy(&self) -> Self {
        CondvarAndMutex { condvar: CondVar { wait_q: self.condvar.wait_q.copy() }, mutex: self.mutex.copy() }
    }
}

pub fn signal_decision(decision: SignalAction) -> i32 {
    match decision {
        SignalAction::WakeOne => 1,
        SignalAction::Noop => 0,
    }
}

pub fn wait_decision(decision: WaitAction) -> i32 {
    match decision {
        WaitAction::Pend => 1,
        WaitAction::ReturnEagain => EAGAIN,
    }
}
