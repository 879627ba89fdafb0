//! The mutex of Gale's Rust.

use super::thread::{running, woke};
use super::wait_queue::{self, cannot_wait};
use super::Upstream;
use crate::answer::{Answer, Caller};
use crate::rng::Rng;
use gale::error::{EBUSY, EINVAL, EOVERFLOW, EPERM};
use gale::mutex::{LockDecision, LockResult, Mutex, UnlockDecisionKind, UnlockResult};
use gale::thread::ThreadId;

#[derive(Clone, Copy, Debug)]
pub enum Call {
    TryLock(u32),
    LockBlocking(Caller),
    Unlock(u32),
}

/// Why upstream's precondition forbids a call.
pub enum Apart {
    /// A wait for a mutex that is free, or the caller's own.
    Available,
    /// The owner has as many locks as can be counted. This forbids a try_lock by any thread.
    Limit,
    Queue(wait_queue::Apart),
}

pub fn is_owner(mutex: &Mutex, id: u32) -> bool {
    mutex.owner.is_some_and(|owner| owner.id == id)
}

/// Mostly the owner, so that few calls are refused.
pub fn likely_owner(mutex: &Mutex, threads: &[Caller], rng: &mut Rng) -> Caller {
    let any = rng.pick(threads);
    let owner = threads.iter().find(|caller| is_owner(mutex, caller.id));
    owner.filter(|_| rng.below(8) > 0).copied().unwrap_or(any)
}

impl Upstream for Mutex {
    type Call = Call;
    type Apart = Apart;

    fn apart(&self, call: Call) -> Option<Apart> {
        match call {
            Call::TryLock(_) if self.lock_count == u32::MAX => Some(Apart::Limit),
            Call::LockBlocking(caller) if is_owner(self, caller.id) && self.lock_count == u32::MAX => {
                Some(Apart::Limit)
            }
            Call::LockBlocking(caller) if self.owner.is_none() || is_owner(self, caller.id) => Some(Apart::Available),
            Call::LockBlocking(caller) => cannot_wait(&self.wait_q, caller).map(Apart::Queue),
            Call::TryLock(_) | Call::Unlock(_) => None,
        }
    }

    fn call(&mut self, call: Call) -> Answer {
        match call {
            Call::TryLock(id) => Answer::code(match self.try_lock(ThreadId { id }) {
                LockResult::Acquired => 0,
                LockResult::WouldBlock => EBUSY,
            }),
            Call::LockBlocking(caller) => {
                assert!(self.lock_blocking(running(caller)));
                Answer::code(1)
            }
            Call::Unlock(id) => match self.unlock(ThreadId { id }) {
                Ok(UnlockResult::Released) => Answer::code(0),
                Ok(UnlockResult::Unlocked) => Answer::code(1),
                Ok(UnlockResult::Transferred(thread)) => woke(2, &thread),
                Err(code) => Answer::code(code),
            },
        }
    }

    fn copy(&self) -> Self {
        Mutex { wait_q: self.wait_q.copy(), ..*self }
    }
}

pub fn lock_decision(decision: LockDecision) -> i32 {
    match decision {
        LockDecision::Acquire => 0,
        LockDecision::Pend => 1,
        LockDecision::Reentrant => 2,
        LockDecision::Busy => EBUSY,
        LockDecision::Overflow => EOVERFLOW,
    }
}

pub fn unlock_decision(decision: UnlockDecisionKind) -> i32 {
    match decision {
        UnlockDecisionKind::Released => 0,
        UnlockDecisionKind::FullyUnlocked => 1,
        UnlockDecisionKind::NotOwner => EPERM,
        UnlockDecisionKind::NotLocked => EINVAL,
    }
}
