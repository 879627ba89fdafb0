//! The mutex. Thread 0 calls, and another that owns it is thread 99.

use super::check::{flag, number, words, Pair, Said};
use super::threads::{caller, queue};
use gale::error::{EBUSY, EINVAL, EOVERFLOW, EPERM};
use gale::mutex::{lock_decide, unlock_decide, LockDecision, LockResult, Mutex, UnlockDecisionKind, UnlockResult};
use gale::thread::ThreadId;

const CALLER: ThreadId = ThreadId { id: 0 };

fn mutex(count: u32, null: u32, current: u32, waiting: u32) -> Mutex {
    let owner = if current != 0 { CALLER } else { ThreadId { id: 99 } };
    Mutex { wait_q: queue(waiting), owner: (null == 0).then_some(owner), lock_count: count }
}

fn locked(what: &str, locks: u32) -> Said {
    Said::new(what, &[("locks", locks)])
}

fn lock() -> Pair {
    Pair {
        function: "mutex::lock_decide",
        args: vec![number("lock_count"), flag("owner_is_null"), flag("owner_is_current"), flag("is_no_wait")],
        allowed: |input| {
            let [count, null, ..] = words::<4>(input);
            (null != 0) == (count == 0) && count < u32::MAX
        },
        decide: |input| {
            let [count, null, current, no_wait] = words(input);
            match lock_decide(count, null != 0, current != 0, no_wait != 0) {
                LockDecision::Acquire => locked("takes it", 1),
                LockDecision::Reentrant => locked("takes it", count + 1),
                LockDecision::Pend => Said::new("waits", &[]),
                LockDecision::Busy => Said::code("refuses", EBUSY),
                LockDecision::Overflow => Said::code("refuses", EOVERFLOW),
            }
        },
        object: |input| {
            let [count, null, current, no_wait] = words(input);
            let mut mutex = mutex(count, null, current, 0);
            match mutex.try_lock(CALLER) {
                LockResult::Acquired => locked("takes it", mutex.lock_count),
                LockResult::WouldBlock if no_wait != 0 => Said::code("refuses", EBUSY),
                LockResult::WouldBlock if mutex.lock_blocking(caller()) => Said::new("waits", &[]),
                LockResult::WouldBlock => Said::new("does not wait", &[]),
            }
        },
    }
}

/// The decide function does not ask whether somebody waits: the last unlock is "unlocks", whoever has it then.
fn unlock() -> Pair {
    Pair {
        function: "mutex::unlock_decide",
        args: vec![number("lock_count"), flag("owner_is_null"), flag("owner_is_current"), flag("a waiter")],
        allowed: |input| {
            let [count, null, _, waiting] = words(input);
            (null != 0) == (count == 0) && (null == 0 || waiting == 0)
        },
        decide: |input| {
            let [count, null, current, _] = words(input);
            match unlock_decide(count, null != 0, current != 0) {
                UnlockDecisionKind::NotLocked => Said::code("refuses", EINVAL),
                UnlockDecisionKind::NotOwner => Said::code("refuses", EPERM),
                UnlockDecisionKind::Released => locked("releases", count - 1),
                UnlockDecisionKind::FullyUnlocked => Said::new("unlocks", &[]),
            }
        },
        object: |input| {
            let [count, null, current, waiting] = words(input);
            let mut mutex = mutex(count, null, current, waiting);
            match mutex.unlock(CALLER) {
                Err(code) => Said::code("refuses", code),
                Ok(UnlockResult::Released) => locked("releases", mutex.lock_count),
                Ok(_) => Said::new("unlocks", &[]),
            }
        },
    }
}

pub fn pairs() -> Vec<Pair> {
    vec![lock(), unlock()]
}
