//! The rules of the mutex, for any memory contents.

use crate::answer::{Answer, Caller};
use crate::memory::{any_caller, any_id, any_state, caller_refusal, id_of, is_whole, joins, Change, Expected, Rules};
use crate::ours::mutex::{Call, Mutex, RELEASED, TRANSFERRED, UNLOCKED};
use crate::ours::{Memory, EBUSY, EINVAL, ENOENT, EOVERFLOW, EPERM, OK, WAITERS};
use crate::rng::Rng;

/// One lock more, for a thread that need not wait.
fn locks(&[owned, owner, count, len]: &[u32; 4], id: u32) -> Expected<4> {
    if owned == 0 {
        Expected::done(OK, Change::Head([1, id, 1, len]))
    } else if owner != id {
        Expected::refusal(EBUSY)
    } else if count == u32::MAX {
        Expected::refusal(EOVERFLOW)
    } else {
        Expected::done(OK, Change::Head([1, id, count + 1, len]))
    }
}

pub fn unlocks(memory: &Memory<4>, id: u32) -> Expected<4> {
    let [owned, owner, count, len] = memory.head;
    if owned == 0 {
        return Expected::refusal(EINVAL);
    }
    if owner != id {
        return Expected::refusal(EPERM);
    }
    if count > 1 {
        return Expected::done(RELEASED, Change::Head([1, id, count - 1, len]));
    }
    match memory.waiting().last() {
        None => Expected::done(UNLOCKED, Change::Head([0, 0, 0, 0])),
        Some(&first) => Expected {
            answer: Answer::woke(TRANSFERRED, id_of(first), OK),
            change: Change::Head([1, id_of(first), 1, len - 1]),
        },
    }
}

/// Mostly the owner's: a call by any other is refused.
pub fn likely_id(memory: &Memory<4>, rng: &mut Rng) -> u32 {
    let any = any_id(rng);
    rng.pick(&[memory.head[1], memory.head[1], any])
}

impl Rules<4> for Mutex {
    fn is_malformed(&[owned, _, count, len]: &[u32; 4]) -> bool {
        (owned == 0) != (count == 0) || (owned == 0 && len > 0) || len as usize > WAITERS
    }

    fn looks(call: Call) -> bool {
        !matches!(call, Call::Init)
    }

    fn calls(memory: &Memory<4>, rng: &mut Rng) -> Vec<Call> {
        let waits = any_caller(rng);
        let locks = Caller { id: likely_id(memory, rng), ..any_caller(rng) };
        vec![
            Call::Init,
            Call::TryLock(likely_id(memory, rng)),
            Call::LockBlocking(locks, any_state(rng)),
            Call::LockBlocking(waits, any_state(rng)),
            Call::Unlock(likely_id(memory, rng)),
        ]
    }

    fn expected(memory: &Memory<4>, call: Call) -> Expected<4> {
        let [owned, owner, ..] = memory.head;
        match call {
            Call::Init => Expected::done(OK, Change::Head([0; 4])),
            Call::TryLock(id) => locks(&memory.head, id),
            Call::LockBlocking(caller, state) => match caller_refusal(caller, state) {
                Some(code) => Expected::refusal(code),
                None if owned == 0 || owner == caller.id => locks(&memory.head, caller.id),
                None => joins(memory, caller),
            },
            Call::Unlock(id) => unlocks(memory, id),
        }
    }

    fn expected_numbers(&[owned, owner, count, len]: &[u32; 4]) -> [i64; 4] {
        let owner = if owned == 0 { ENOENT.into() } else { owner.into() };
        [(owned != 0).into(), count.into(), len.into(), owner]
    }

    /// Any number but 0 says that somebody owns it. Of a free one, the owner's word means nothing.
    fn meaning([owned, owner, count, len]: [u32; 4]) -> [u32; 4] {
        [(owned != 0).into(), if owned == 0 { 0 } else { owner }, count, len]
    }

    fn is_whole(memory: &Memory<4>) -> bool {
        is_whole(memory.waiting()) && memory.waiting().iter().all(|&entry| id_of(entry) != memory.head[1])
    }
}
