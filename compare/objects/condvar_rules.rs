//! The rules of the condition variable, for any memory contents. A wait has a second memory, that of its mutex.

use super::mutex_rules::{likely_id, unlocks};
use crate::answer::{Answer, Caller};
use crate::memory::{
    any_caller, any_memory, any_room, any_state, caller_refusal, joins, wakes_first, wakes_many, wrong_part, Change,
    Expected, Rules,
};
use crate::ours::condvar::{self, wait, Condvar};
use crate::ours::mutex::{Mutex, RELEASED};
use crate::ours::{Library, Memory, EDEADLK, EINVAL, OK, WAITERS};
use crate::rng::Rng;

#[derive(Clone, Copy, Debug)]
pub enum Call {
    Alone(condvar::Call),
    Wait { mutex: Memory<4>, caller: Caller, state: u32 },
}

/// A condition variable that brings a mutex to each wait.
pub struct WithMutex;

/// What a wait does to the mutex, if nothing else is refused.
fn gives_back(mutex: &Memory<4>, caller: Caller, state: u32) -> Expected<4> {
    if Mutex::is_malformed(&mutex.head) {
        return Expected::refusal(EINVAL);
    }
    if let Some(code) = caller_refusal(caller, state) {
        return Expected::refusal(code);
    }
    let unlocked = unlocks(mutex, caller.id);
    if unlocked.answer.code == RELEASED {
        return Expected::refusal(EDEADLK);
    }
    unlocked
}

/// What a wait does to both: the mutex's refusals come first, and both change or neither.
fn waits(memory: &Memory<1>, mutex: &Memory<4>, caller: Caller, state: u32) -> (Expected<1>, Change<4>) {
    let given_back = gives_back(mutex, caller, state);
    if given_back.answer.code < 0 {
        return (Expected::refusal(given_back.answer.code), Change::Nothing);
    }
    let joined = if WithMutex::is_malformed(&memory.head) { Expected::refusal(EINVAL) } else { joins(memory, caller) };
    if joined.answer.code < 0 {
        return (joined, Change::Nothing);
    }
    (Expected { answer: given_back.answer, ..joined }, given_back.change)
}

impl Library<1> for WithMutex {
    type Call = Call;
    type Numbers = [i64; 2];

    fn ask(memory: &mut Memory<1>, call: Call) -> Result<Answer, String> {
        let (mutex, caller, state) = match call {
            Call::Alone(call) => return Condvar::ask(memory, call),
            Call::Wait { mutex, caller, state } => (mutex, caller, state),
        };
        let (_, change) = waits(memory, &mutex, caller, state);
        let mut after = mutex;
        let answer = wait(memory, &mut after, caller, state)?;
        if let Some(part) = wrong_part::<Mutex, 4>(&mutex, &after, &change) {
            return Err(format!("answers {} and leaves wrong {part} of the mutex:\n  {after:?}", answer.code));
        }
        Ok(answer)
    }

    fn numbers(memory: &Memory<1>) -> [i64; 2] {
        Condvar::numbers(memory)
    }

    fn audit(memory: &Memory<1>) -> bool {
        Condvar::audit(memory)
    }
}

impl Rules<1> for WithMutex {
    fn is_malformed(head: &[u32; 1]) -> bool {
        head[0] as usize > WAITERS
    }

    fn looks(call: Call) -> bool {
        matches!(call, Call::Alone(condvar::Call::Signal | condvar::Call::Broadcast { .. }))
    }

    fn calls(_: &Memory<1>, rng: &mut Rng) -> Vec<Call> {
        let mut mutex: Memory<4> = any_memory(rng);
        // One lock, mostly: with more, the wait is refused.
        mutex.head[2] = rng.pick(&[1, 1, 1, mutex.head[2]]);
        let caller = Caller { id: likely_id(&mutex, rng), ..any_caller(rng) };
        vec![
            Call::Alone(condvar::Call::Init),
            Call::Alone(condvar::Call::Signal),
            Call::Alone(condvar::Call::Broadcast { room: any_room(rng) }),
            Call::Wait { mutex, caller, state: any_state(rng) },
        ]
    }

    fn expected(memory: &Memory<1>, call: Call) -> Expected<1> {
        match call {
            Call::Alone(condvar::Call::Init) => Expected::done(OK, Change::Head([0])),
            Call::Alone(condvar::Call::Signal) => wakes_first(memory, 1, OK),
            Call::Alone(condvar::Call::Broadcast { room }) => wakes_many(memory, memory.len() as usize, OK, room),
            Call::Wait { mutex, caller, state } => waits(memory, &mutex, caller, state).0,
        }
    }

    fn expected_numbers(head: &[u32; 1]) -> [i64; 2] {
        [head[0].into(), (head[0] > 0).into()]
    }
}
