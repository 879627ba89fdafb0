//! The rules of the wait queue, for any memory contents.

use crate::memory::{
    any_caller, any_id, any_room, any_state, caller_refusal, id_of, joins, wakes_first, wakes_many, Change, Expected,
    Rules,
};
use crate::ours::wait_queue::{Call, Queue};
use crate::ours::{Memory, ENOENT, OK, WAITERS};
use crate::rng::Rng;

impl Rules<1> for Queue {
    fn is_malformed(head: &[u32; 1]) -> bool {
        head[0] as usize > WAITERS
    }

    fn looks(_: Call) -> bool {
        true
    }

    fn calls(_: &Memory<1>, rng: &mut Rng) -> Vec<Call> {
        vec![
            Call::Pend(any_caller(rng), any_state(rng)),
            Call::UnpendFirst(rng.number() as i32),
            Call::UnpendAll { result: rng.number() as i32, room: any_room(rng) },
            Call::Remove(any_id(rng)),
        ]
    }

    fn expected(memory: &Memory<1>, call: Call) -> Expected<1> {
        match call {
            Call::Pend(caller, state) => {
                caller_refusal(caller, state).map_or_else(|| joins(memory, caller), Expected::refusal)
            }
            Call::UnpendFirst(result) => wakes_first(memory, 1, result),
            Call::UnpendAll { result, room } => wakes_many(memory, memory.len() as usize, result, room),
            Call::Remove(id) if memory.waiting().iter().any(|&entry| id_of(entry) == id) => {
                Expected::done(OK, Change::Removed(id))
            }
            Call::Remove(_) => Expected::refusal(ENOENT),
        }
    }

    fn expected_numbers(head: &[u32; 1]) -> [i64; 2] {
        [head[0].into(), (head[0] == 0).into()]
    }
}
