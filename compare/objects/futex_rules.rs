//! The rules of the futex, for any memory contents.

use crate::memory::{
    any_caller, any_number, any_room, any_state, caller_refusal, joins, wakes_many, Change, Expected, Rules,
};
use crate::ours::futex::{Call, Futex};
use crate::ours::{Memory, EAGAIN, OK, WAITERS};
use crate::rng::Rng;

impl Rules<2> for Futex {
    fn is_malformed(&[_, len]: &[u32; 2]) -> bool {
        len as usize > WAITERS
    }

    fn looks(call: Call) -> bool {
        !matches!(call, Call::Init(_))
    }

    fn calls(memory: &Memory<2>, rng: &mut Rng) -> Vec<Call> {
        let other = any_number(rng);
        let expected = rng.pick(&[memory.head[0], memory.head[0], other]);
        vec![
            Call::Init(any_number(rng)),
            Call::Wait { expected, caller: any_caller(rng), state: any_state(rng) },
            Call::Wake { all: false, room: any_room(rng) },
            Call::Wake { all: true, room: any_room(rng) },
            Call::ValSet(any_number(rng)),
        ]
    }

    fn expected(memory: &Memory<2>, call: Call) -> Expected<2> {
        let [val, len] = memory.head;
        match call {
            Call::Init(val) => Expected::done(OK, Change::Head([val, 0])),
            Call::Wait { expected, caller, state } => match caller_refusal(caller, state) {
                Some(code) => Expected::refusal(code),
                None if val != expected => Expected::refusal(EAGAIN),
                None => joins(memory, caller),
            },
            Call::Wake { all, room } => {
                let count = if all { len } else { len.min(1) };
                wakes_many(memory, count as usize, OK, room)
            }
            Call::ValSet(val) => Expected::done(OK, Change::Head([val, len])),
        }
    }

    fn expected_numbers(head: &[u32; 2]) -> [i64; 2] {
        head.map(i64::from)
    }
}
