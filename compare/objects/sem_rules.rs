//! The rules of the semaphore, for any memory contents.

use crate::memory::{
    any_caller, any_number, any_room, any_state, caller_refusal, joins, wakes_first, wakes_many, Change, Expected,
    Rules,
};
use crate::ours::sem::{Call, Sem, WOKE};
use crate::ours::{Memory, EAGAIN, EBUSY, EINVAL, OK, WAITERS};
use crate::rng::Rng;

impl Rules<3> for Sem {
    fn is_malformed(&[count, limit, len]: &[u32; 3]) -> bool {
        limit == 0 || count > limit || len as usize > WAITERS || (len > 0 && count > 0)
    }

    fn looks(call: Call) -> bool {
        !matches!(call, Call::Init { .. })
    }

    fn calls(_: &Memory<3>, rng: &mut Rng) -> Vec<Call> {
        vec![
            Call::Init { count: any_number(rng), limit: any_number(rng) },
            Call::Give,
            Call::TryTake,
            Call::TakeBlocking(any_caller(rng), any_state(rng)),
            Call::Reset { room: any_room(rng) },
        ]
    }

    fn expected(memory: &Memory<3>, call: Call) -> Expected<3> {
        let [count, limit, len] = memory.head;
        let takes = || Expected::done(OK, Change::Head([count - 1, limit, len]));
        match call {
            Call::Init { count, limit } if limit == 0 || count > limit => Expected::refusal(EINVAL),
            Call::Init { count, limit } => Expected::done(OK, Change::Head([count, limit, 0])),
            Call::Give if len > 0 => wakes_first(memory, WOKE, OK),
            Call::Give if count < limit => Expected::done(1, Change::Head([count + 1, limit, len])),
            Call::Give => Expected::done(2, Change::Nothing),
            Call::TryTake if count > 0 => takes(),
            Call::TryTake => Expected::refusal(EBUSY),
            Call::TakeBlocking(caller, state) => match caller_refusal(caller, state) {
                Some(code) => Expected::refusal(code),
                None if count > 0 => takes(),
                None => joins(memory, caller),
            },
            // Where somebody waits, the count is 0 already.
            Call::Reset { room } if len > 0 => wakes_many(memory, len as usize, EAGAIN, room),
            Call::Reset { .. } => Expected::done(0, Change::Head([0, limit, 0])),
        }
    }

    fn expected_numbers(head: &[u32; 3]) -> [i64; 3] {
        head.map(i64::from)
    }
}
