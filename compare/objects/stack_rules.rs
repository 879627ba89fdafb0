//! The rules of the stack, for any memory contents.

use crate::lent::{Expected, Moved};
use crate::lent_memory::{up_to, Rules};
use crate::memory::any_number;
use crate::ours::lent::Memory;
use crate::ours::stack::Stack;
use crate::ours::{EBUSY, EINVAL, ENOMEM};
use crate::rng::Rng;
use crate::upstream::stack::Call;

impl Rules<2> for Stack {
    fn is_malformed(memory: &impl Memory<u64, 2>) -> bool {
        let [capacity, count] = memory.head();
        capacity == 0 || count > capacity || memory.len() < capacity.into()
    }

    fn makes(call: Call) -> bool {
        matches!(call, Call::Init(_))
    }

    fn expected(memory: &impl Memory<u64, 2>, call: Call, brought: &[u64]) -> Expected<u64, 2> {
        let [capacity, count] = memory.head();
        match call {
            Call::Init(capacity) if capacity == 0 || memory.len() < capacity.into() => Expected::refusal(EINVAL.into()),
            Call::Init(capacity) => Expected::done(0, Moved::none(), [capacity, 0]),
            Call::Push if count == capacity => Expected::refusal(ENOMEM.into()),
            Call::Push => Expected::done(0, Moved::written(vec![(count.into(), brought[0])]), [capacity, count + 1]),
            Call::Pop if count == 0 => Expected::refusal(EBUSY.into()),
            Call::Pop => {
                let top = memory.cell((count - 1).into());
                Expected::done(0, Moved::out(vec![top]), [capacity, count - 1])
            }
        }
    }

    fn any_head(len: u32, rng: &mut Rng) -> [u32; 2] {
        let capacity = up_to(len, rng);
        [capacity, up_to(capacity, rng)]
    }

    fn any_calls(_: [u32; 2], rng: &mut Rng) -> Vec<Call> {
        vec![Call::Init(any_number(rng)), Call::Push, Call::Pop]
    }

    fn limits() -> Vec<([u32; 2], u64)> {
        let capacities = [1 << 31, (1 << 31) + 1, u32::MAX - 1, u32::MAX];
        let counts = |capacity| [0, 1, 2, (1 << 31) - 1, 1 << 31, capacity - 2, capacity - 1, capacity];
        let all = capacities.into_iter().flat_map(|capacity| counts(capacity).map(|count| [capacity, count]));
        all.map(|head| (head, head[0].into())).collect()
    }

    fn limit_calls([capacity, _]: [u32; 2]) -> Vec<Call> {
        vec![Call::Init(capacity), Call::Init(u32::MAX), Call::Push, Call::Pop]
    }
}
