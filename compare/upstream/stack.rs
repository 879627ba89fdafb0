//! The stack of Gale's Rust.

use super::{remade, Counts};
use crate::decide::Arg::{Flag, Number};
use crate::decide::{words, Apart, Decide, Decision};
use gale::error::{EBUSY, EINVAL, ENOMEM};
use gale::stack::{pop_decide, push_decide, PopDecision, PushDecision, Stack};

#[derive(Clone, Copy, Debug)]
pub enum Call {
    Init(u32),
    Push,
    Pop,
}

impl Counts for Stack {
    type Call = Call;

    fn call(&mut self, call: Call) -> i64 {
        match call {
            Call::Init(capacity) => remade(self, Stack::init(capacity)),
            Call::Push => self.push().into(),
            Call::Pop => self.pop().into(),
        }
    }

    fn numbers(&self) -> Vec<i64> {
        let [capacity, used, free] = [self.capacity(), self.num_used(), self.num_free()].map(i64::from);
        vec![capacity, used, free, self.is_empty().into(), self.is_full().into()]
    }

    fn copy(&self) -> Self {
        *self
    }
}

const MALFORMED: &str = "push_decide, capacity 0 or a count above it: -22";
const WAITER_AND_WORDS: &str = "push_decide, somebody waits while there are words: Gale hands over (1), ours -22";
pub const APART: [&str; 2] = [MALFORMED, WAITER_AND_WORDS];

pub const DECIDES: [Decide; 2] = [
    Decide {
        name: "stack.push_decide",
        args: &[Number, Number, Flag],
        apart: |input| {
            let [count, capacity, waiter] = words(input);
            let malformed = (capacity == 0 || count > capacity).then(|| Apart::outside(MALFORMED, EINVAL));
            let differs = || Apart::differs(WAITER_AND_WORDS, &[1], EINVAL);
            malformed.or_else(|| (waiter != 0 && count > 0).then(differs))
        },
        gale: |input| {
            let [count, capacity, waiter] = words(input);
            let result = push_decide(count, capacity, waiter != 0);
            let code = match result.decision {
                PushDecision::Store => 0,
                PushDecision::WakeWaiter => 1,
                PushDecision::Full => return Decision::refusal(ENOMEM),
            };
            Decision::new(code, &[result.new_count])
        },
    },
    Decide {
        name: "stack.pop_decide",
        args: &[Number, Flag],
        apart: |_| None,
        gale: |input| {
            let [count, no_wait] = words(input);
            let result = pop_decide(count, no_wait != 0);
            let code = match result.decision {
                PopDecision::Pop => 0,
                PopDecision::Pend => 1,
                PopDecision::Busy => return Decision::refusal(EBUSY),
            };
            Decision::new(code, &[result.new_count])
        },
    },
];
