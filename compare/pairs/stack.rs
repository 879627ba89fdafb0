//! The stack. The object knows of no waiters: where one waits, it is pushed to, and then the waiter pops.

use super::check::{flag, number, words, Pair, Said};
use gale::error::{EBUSY, ENOMEM, OK};
use gale::stack::{pop_decide, push_decide, PopDecision, PushDecision, Stack};

fn left(what: &str, count: u32) -> Said {
    Said::new(what, &[("count", count)])
}

fn push() -> Pair {
    Pair {
        function: "stack::push_decide",
        args: vec![number("count"), number("capacity"), flag("has_waiter")],
        allowed: |input| {
            let [count, capacity, _] = words(input);
            capacity > 0 && count <= capacity
        },
        decide: |input| {
            let [count, capacity, waiter] = words(input);
            let result = push_decide(count, capacity, waiter != 0);
            match result.decision {
                PushDecision::Store => left("stores", result.new_count),
                PushDecision::WakeWaiter => left("hands over", result.new_count),
                PushDecision::Full => left(&format!("refuses, {ENOMEM}"), result.new_count),
            }
        },
        object: |input| {
            let [count, capacity, waiter] = words(input);
            let mut stack = Stack { capacity, count };
            match stack.push() {
                OK if waiter != 0 && stack.pop() == OK => left("hands over", stack.count),
                OK => left("stores", stack.count),
                code => left(&format!("refuses, {code}"), stack.count),
            }
        },
    }
}

fn pop() -> Pair {
    Pair {
        function: "stack::pop_decide",
        args: vec![number("count"), flag("is_no_wait")],
        allowed: |_| true,
        decide: |input| {
            let [count, no_wait] = words(input);
            let result = pop_decide(count, no_wait != 0);
            match result.decision {
                PopDecision::Pop => left("pops", result.new_count),
                PopDecision::Pend => left("waits", result.new_count),
                PopDecision::Busy => left(&format!("refuses, {EBUSY}"), result.new_count),
            }
        },
        object: |input| {
            let [count, no_wait] = words(input);
            let mut stack = Stack { capacity: u32::MAX, count };
            match stack.pop() {
                OK => left("pops", stack.count),
                EBUSY if no_wait == 0 => left("waits", stack.count),
                code => left(&format!("refuses, {code}"), stack.count),
            }
        },
    }
}

pub fn pairs() -> Vec<Pair> {
    vec![push(), pop()]
}
