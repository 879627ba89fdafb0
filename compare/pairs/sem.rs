//! The semaphore.

use super::check::{flag, number, words, Pair, Said};
use super::threads::{caller, queue};
use gale::error::EBUSY;
use gale::sem::{give_decide, take_decide, GiveDecision, GiveResult, Semaphore, TakeDecision, TakeResult};

fn given(what: &str, count: u32) -> Said {
    Said::new(what, &[("count", count)])
}

fn give() -> Pair {
    Pair {
        function: "sem::give_decide",
        args: vec![number("count"), number("limit"), flag("has_waiter")],
        allowed: |input| {
            let [count, limit, _] = words(input);
            limit > 0 && count <= limit
        },
        decide: |input| {
            let [count, limit, waiter] = words(input);
            match give_decide(count, limit, waiter != 0) {
                GiveDecision::WakeThread => given("wakes", count),
                GiveDecision::Increment => given("adds one", count + 1),
                GiveDecision::Saturated => given("does nothing", count),
            }
        },
        object: |input| {
            let [count, limit, waiter] = words(input);
            let mut sem = Semaphore { wait_q: queue(waiter), count, limit };
            let what = match sem.give() {
                GiveResult::WokeThread(_) => "wakes",
                GiveResult::Incremented => "adds one",
                GiveResult::Saturated => "does nothing",
            };
            given(what, sem.count)
        },
    }
}

fn take() -> Pair {
    Pair {
        function: "sem::take_decide",
        args: vec![number("count"), flag("is_no_wait")],
        allowed: |_| true,
        decide: |input| {
            let [count, no_wait] = words(input);
            match take_decide(count, no_wait != 0) {
                TakeDecision::Acquired => given("takes", count - 1),
                TakeDecision::WouldBlock => Said::code("refuses", EBUSY),
                TakeDecision::Pend => Said::new("waits", &[]),
            }
        },
        object: |input| {
            let [count, no_wait] = words(input);
            let mut sem = Semaphore { wait_q: queue(0), count, limit: u32::MAX };
            match sem.try_take() {
                TakeResult::Acquired => given("takes", sem.count),
                _ if no_wait != 0 => Said::code("refuses", EBUSY),
                _ if sem.take_blocking(caller()) => Said::new("waits", &[]),
                _ => Said::new("does not wait", &[]),
            }
        },
    }
}

pub fn pairs() -> Vec<Pair> {
    vec![give(), take()]
}
