//! The futex.

use super::check::{flag, number, waiting, words, Pair, Said};
use super::threads::{caller, queue};
use gale::error::EAGAIN;
use gale::futex::{wait_decide, wake_decide, Futex, WaitDecision, WaitResult};

fn wait() -> Pair {
    Pair {
        function: "futex::wait_decide",
        args: vec![number("val"), number("expected"), waiting("waiting")],
        allowed: |input| input[2] < 64,
        decide: |input| {
            let [val, expected, _] = words(input);
            match wait_decide(val, expected) {
                WaitDecision::Block => Said::new("waits", &[]),
                WaitDecision::Mismatch => Said::code("refuses", EAGAIN),
            }
        },
        object: |input| {
            let [val, expected, waiting] = words(input);
            let mut futex = Futex { val, wait_q: queue(waiting) };
            match futex.wait(expected, caller()) {
                WaitResult::Blocked if futex.wait_q.len > waiting => Said::new("waits", &[]),
                WaitResult::Blocked => Said::new("says that it waits, and does not", &[]),
                WaitResult::Mismatch => Said::code("refuses", EAGAIN),
            }
        },
    }
}

fn wake() -> Pair {
    Pair {
        function: "futex::wake_decide",
        args: vec![waiting("num_waiters"), flag("wake_all")],
        allowed: |input| input[0] <= 64,
        decide: |input| {
            let [waiting, all] = words(input);
            let decision = wake_decide(waiting, all != 0);
            Said::new("wakes", &[("number", decision.woken), ("remaining", decision.remaining)])
        },
        object: |input| {
            let [waiting, all] = words(input);
            let mut futex = Futex { val: 0, wait_q: queue(waiting) };
            let woken = futex.wake(all != 0).woken;
            Said::new("wakes", &[("number", woken), ("remaining", futex.num_waiters())])
        },
    }
}

pub fn pairs() -> Vec<Pair> {
    vec![wait(), wake()]
}
