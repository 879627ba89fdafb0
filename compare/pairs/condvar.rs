//! The condition variable. It has no method for a wait that does not wait.

use super::check::{flag, unset, waiting, words, Pair, Said};
use super::threads::{caller, queue};
use gale::condvar::{broadcast_decide, signal_decide, wait_decide, CondVar, SignalAction, SignalResult, WaitAction};
use gale::error::EAGAIN;

fn condvar(waiting: u32) -> CondVar {
    CondVar { wait_q: queue(waiting) }
}

fn signal() -> Pair {
    Pair {
        function: "condvar::signal_decide",
        args: vec![flag("has_waiter")],
        allowed: |_| true,
        decide: |input| match signal_decide(input[0] != 0) {
            SignalAction::WakeOne => Said::new("wakes one", &[]),
            SignalAction::Noop => Said::new("does nothing", &[]),
        },
        object: |input| match condvar(words::<1>(input)[0]).signal() {
            SignalResult::Woke(_) => Said::new("wakes one", &[]),
            SignalResult::Empty => Said::new("does nothing", &[]),
        },
    }
}

fn broadcast() -> Pair {
    Pair {
        function: "condvar::broadcast_decide",
        args: vec![waiting("num_waiters")],
        allowed: |input| input[0] <= 64,
        decide: |input| Said::new("wakes", &[("number", broadcast_decide(words::<1>(input)[0]))]),
        object: |input| Said::new("wakes", &[("number", condvar(words::<1>(input)[0]).broadcast())]),
    }
}

fn wait() -> Pair {
    Pair {
        function: "condvar::wait_decide",
        args: vec![unset("is_no_wait"), waiting("waiting")],
        allowed: |input| input[1] < 64,
        decide: |input| match wait_decide(input[0] != 0) {
            WaitAction::Pend => Said::new("waits", &[]),
            WaitAction::ReturnEagain => Said::code("refuses", EAGAIN),
        },
        object: |input| match condvar(words::<2>(input)[1]).wait_blocking(caller()) {
            true => Said::new("waits", &[]),
            false => Said::new("does not wait", &[]),
        },
    }
}

pub fn pairs() -> Vec<Pair> {
    vec![signal(), broadcast(), wait()]
}
