//! The timeout. A deadline of 2^64 - 1 means never, one of 0 at once.

use super::check::{flag, ticks, Pair, Said};
use gale::error::{EINVAL, OK};
use gale::timeout::{abort_decide, add_decide, announce_decide, Timeout, K_FOREVER_TICKS, K_NO_WAIT_TICKS};

fn add() -> Pair {
    Pair {
        function: "timeout::add_decide",
        args: vec![ticks("current_tick"), ticks("duration")],
        allowed: |input| input[0] < K_FOREVER_TICKS,
        decide: |input| match add_decide(input[0], input[1]) {
            Ok(deadline) => Said::long("adds", &[("deadline", deadline)]),
            Err(code) => Said::code("refuses", code),
        },
        object: |input| {
            let mut timeout = Timeout { deadline: 0, active: false, current_tick: input[0] };
            match timeout.add(input[1]) {
                Ok(_) => Said::long("adds", &[("deadline", timeout.deadline)]),
                Err(code) => Said::code("refuses", code),
            }
        },
    }
}

fn abort() -> Pair {
    Pair {
        function: "timeout::abort_decide",
        args: vec![flag("is_active")],
        allowed: |_| true,
        decide: |input| {
            if abort_decide(input[0] != 0) {
                Said::new("aborts", &[])
            } else {
                Said::code("refuses", EINVAL)
            }
        },
        object: |input| match (Timeout { deadline: 5, active: input[0] != 0, current_tick: 0 }).abort() {
            OK => Said::new("aborts", &[]),
            code => Said::code("refuses", code),
        },
    }
}

fn announced(fired: bool, tick: u64) -> Said {
    Said::long(if fired { "fires" } else { "does not fire" }, &[("tick", tick)])
}

fn announce() -> Pair {
    Pair {
        function: "timeout::announce_decide",
        args: vec![ticks("current_tick"), ticks("ticks"), ticks("deadline"), flag("active")],
        allowed: |input| {
            let [tick, _, deadline, active] = [input[0], input[1], input[2], input[3]];
            tick < K_FOREVER_TICKS && (active == 0 || deadline >= tick || deadline == K_NO_WAIT_TICKS)
        },
        decide: |input| match announce_decide(input[0], input[1], input[2], input[3] != 0) {
            Ok((tick, fired)) => announced(fired, tick),
            Err(code) => Said::code("refuses", code),
        },
        object: |input| {
            let mut timeout = Timeout { deadline: input[2], active: input[3] != 0, current_tick: input[0] };
            match timeout.announce(input[1]) {
                Ok(fired) => announced(fired, timeout.current_tick),
                Err(code) => Said::code("refuses", code),
            }
        },
    }
}

pub fn pairs() -> Vec<Pair> {
    vec![add(), abort(), announce()]
}
