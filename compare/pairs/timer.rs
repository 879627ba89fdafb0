//! The timer.

use super::check::{number, words, Pair, Said};
use gale::timer::{expire_decide, Timer};

fn expired(status: u32, is_periodic: bool) -> Said {
    Said::new("expires", &[("status", status), ("periodic", is_periodic.into())])
}

pub fn pairs() -> Vec<Pair> {
    vec![Pair {
        function: "timer::expire_decide",
        args: vec![number("status"), number("period")],
        allowed: |_| true,
        decide: |input| {
            let [status, period] = words(input);
            let result = expire_decide(status, period);
            expired(result.new_status, result.is_periodic)
        },
        object: |input| {
            let [status, period] = words(input);
            let mut timer = Timer { status, period, running: true };
            match timer.expire() {
                Ok(status) => expired(status, timer.period_get() > 0),
                Err(code) => Said::code("refuses", code),
            }
        },
    }]
}
