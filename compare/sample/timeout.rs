//! The timeout.

use super::{decisions, record_plain, sequences_of, test, Small};
use crate::rng::Rng;
use crate::upstream::timeout::{Call, DECIDES};
use gale::timeout::{Timeout, K_FOREVER_TICKS, K_NO_WAIT_TICKS};

const NUMBERS: [u64; 5] = [0, 1, 2, u64::MAX - 1, u64::MAX];

impl Small for Timeout {
    fn words(call: Call) -> (&'static str, Vec<u64>) {
        match call {
            Call::Init(current_tick) => ("timeout.init", vec![current_tick]),
            Call::Add(duration) => ("timeout.add", vec![duration]),
            Call::AddAbsolute(deadline) => ("timeout.add_absolute", vec![deadline]),
            Call::AddForever => ("timeout.add_forever", vec![]),
            Call::AddNoWait => ("timeout.add_no_wait", vec![]),
            Call::Abort => ("timeout.abort", vec![]),
            Call::Announce(ticks) => ("timeout.announce", vec![ticks]),
            Call::TimepointCalc(duration) => ("timeout.timepoint_calc", vec![duration]),
            Call::TimepointTimeout(timepoint) => ("timeout.timepoint_timeout", vec![timepoint]),
            Call::Remaining => ("timeout.remaining", vec![]),
            Call::Expires => ("timeout.expires", vec![]),
            Call::IsActive => ("timeout.is_active", vec![]),
            Call::IsForever => ("timeout.is_forever", vec![]),
            Call::IsNoWait => ("timeout.is_no_wait", vec![]),
            Call::Now => ("timeout.now", vec![]),
        }
    }
}

fn draw(timeout: &Timeout, rng: &mut Rng) -> Call {
    let now = timeout.current_tick;
    let few = rng.below(5).into();
    let (ticks, tick) =
        (rng.pick(&[few, few, few, u64::MAX - now]), rng.pick(&[now.saturating_add(few), few, u64::MAX]));
    let calls = [
        Call::Add(ticks),
        Call::AddAbsolute(tick),
        Call::AddForever,
        Call::AddNoWait,
        Call::Abort,
        Call::Announce(ticks),
        Call::TimepointCalc(ticks),
        Call::TimepointTimeout(tick),
    ];
    calls[rng.weighed(&[6, 4, 1, 2, 2, 8, 2, 2])]
}

pub fn tests(rng: &mut Rng) {
    test("timeout, constants");
    println!("K_FOREVER_TICKS = {K_FOREVER_TICKS}\nK_NO_WAIT_TICKS = {K_NO_WAIT_TICKS}");
    decisions("timeout", &DECIDES, &NUMBERS);
    let start = |rng: &mut Rng| {
        let now = rng.pick(&[0, 7, 1 << 32, 1 << 63, u64::MAX - 50, u64::MAX - 1]);
        (Timeout::init(now), Call::Init(now))
    };
    sequences_of("timeout", rng, start, draw, record_plain);
}
