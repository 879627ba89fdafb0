//! The timer.

use super::{decisions, record_plain, sequences_of, Small, EDGES};
use crate::rng::Rng;
use crate::upstream::timer::{Call, DECIDES};
use gale::timer::Timer;

impl Small for Timer {
    fn words(call: Call) -> (&'static str, Vec<u32>) {
        match call {
            Call::Init(period) => ("timer.init", vec![period]),
            Call::Start => ("timer.start", vec![]),
            Call::Stop => ("timer.stop", vec![]),
            Call::Expire => ("timer.expire", vec![]),
            Call::StatusGet => ("timer.status_get", vec![]),
            Call::StatusPeek => ("timer.status_peek", vec![]),
            Call::PeriodGet => ("timer.period_get", vec![]),
            Call::IsRunning => ("timer.is_running", vec![]),
        }
    }
}

fn draw(_: &Timer, rng: &mut Rng) -> Call {
    let calls = [Call::Init(rng.pick(&EDGES)), Call::Start, Call::Stop, Call::Expire, Call::StatusGet];
    calls[rng.weighed(&[1, 2, 2, 15, 4])]
}

pub fn tests(rng: &mut Rng) {
    decisions("timer", &DECIDES, &EDGES);
    sequences_of("timer", rng, |rng| (Timer::init(0), Call::Init(rng.pick(&EDGES))), draw, record_plain);
}
