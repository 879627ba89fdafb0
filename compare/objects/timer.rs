//! The timer.

use crate::decisions::compare_decides;
use crate::memory::any_number;
use crate::ours::timer::{self as ours, Timer};
use crate::plain::{compare_any, compare_limits, Both, Object};
use crate::report::Report;
use crate::rng::Rng;
use crate::upstream::timer::{Call, DECIDES, SATURATED};
use crate::walk::{all_sequences, random_sequences};
use gale::timer::Timer as Gale;

impl Object<3> for Timer {
    type Gale = Gale;

    fn gale([status, period, running]: [u32; 3]) -> Gale {
        Gale { status, period, running: running != 0 }
    }

    fn head(gale: &Gale) -> [u32; 3] {
        [gale.status, gale.period, gale.running.into()]
    }

    fn calls(_: &Gale) -> Vec<Call> {
        calls_of(&[0, 1, u32::MAX])
    }

    fn draw(_: &Gale, rng: &mut Rng) -> Call {
        let calls = [Call::Init(any_word(rng)), Call::Start, Call::Stop, Call::Expire, Call::StatusGet];
        calls[rng.weighed(&[1, 2, 2, 90, 3])]
    }
}

/// All calls, with these periods.
pub fn calls_of(periods: &[u32]) -> Vec<Call> {
    let inits = periods.iter().map(|&period| Call::Init(period));
    inits.chain([Call::Start, Call::Stop, Call::Expire, Call::StatusGet]).collect()
}

/// Statuses at both ends, periodic or not, running or not.
fn small_starts() -> Vec<Both<Timer, 3>> {
    let heads = [0, u32::MAX - 2].into_iter().flat_map(|status| [0, 5].map(|period| [status, period]));
    let heads = heads.flat_map(|[status, period]| [0, 1].map(|running| [status, period, running]));
    heads.map(Both::new).collect()
}

/// Small, large or any.
pub fn any_word(rng: &mut Rng) -> u32 {
    let (number, any) = (any_number(rng), rng.number());
    rng.pick(&[number, any])
}

/// The status is mostly such that it reaches the largest.
fn random(rng: &mut Rng) -> Both<Timer, 3> {
    let (large, any) = (u32::MAX - rng.below(100), any_word(rng));
    Both::new([rng.pick(&[large, large, any]), any_word(rng), any_word(rng)])
}

pub fn compare(report: &mut Report, seed: u64) {
    let [expire] = DECIDES;
    compare_decides(report, "timer: decide functions", &[SATURATED], [(expire, ours::expire)]);
    report.run("timer: all sequences of 7", &[], |tally| all_sequences(&small_starts(), 7, tally));
    report.run("timer: 100,000 random sequences of 200", &[], |tally| {
        random_sequences(100_000, 200, &mut Rng::new(seed), random, tally)
    });
    compare_any::<Timer, 3>(report, "timer: any memory", &[], seed);
    compare_limits::<Timer, 3>(report, "timer: at the limits", &[]);
}
