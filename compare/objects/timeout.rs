//! The timeout.

use crate::decisions::compare_decides;
use crate::lent_memory::MALFORMED;
use crate::ours::timeout::{self as ours, Timeout};
use crate::plain::{compare_any, compare_limits, Both, Object};
use crate::report::Report;
use crate::rng::Rng;
use crate::upstream::timeout::{Call, ACTIVE, BEHIND, DECIDES, NEW_ONE, NO_TICK};
use crate::walk::{all_sequences, random_sequences};
use gale::timeout::Timeout as Gale;

/// Each call that takes a number, with each of these, and the others.
pub fn calls_of(numbers: &[u64]) -> Vec<Call> {
    let kinds = [Call::Init, Call::Add, Call::AddAbsolute, Call::Announce, Call::TimepointCalc, Call::TimepointTimeout];
    let all = numbers.iter().flat_map(|&number| kinds.map(|kind| kind(number)));
    all.chain([Call::AddForever, Call::AddNoWait, Call::Abort]).collect()
}

/// How many ticks later there is no tick any more.
fn left(now: u64) -> u64 {
    u64::MAX - now
}

/// A number about these of a timeout, a small one or any.
pub fn any_ticks(deadline: u64, now: u64, rng: &mut Rng) -> u64 {
    let base = rng.pick(&[0, 0, 0, deadline, now, left(now), deadline.wrapping_sub(now), 1 << 32, 1 << 63]);
    let near = base.wrapping_add(rng.below(8).into()).wrapping_sub(rng.below(3).into());
    let any = rng.word() >> rng.below(64);
    rng.pick(&[near, near, near, near, any, u64::MAX])
}

impl Object<3> for Timeout {
    type Gale = Gale;

    fn gale([deadline, active, current_tick]: [u64; 3]) -> Gale {
        Gale { deadline, active: active != 0, current_tick }
    }

    fn head(gale: &Gale) -> [u64; 3] {
        [gale.deadline, gale.active.into(), gale.current_tick]
    }

    fn calls(start: &Gale) -> Vec<Call> {
        let now = start.current_tick;
        let ends = [left(now) - 1, left(now)];
        let adds = [0, 3].into_iter().chain(ends).map(Call::Add);
        let absolutes = [0, now + 1, u64::MAX - 1, u64::MAX].map(Call::AddAbsolute);
        let announces = [0, 1, 3].into_iter().chain(ends).map(Call::Announce);
        let others = [
            Call::Init(1),
            Call::Init(u64::MAX),
            Call::AddForever,
            Call::AddNoWait,
            Call::Abort,
            Call::TimepointCalc(3),
            Call::TimepointTimeout(now + 1),
        ];
        adds.chain(absolutes).chain(announces).chain(others).collect()
    }

    /// The clock mostly moves slowly, so that there is time for others before it is at its end.
    fn draw(gale: &Gale, rng: &mut Rng) -> Call {
        let ticks = any_ticks(gale.deadline, gale.current_tick, rng);
        let few = rng.below(6).into();
        let calls = [
            Call::Init(ticks),
            Call::Add(ticks),
            Call::Add(few),
            Call::AddAbsolute(ticks),
            Call::AddForever,
            Call::AddNoWait,
            Call::Abort,
            Call::Announce(ticks),
            Call::Announce(few),
            Call::TimepointCalc(ticks),
            Call::TimepointTimeout(ticks),
        ];
        calls[rng.weighed(&[3, 10, 20, 10, 3, 5, 8, 4, 30, 5, 5])]
    }
}

/// A clock at its start, and at its end.
fn small_starts() -> Vec<Both<Timeout, 3>> {
    [0, 2, u32::MAX.into(), u64::MAX - 5, u64::MAX - 1].map(|now| Both::new([0, 0, now])).into()
}

fn random(rng: &mut Rng) -> Both<Timeout, 3> {
    let (any, late) = (rng.word() >> rng.below(64), u64::MAX - 1 - u64::from(rng.below(200)));
    Both::new([0, 0, rng.pick(&[0, any.min(late), late])])
}

pub fn compare(report: &mut Report, seed: u64) {
    let [add, abort, announce] = DECIDES;
    compare_decides(
        report,
        "timeout: decide functions",
        &[BEHIND],
        [(add, ours::add), (abort, ours::abort), (announce, ours::announce)],
    );
    let rows = [NO_TICK, ACTIVE, NEW_ONE];
    report.run("timeout: all sequences of 5", &rows, |tally| all_sequences(&small_starts(), 5, tally));
    report.run("timeout: 100,000 random sequences of 200", &rows, |tally| {
        random_sequences(100_000, 200, &mut Rng::new(seed), random, tally)
    });
    let rows = [MALFORMED, NO_TICK, ACTIVE, NEW_ONE];
    compare_any::<Timeout, 3>(report, "timeout: any memory", &rows, seed);
    compare_limits::<Timeout, 3>(report, "timeout: at the limits", &rows);
}
