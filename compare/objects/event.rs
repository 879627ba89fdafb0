//! The event flags.

use crate::decisions::compare_decides;
use crate::ours::event::{self as ours, Event};
use crate::plain::{compare_any, compare_limits, Both, Object};
use crate::report::Report;
use crate::rng::Rng;
use crate::upstream::event::{Call, APART, DECIDES};
use crate::walk::{all_sequences, random_sequences};
use gale::event::Event as Gale;

/// Each call that takes flags, with each of these.
pub fn calls_of(flags: &[u32]) -> Vec<Call> {
    let kinds = [Call::Post, Call::Set, Call::Clear, Call::WaitCheckAny, Call::WaitCheckAll];
    let single = flags.iter().flat_map(|&flags| kinds.map(|kind| kind(flags)));
    let masked =
        flags.iter().flat_map(|&new_events| flags.iter().map(move |&mask| Call::SetMasked { new_events, mask }));
    [Call::Init].into_iter().chain(single).chain(masked).collect()
}

/// Few flags, many, or any.
pub fn any_flags(rng: &mut Rng) -> u32 {
    let (any, other, one) = (rng.number(), rng.number(), 1 << rng.below(32));
    rng.pick(&[any, any & other, any | other, one, 0, u32::MAX])
}

pub fn any_call(rng: &mut Rng) -> Call {
    let (flags, mask) = (any_flags(rng), any_flags(rng));
    let calls = [
        Call::Init,
        Call::Post(flags),
        Call::Set(flags),
        Call::SetMasked { new_events: flags, mask },
        Call::Clear(flags),
        Call::WaitCheckAny(flags),
        Call::WaitCheckAll(flags),
    ];
    calls[rng.weighed(&[1, 20, 10, 20, 20, 15, 15])]
}

impl Object<1> for Event {
    type Gale = Gale;

    fn gale([events]: [u32; 1]) -> Gale {
        Gale { events }
    }

    fn head(gale: &Gale) -> [u32; 1] {
        [gale.events]
    }

    fn calls(_: &Gale) -> Vec<Call> {
        calls_of(&[0, 1, 3, 1 << 31, u32::MAX])
    }

    fn draw(_: &Gale, rng: &mut Rng) -> Call {
        any_call(rng)
    }
}

pub fn compare(report: &mut Report, seed: u64) {
    let [wait, post] = DECIDES;
    compare_decides(report, "event: decide functions", &APART, [(wait, ours::wait), (post, ours::post)]);
    report.run("event: all sequences of 4", &[], |tally| {
        all_sequences(&[0, 1 << 31 | 2].map(|events| Both::<Event, 1>::new([events])), 4, tally)
    });
    report.run("event: 100,000 random sequences of 200", &[], |tally| {
        random_sequences(100_000, 200, &mut Rng::new(seed), |rng| Both::<Event, 1>::new([any_flags(rng)]), tally)
    });
    compare_any::<Event, 1>(report, "event: any memory", &[], seed);
    compare_limits::<Event, 1>(report, "event: at the limits", &[]);
}
