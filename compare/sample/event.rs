//! The event flags.

use super::{answered, decisions, record_plain, sequences_of, test, Small, FEW};
use crate::rng::Rng;
use crate::upstream::event::{Call, DECIDES};
use gale::event::{Event, WAIT_ALL, WAIT_ANY};

impl Small for Event {
    fn words(call: Call) -> (&'static str, Vec<u32>) {
        match call {
            Call::Init => ("event.init", vec![]),
            Call::Post(new_events) => ("event.post", vec![new_events]),
            Call::Set(new_events) => ("event.set", vec![new_events]),
            Call::SetMasked { new_events, mask } => ("event.set_masked", vec![new_events, mask]),
            Call::Clear(clear_events) => ("event.clear", vec![clear_events]),
            Call::WaitCheckAny(desired) => ("event.wait_check_any", vec![desired]),
            Call::WaitCheckAll(desired) => ("event.wait_check_all", vec![desired]),
            Call::EventsGet => ("event.events_get", vec![]),
        }
    }
}

fn draw(event: &Event, rng: &mut Rng) -> Call {
    let (any, other) = (rng.number(), rng.number());
    let flags = [any, any & other, any | other, event.events, event.events & any, 0, u32::MAX];
    let (flags, mask) = (rng.pick(&flags), rng.pick(&flags));
    let calls = [
        Call::Init,
        Call::Post(flags),
        Call::Set(flags),
        Call::SetMasked { new_events: flags, mask },
        Call::Clear(flags),
        Call::WaitCheckAny(flags),
        Call::WaitCheckAll(flags),
    ];
    calls[rng.weighed(&[1, 5, 3, 6, 6, 4, 4])]
}

pub fn tests(rng: &mut Rng) {
    test("event, constants");
    answered("WAIT_ANY", &[], WAIT_ANY.into());
    answered("WAIT_ALL", &[], WAIT_ALL.into());
    decisions("event", &DECIDES, &FEW);
    sequences_of("event", rng, |_| (Event::init(), Call::Init), draw, record_plain);
}
