//! The rules of the event flags, for any memory contents. Every word is well formed.

use super::event::{any_call, any_flags, calls_of};
use crate::decide::Decision;
use crate::decisions::Word;
use crate::ours::event::Event;
use crate::plain::Rules;
use crate::rng::Rng;
use crate::upstream::event::Call;

impl Rules<1> for Event {
    fn is_malformed(_: [u32; 1]) -> bool {
        false
    }

    fn makes(call: Call) -> bool {
        matches!(call, Call::Init)
    }

    fn expected([events]: [u32; 1], call: Call) -> (Decision, [u32; 1]) {
        let (answer, left): (i64, u32) = match call {
            Call::Init => (0, 0),
            Call::Post(new_events) => ((events | new_events).into(), events | new_events),
            Call::Set(new_events) => (events.into(), new_events),
            Call::SetMasked { new_events, mask } => (events.into(), (events & !mask) | (new_events & mask)),
            Call::Clear(clear_events) => ((events & !clear_events).into(), events & !clear_events),
            Call::WaitCheckAny(desired) => ((events & desired != 0).into(), events),
            Call::WaitCheckAll(desired) => ((events & desired == desired).into(), events),
            Call::EventsGet => (events.into(), events),
        };
        (Decision::new(answer, &[]), [left])
    }

    fn any_head(rng: &mut Rng) -> [u32; 1] {
        [any_flags(rng)]
    }

    fn any_calls(_: [u32; 1], rng: &mut Rng) -> Vec<Call> {
        (0..8).map(|_| any_call(rng)).collect()
    }

    fn limits() -> Vec<[u32; 1]> {
        u32::limits().into_iter().map(|events| [events]).collect()
    }

    fn limit_calls() -> Vec<Call> {
        calls_of(&u32::limits())
    }
}
