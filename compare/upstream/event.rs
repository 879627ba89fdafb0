//! The event flags of Gale's Rust.

use super::Plain;
use crate::decide::Arg::{Flag, Number, Of};
use crate::decide::{words, Apart, Decide, Decision};
use gale::error::{EBUSY, EINVAL};
use gale::event::{post_decide, wait_decide, Event, WaitDecision, WAIT_ALL};

#[derive(Clone, Copy, Debug)]
pub enum Call {
    Init,
    Post(u32),
    Set(u32),
    SetMasked { new_events: u32, mask: u32 },
    Clear(u32),
    WaitCheckAny(u32),
    WaitCheckAll(u32),
    EventsGet,
}

impl Plain for Event {
    type Word = u32;
    type Call = Call;
    const READS: &'static [Call] = &[Call::EventsGet];

    fn call(&mut self, call: Call) -> Decision {
        let answer: i64 = match call {
            Call::Init => {
                *self = Event::init();
                0
            }
            Call::Post(new_events) => self.post(new_events).into(),
            Call::Set(new_events) => self.set(new_events).into(),
            Call::SetMasked { new_events, mask } => self.set_masked(new_events, mask).into(),
            Call::Clear(clear_events) => self.clear(clear_events).into(),
            Call::WaitCheckAny(desired) => self.wait_check_any(desired).into(),
            Call::WaitCheckAll(desired) => self.wait_check_all(desired).into(),
            Call::EventsGet => self.events_get().into(),
        };
        Decision::new(answer, &[])
    }
}

const NO_BYTE: &str = "wait_decide, a wait type above 255: -22";
const OTHER_TYPE: &str = "wait_decide, a wait type of 2 to 255: Gale waits for any flag (0, 1, 2), ours -22";
const WOULD_WAIT: &str = "wait_decide, no match and no wait: Gale 2, ours -16";
pub const APART: [&str; 3] = [NO_BYTE, OTHER_TYPE, WOULD_WAIT];

fn wait(input: &[u32]) -> Decision {
    let [current_events, desired, wait_type, no_wait] = words(input);
    let result = wait_decide(current_events, desired, wait_type as u8, no_wait != 0);
    let code = match result.decision {
        WaitDecision::Matched => 0,
        WaitDecision::Pend => 1,
        WaitDecision::Timeout => 2,
    };
    Decision::new(code, &[result.matched_events])
}

pub const DECIDES: [Decide; 2] = [
    Decide {
        name: "event.wait_decide",
        args: &[Number, Number, Of(&[0, 1, 2, 3, 255, 256, 257, u32::MAX]), Flag],
        apart: |input| {
            let wait_type = input[2];
            if wait_type > u8::MAX.into() {
                Some(Apart::outside(NO_BYTE, EINVAL))
            } else if wait_type > WAIT_ALL.into() {
                Some(Apart::differs(OTHER_TYPE, &[0, 1, 2], EINVAL))
            } else {
                (wait(input).code == 2).then(|| Apart::differs(WOULD_WAIT, &[2], EBUSY))
            }
        },
        gale: wait,
    },
    Decide {
        name: "event.post_decide",
        args: &[Number, Number, Number],
        apart: |_| None,
        gale: |input| {
            let [current_events, new_events, mask] = words(input);
            Decision::new(post_decide(current_events, new_events, mask), &[])
        },
    },
];
