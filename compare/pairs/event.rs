//! The events. post_decide serves four methods: post with the mask of the new events, set with all bits, set_masked,
//! and clear with no new events.

use super::check::{flag, number, one_of, words, Pair, Said};
use gale::event::{post_decide, wait_decide, Event, WaitDecision, WAIT_ALL, WAIT_ANY};

fn wait() -> Pair {
    Pair {
        function: "event::wait_decide",
        args: vec![
            number("current_events"),
            number("desired"),
            one_of("wait_type", &[WAIT_ANY.into(), WAIT_ALL.into()]),
            flag("is_no_wait"),
        ],
        allowed: |_| true,
        decide: |input| {
            let [current, desired, wait_type, no_wait] = words(input);
            let result = wait_decide(current, desired, wait_type as u8, no_wait != 0);
            match result.decision {
                WaitDecision::Matched => Said::new("matches", &[("events", result.matched_events)]),
                WaitDecision::Pend => Said::new("waits", &[]),
                WaitDecision::Timeout => Said::new("does not match", &[]),
            }
        },
        object: |input| {
            let [current, desired, wait_type, no_wait] = words(input);
            let event = Event { events: current };
            let is_all = wait_type == u32::from(WAIT_ALL);
            match if is_all { event.wait_check_all(desired) } else { event.wait_check_any(desired) } {
                true => Said::new("matches", &[("events", event.events_get() & desired)]),
                false if no_wait != 0 => Said::new("does not match", &[]),
                false => Said::new("waits", &[]),
            }
        },
    }
}

fn left(events: u32) -> Said {
    Said::new("leaves", &[("events", events)])
}

/// Which method, by its number.
fn post() -> Pair {
    Pair {
        function: "event::post_decide",
        args: vec![
            number("current_events"),
            number("new_events"),
            number("mask"),
            one_of("post, set, set_masked or clear", &[0, 1, 2, 3]),
        ],
        allowed: |_| true,
        decide: |input| {
            let [current, new, mask, method] = words(input);
            let (new, mask) = [(new, new), (new, u32::MAX), (new, mask), (0, mask)][method as usize];
            left(post_decide(current, new, mask))
        },
        object: |input| {
            let [current, new, mask, method] = words(input);
            let mut event = Event { events: current };
            match method {
                0 => event.post(new),
                1 => event.set(new),
                2 => event.set_masked(new, mask),
                _ => event.clear(mask),
            };
            left(event.events)
        },
    }
}

pub fn pairs() -> Vec<Pair> {
    vec![wait(), post()]
}
