//! The event flags.

use super::decided;
use super::plain::{only, Library};
use crate::decide::{words, Decision};
use crate::upstream::event::Call;

extern "C" {
    fn wq_event_init(head: *mut u32) -> i32;
    fn wq_event_post(head: *mut u32, new_events: u32) -> i64;
    fn wq_event_set(head: *mut u32, new_events: u32) -> i64;
    fn wq_event_set_masked(head: *mut u32, new_events: u32, mask: u32) -> i64;
    fn wq_event_clear(head: *mut u32, clear_events: u32) -> i64;
    fn wq_event_wait_check_any(head: *const u32, desired: u32) -> i32;
    fn wq_event_wait_check_all(head: *const u32, desired: u32) -> i32;
    fn wq_event_events_get(head: *const u32) -> i64;
    fn wq_event_wait_decide(current: u32, desired: u32, wait_type: u32, is_no_wait: bool, matched: *mut u32) -> i32;
    fn wq_event_post_decide(current: u32, new_events: u32, mask: u32) -> u32;
}

pub struct Event;

impl Library<1> for Event {
    type Word = u32;
    type Call = Call;

    fn ask(head: *mut u32, call: Call) -> Result<Decision, String> {
        unsafe {
            match call {
                Call::Init => only(wq_event_init(head)),
                Call::Post(new_events) => only(wq_event_post(head, new_events)),
                Call::Set(new_events) => only(wq_event_set(head, new_events)),
                Call::SetMasked { new_events, mask } => only(wq_event_set_masked(head, new_events, mask)),
                Call::Clear(clear_events) => only(wq_event_clear(head, clear_events)),
                Call::WaitCheckAny(desired) => only(wq_event_wait_check_any(head, desired)),
                Call::WaitCheckAll(desired) => only(wq_event_wait_check_all(head, desired)),
                Call::EventsGet => only(wq_event_events_get(head)),
            }
        }
    }
}

pub fn wait(input: &[u32]) -> Result<Decision, String> {
    let [current, desired, wait_type, no_wait] = words(input);
    decided(|[matched]| unsafe { wq_event_wait_decide(current, desired, wait_type, no_wait != 0, matched) }.into())
}

pub fn post(input: &[u32]) -> Result<Decision, String> {
    let [current, new_events, mask] = words(input);
    only(unsafe { wq_event_post_decide(current, new_events, mask) })
}
