//! The timeout.

use super::decided;
use super::plain::{only, Library};
use crate::decide::{words, Decision};
use crate::upstream::timeout::Call;

extern "C" {
    fn wq_timeout_init(head: *mut u64, current_tick: u64) -> i32;
    fn wq_timeout_add(head: *mut u64, duration: u64, deadline: *mut u64) -> i32;
    fn wq_timeout_add_absolute(head: *mut u64, deadline: u64) -> i32;
    fn wq_timeout_add_forever(head: *mut u64) -> i32;
    fn wq_timeout_add_no_wait(head: *mut u64) -> i32;
    fn wq_timeout_abort(head: *mut u64) -> i32;
    fn wq_timeout_announce(head: *mut u64, ticks: u64) -> i32;
    fn wq_timeout_remaining(head: *const u64, ticks: *mut u64) -> i32;
    fn wq_timeout_expires(head: *const u64, tick: *mut u64) -> i32;
    fn wq_timeout_is_active(head: *const u64) -> i32;
    fn wq_timeout_is_forever(head: *const u64) -> i32;
    fn wq_timeout_is_no_wait(head: *const u64) -> i32;
    fn wq_timeout_now(head: *const u64, tick: *mut u64) -> i32;
    fn wq_timeout_timepoint_calc(head: *const u64, duration: u64, timepoint: *mut u64) -> i32;
    fn wq_timeout_timepoint_timeout(head: *const u64, timepoint: u64, ticks: *mut u64) -> i32;
    fn wq_timeout_add_decide(current_tick: u64, duration: u64, deadline: *mut u64) -> i32;
    fn wq_timeout_abort_decide(is_active: bool) -> bool;
    fn wq_timeout_announce_decide(tick: u64, ticks: u64, deadline: u64, active: bool, new_tick: *mut u64) -> i32;
}

pub struct Timeout;

impl Library<3> for Timeout {
    type Word = u64;
    type Call = Call;

    fn ask(head: *mut u64, call: Call) -> Result<Decision<u64>, String> {
        unsafe {
            match call {
                Call::Init(current_tick) => only(wq_timeout_init(head, current_tick)),
                Call::Add(duration) => decided(|[deadline]| wq_timeout_add(head, duration, deadline).into()),
                Call::AddAbsolute(deadline) => only(wq_timeout_add_absolute(head, deadline)),
                Call::AddForever => only(wq_timeout_add_forever(head)),
                Call::AddNoWait => only(wq_timeout_add_no_wait(head)),
                Call::Abort => only(wq_timeout_abort(head)),
                Call::Announce(ticks) => only(wq_timeout_announce(head, ticks)),
                Call::TimepointCalc(duration) => {
                    decided(|[timepoint]| wq_timeout_timepoint_calc(head, duration, timepoint).into())
                }
                Call::TimepointTimeout(timepoint) => {
                    decided(|[ticks]| wq_timeout_timepoint_timeout(head, timepoint, ticks).into())
                }
                Call::Remaining => decided(|[ticks]| wq_timeout_remaining(head, ticks).into()),
                Call::Expires => decided(|[tick]| wq_timeout_expires(head, tick).into()),
                Call::IsActive => only(wq_timeout_is_active(head)),
                Call::IsForever => only(wq_timeout_is_forever(head)),
                Call::IsNoWait => only(wq_timeout_is_no_wait(head)),
                Call::Now => decided(|[tick]| wq_timeout_now(head, tick).into()),
            }
        }
    }
}

pub fn add(input: &[u64]) -> Result<Decision<u64>, String> {
    let [current_tick, duration] = words(input);
    decided(|[deadline]| unsafe { wq_timeout_add_decide(current_tick, duration, deadline) }.into())
}

pub fn abort(input: &[u64]) -> Result<Decision<u64>, String> {
    only(unsafe { wq_timeout_abort_decide(input[0] != 0) })
}

pub fn announce(input: &[u64]) -> Result<Decision<u64>, String> {
    let [tick, ticks, deadline, active] = words(input);
    decided(|[new_tick]| unsafe { wq_timeout_announce_decide(tick, ticks, deadline, active != 0, new_tick) }.into())
}
