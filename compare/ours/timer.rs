//! The timer.

use super::decided;
use super::plain::{only, Library};
use crate::decide::{words, Decision};
use crate::upstream::timer::Call;

extern "C" {
    fn wq_timer_init(head: *mut u32, period: u32) -> i32;
    fn wq_timer_start(head: *mut u32) -> i32;
    fn wq_timer_stop(head: *mut u32) -> i32;
    fn wq_timer_expire(head: *mut u32) -> i64;
    fn wq_timer_status_get(head: *mut u32) -> i64;
    fn wq_timer_status_peek(head: *const u32) -> i64;
    fn wq_timer_period_get(head: *const u32) -> i64;
    fn wq_timer_is_running(head: *const u32) -> i32;
    fn wq_timer_expire_decide(status: u32, period: u32, new_status: *mut u32) -> i32;
}

pub struct Timer;

impl Library<3> for Timer {
    type Word = u32;
    type Call = Call;

    fn ask(head: *mut u32, call: Call) -> Result<Decision, String> {
        unsafe {
            match call {
                Call::Init(period) => only(wq_timer_init(head, period)),
                Call::Start => only(wq_timer_start(head)),
                Call::Stop => only(wq_timer_stop(head)),
                Call::Expire => only(wq_timer_expire(head)),
                Call::StatusGet => only(wq_timer_status_get(head)),
                Call::StatusPeek => only(wq_timer_status_peek(head)),
                Call::PeriodGet => only(wq_timer_period_get(head)),
                Call::IsRunning => only(wq_timer_is_running(head)),
            }
        }
    }
}

pub fn expire(input: &[u32]) -> Result<Decision, String> {
    let [status, period] = words(input);
    decided(|[new_status]| unsafe { wq_timer_expire_decide(status, period, new_status) }.into())
}
