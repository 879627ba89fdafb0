//! The timeout of Gale's Rust.

use super::Plain;
use crate::decide::Arg::{Flag, Number};
use crate::decide::{words, Apart, Decide, Decision};
use gale::error::{EBUSY, EINVAL};
use gale::timeout::{abort_decide, add_decide, announce_decide, Timeout, K_FOREVER_TICKS, K_NO_WAIT_TICKS};

#[derive(Clone, Copy, Debug)]
pub enum Call {
    Init(u64),
    Add(u64),
    AddAbsolute(u64),
    AddForever,
    AddNoWait,
    Abort,
    Announce(u64),
    TimepointCalc(u64),
    TimepointTimeout(u64),
    Remaining,
    Expires,
    IsActive,
    IsForever,
    IsNoWait,
    Now,
}

pub const NO_TICK: &str = "init at tick 2^64 - 1: -22";
pub const ACTIVE: &str = "an add while it is active: -16";
pub const NEW_ONE: &str = "add_forever and add_no_wait: Gale answers a new one, ours becomes that";

/// The code, and the number if it is not a refusal.
fn number(answer: Result<u64, i32>) -> Decision<u64> {
    answer.map_or_else(Decision::refusal, |number| Decision::new(0, &[number]))
}

/// What Gale answers is the object from now on. Its own stays.
fn instead(timeout: &mut Timeout, add: fn(&mut Timeout) -> Timeout) {
    let before = *timeout;
    let new = add(timeout);
    assert!(*timeout == before, "Gale changes its own");
    *timeout = new;
}

impl Plain for Timeout {
    type Word = u64;
    type Call = Call;
    const READS: &'static [Call] =
        &[Call::Remaining, Call::Expires, Call::IsActive, Call::IsForever, Call::IsNoWait, Call::Now];

    fn outside(&self, call: Call) -> Option<(&'static str, i32)> {
        match call {
            Call::Init(K_FOREVER_TICKS) => Some((NO_TICK, EINVAL)),
            Call::Add(_) | Call::AddAbsolute(_) | Call::AddForever | Call::AddNoWait if self.active => {
                Some((ACTIVE, EBUSY))
            }
            _ => None,
        }
    }

    fn differs(call: Call) -> Option<&'static str> {
        matches!(call, Call::AddForever | Call::AddNoWait).then_some(NEW_ONE)
    }

    fn call(&mut self, call: Call) -> Decision<u64> {
        let code: i64 = match call {
            Call::Init(current_tick) => {
                *self = Timeout::init(current_tick);
                0
            }
            Call::Add(duration) => return number(self.add(duration)),
            Call::AddAbsolute(deadline) => self.add_absolute(deadline).map_or_else(i64::from, |_| 0),
            Call::AddForever => {
                instead(self, Timeout::add_forever);
                0
            }
            Call::AddNoWait => {
                instead(self, Timeout::add_no_wait);
                0
            }
            Call::Abort => self.abort().into(),
            Call::Announce(ticks) => self.announce(ticks).map_or_else(i64::from, i64::from),
            Call::TimepointCalc(duration) => return number(self.timepoint_calc(duration)),
            Call::TimepointTimeout(timepoint) => return number(Ok(self.timepoint_timeout(timepoint))),
            Call::Remaining => return number(Ok(self.remaining())),
            Call::Expires => return number(Ok(self.expires())),
            Call::IsActive => self.is_active().into(),
            Call::IsForever => self.is_forever().into(),
            Call::IsNoWait => self.is_no_wait().into(),
            Call::Now => return number(Ok(self.now())),
        };
        Decision::new(code, &[])
    }
}

pub const BEHIND: &str = "announce_decide, an active deadline behind the clock and not 0: Gale fires (1), ours -22";

pub const DECIDES: [Decide<u64>; 3] = [
    Decide {
        name: "timeout.add_decide",
        args: &[Number, Number],
        apart: |_| None,
        gale: |input| {
            let [current_tick, duration] = words(input);
            number(add_decide(current_tick, duration))
        },
    },
    Decide {
        name: "timeout.abort_decide",
        args: &[Flag],
        apart: |_| None,
        gale: |input| Decision::new(abort_decide(input[0] != 0), &[]),
    },
    Decide {
        name: "timeout.announce_decide",
        args: &[Number, Number, Number, Flag],
        apart: |input| {
            let [current_tick, _, deadline, active] = words(input);
            let behind = active != 0 && deadline < current_tick && deadline != K_NO_WAIT_TICKS;
            behind.then(|| Apart::differs(BEHIND, &[1], EINVAL))
        },
        gale: |input| {
            let [current_tick, ticks, deadline, active] = words(input);
            match announce_decide(current_tick, ticks, deadline, active != 0) {
                Ok((new_tick, fired)) => Decision::new(fired, &[new_tick]),
                Err(code) => Decision::refusal(code),
            }
        },
    },
];
