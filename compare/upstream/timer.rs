//! The timer of Gale's Rust.

use super::{slot, Plain};
use crate::decide::Arg::Number;
use crate::decide::{words, Apart, Decide, Decision};
use gale::error::EOVERFLOW;
use gale::timer::{expire_decide, Timer};

#[derive(Clone, Copy, Debug)]
pub enum Call {
    Init(u32),
    Start,
    Stop,
    Expire,
    StatusGet,
    StatusPeek,
    PeriodGet,
    IsRunning,
}

impl Plain for Timer {
    type Word = u32;
    type Call = Call;
    const READS: &'static [Call] = &[Call::StatusPeek, Call::PeriodGet, Call::IsRunning];

    fn call(&mut self, call: Call) -> Decision {
        let answer: i64 = match call {
            Call::Init(period) => {
                *self = Timer::init(period);
                0
            }
            Call::Start => {
                self.start();
                0
            }
            Call::Stop => {
                self.stop();
                0
            }
            Call::Expire => slot(self.expire()),
            Call::StatusGet => self.status_get().into(),
            Call::StatusPeek => self.status_peek().into(),
            Call::PeriodGet => self.period_get().into(),
            Call::IsRunning => self.is_running().into(),
        };
        Decision::new(answer, &[])
    }
}

pub const SATURATED: &str = "expire_decide, status 2^32 - 1: Gale keeps it (0, 1), ours -139";

pub const DECIDES: [Decide; 1] = [Decide {
    name: "timer.expire_decide",
    args: &[Number, Number],
    apart: |input| (input[0] == u32::MAX).then(|| Apart::differs(SATURATED, &[0, 1], EOVERFLOW)),
    gale: |input| {
        let [status, period] = words(input);
        let result = expire_decide(status, period);
        Decision::new(result.is_periodic, &[result.new_status])
    },
}];
