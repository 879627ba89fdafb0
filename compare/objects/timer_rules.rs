//! The rules of the timer, for any memory contents. Every header is well formed; to run is any word but 0.

use super::timer::{any_word, calls_of};
use crate::decide::Decision;
use crate::decisions::Word;
use crate::ours::timer::Timer;
use crate::ours::EOVERFLOW;
use crate::plain::Rules;
use crate::rng::Rng;
use crate::upstream::timer::Call;

impl Rules<3> for Timer {
    fn is_malformed(_: [u32; 3]) -> bool {
        false
    }

    fn makes(call: Call) -> bool {
        matches!(call, Call::Init(_))
    }

    fn expected(head @ [status, period, running]: [u32; 3], call: Call) -> (Decision, [u32; 3]) {
        let (answer, left): (i64, [u32; 3]) = match call {
            Call::Init(period) => (0, [0, period, 0]),
            Call::Start => (0, [0, period, 1]),
            Call::Stop => (0, [0, period, 0]),
            Call::Expire if status == u32::MAX => (EOVERFLOW.into(), head),
            Call::Expire => (i64::from(status) + 1, [status + 1, period, running]),
            Call::StatusGet => (status.into(), [0, period, running]),
            Call::StatusPeek => (status.into(), head),
            Call::PeriodGet => (period.into(), head),
            Call::IsRunning => ((running != 0).into(), head),
        };
        (Decision::new(answer, &[]), left)
    }

    fn any_head(rng: &mut Rng) -> [u32; 3] {
        std::array::from_fn(|_| any_word(rng))
    }

    fn any_calls(_: [u32; 3], rng: &mut Rng) -> Vec<Call> {
        calls_of(&[any_word(rng)])
    }

    fn limits() -> Vec<[u32; 3]> {
        let numbers = u32::limits();
        let pairs = numbers.iter().flat_map(|&status| numbers.iter().map(move |&period| [status, period]));
        let all = pairs.flat_map(|[status, period]| numbers.iter().map(move |&running| [status, period, running]));
        all.collect()
    }

    fn limit_calls() -> Vec<Call> {
        calls_of(&u32::limits())
    }
}
