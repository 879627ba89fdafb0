//! The rules of the timeout, for any memory contents. To be active is any word but 0.

use super::timeout::{any_ticks, calls_of};
use crate::decide::Decision;
use crate::decisions::Word;
use crate::ours::timeout::Timeout;
use crate::ours::{EBUSY, EINVAL};
use crate::plain::Rules;
use crate::rng::Rng;
use crate::upstream::timeout::Call;

const NEVER: u64 = u64::MAX;

/// The tick so many after that one, if there is one; the largest number is none.
fn later(now: u64, ticks: u64) -> Option<u64> {
    now.checked_add(ticks).filter(|&tick| tick != NEVER)
}

/// The words of an active one with this deadline, if there is one.
fn added([_, active, now]: [u64; 3], deadline: Option<u64>) -> Result<[u64; 3], i32> {
    if active != 0 {
        return Err(EBUSY);
    }
    deadline.map(|deadline| [deadline, 1, now]).ok_or(EINVAL)
}

fn announced([deadline, active, now]: [u64; 3], ticks: u64) -> Result<(i64, [u64; 3]), i32> {
    let then = later(now, ticks).ok_or(EINVAL)?;
    let fires = active != 0 && deadline != NEVER && deadline <= then;
    Ok((fires.into(), [deadline, if fires { 0 } else { active }, then]))
}

/// What a call answers, writes and leaves that does not refuse.
fn done(head: [u64; 3], call: Call) -> Result<(i64, Vec<u64>, [u64; 3]), i32> {
    let [deadline, active, now] = head;
    let is_active = active != 0;
    let flag = |is: bool| Ok((is.into(), vec![], head));
    let number = |number: u64| Ok((0, vec![number], head));
    let until = |tick: u64| if tick == NEVER { NEVER } else { tick.saturating_sub(now) };
    match call {
        Call::Init(NEVER) => Err(EINVAL),
        Call::Init(tick) => Ok((0, vec![], [0, 0, tick])),
        Call::Add(duration) => added(head, later(now, duration)).map(|head| (0, vec![head[0]], head)),
        Call::AddAbsolute(tick) => {
            let deadline = (now..NEVER).contains(&tick).then_some(tick);
            added(head, deadline).map(|head| (0, vec![], head))
        }
        Call::AddForever => added(head, Some(NEVER)).map(|head| (0, vec![], head)),
        Call::AddNoWait => added(head, Some(0)).map(|head| (0, vec![], head)),
        Call::Abort if !is_active => Err(EINVAL),
        Call::Abort => Ok((0, vec![], [deadline, 0, now])),
        Call::Announce(ticks) => announced(head, ticks).map(|(code, head)| (code, vec![], head)),
        Call::TimepointCalc(duration) => later(now, duration).map_or(Err(EINVAL), number),
        Call::TimepointTimeout(timepoint) => number(until(timepoint)),
        Call::Remaining => number(if is_active { until(deadline) } else { 0 }),
        Call::Expires => number(if is_active { deadline } else { now }),
        Call::IsActive => flag(is_active),
        Call::IsForever => flag(deadline == NEVER),
        Call::IsNoWait => flag(deadline == 0),
        Call::Now => number(now),
    }
}

impl Rules<3> for Timeout {
    fn is_malformed([deadline, active, now]: [u64; 3]) -> bool {
        now == NEVER || (active != 0 && deadline != 0 && deadline < now)
    }

    fn makes(call: Call) -> bool {
        matches!(call, Call::Init(_))
    }

    fn expected(head: [u64; 3], call: Call) -> (Decision<u64>, [u64; 3]) {
        match done(head, call) {
            Ok((code, numbers, head)) => (Decision { code, numbers }, head),
            Err(code) => (Decision::refusal(code), head),
        }
    }

    fn any_head(rng: &mut Rng) -> [u64; 3] {
        let (now, any) = (any_ticks(0, 0, rng), rng.word());
        [any_ticks(0, now, rng), rng.pick(&[0, 0, 1, 1, 2, 1 << 32, any]), now]
    }

    fn any_calls([deadline, _, now]: [u64; 3], rng: &mut Rng) -> Vec<Call> {
        calls_of(&[any_ticks(deadline, now, rng), any_ticks(deadline, now, rng)])
    }

    fn limits() -> Vec<[u64; 3]> {
        let numbers = u64::limits();
        let pairs = numbers.iter().flat_map(|&deadline| numbers.iter().map(move |&now| [deadline, now]));
        pairs.flat_map(|[deadline, now]| [0, 1, 1 << 32, NEVER].map(|active| [deadline, active, now])).collect()
    }

    fn limit_calls() -> Vec<Call> {
        calls_of(&u64::limits())
    }
}
