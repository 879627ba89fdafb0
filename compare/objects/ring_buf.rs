//! The ring buffer.

use crate::decisions::compare_decides;
use crate::lent::{around, Both, Moved, Object, Step, LONG, SHORT};
use crate::lent_memory::{compare_any, compare_limits};
use crate::ours::lent::{Memory, ROOM};
use crate::ours::ring_buf::{self as ours, RingBuf};
use crate::ours::EINVAL;
use crate::report::{Kind, Report};
use crate::rng::Rng;
use crate::upstream::ring_buf::{Call, DECIDES};
use crate::walk::{all_sequences, random_sequences};
use gale::ring_buf::RingBuf as Gale;
use std::collections::VecDeque;

/// What an init and a length do that Gale does not know of.
pub fn apart(lent: u64, capacity: Option<u32>, len: u64) -> Option<(Kind, Option<i32>)> {
    if capacity.is_some_and(|capacity| u64::from(capacity) > lent) {
        return Some((Kind::Outside(SHORT), Some(EINVAL)));
    }
    (len > u32::MAX.into()).then_some((Kind::Outside(LONG), None))
}

/// Gale's ring buffer of these numbers. The tail is where it must be, as far as there can be one.
pub fn gale(capacity: u32, head: u32, size: u32) -> Gale {
    let tail = (u64::from(head) + u64::from(size)).checked_rem(capacity.into()).unwrap_or(0) as u32;
    Gale { capacity, head, tail, size }
}

/// Mostly short, so that not every call fills or empties it.
pub fn draw_len(rng: &mut Rng) -> u64 {
    let any = rng.below(2 * ROOM as u32).into();
    rng.pick(&[0, 1, 1, 2, 3, 5, 8, 13, any, any, u32::MAX.into(), 1 << 32, (1 << 32) + 1])
}

impl Object<3> for RingBuf {
    type Gale = Gale;

    fn gale([capacity, head, size]: [u32; 3]) -> Gale {
        gale(capacity, head, size)
    }

    fn head(gale: &Gale, _: [u32; 3]) -> [u32; 3] {
        [gale.capacity, gale.head, gale.size]
    }

    fn apart(memory: &impl Memory<u8, 3>, call: Call) -> Option<(Kind, Option<i32>)> {
        match call {
            Call::Init(capacity) => apart(memory.len(), Some(capacity), 0),
            Call::PutN(len) | Call::GetN(len) => apart(memory.len(), None, len),
            _ => None,
        }
    }

    /// Gale answers the slot.
    fn code(call: Call, answer: i64) -> Option<i64> {
        let is_slot = matches!(call, Call::Put | Call::Get | Call::PeekAt(_));
        Some(if is_slot { answer.min(0) } else { answer })
    }

    fn moves(held: &mut VecDeque<u8>, step: Step<Self, 3>) -> Result<Moved<u8>, String> {
        let count = step.answer as usize;
        Ok(match step.call {
            Call::Init(_) | Call::Reset => {
                held.clear();
                Moved::none()
            }
            Call::Put => {
                held.push_back(step.brought[0]);
                Moved::written(vec![(step.answer as u64, step.brought[0])])
            }
            Call::Get => Moved::out(vec![held.pop_front().unwrap()]),
            Call::PutN(_) => {
                held.extend(&step.brought[..count]);
                Moved::written(around(step.before.capacity, step.before.tail.into(), &step.brought[..count]))
            }
            Call::GetN(_) => Moved::out(held.drain(..count).collect()),
            Call::PeekAt(idx) => Moved::out(vec![held[idx as usize]]),
        })
    }

    fn calls(len: u32) -> Vec<Call> {
        let single = [Call::Init(0), Call::Init(2), Call::Init(len + 1), Call::Put, Call::Get, Call::Reset];
        let many = [0, 1, 2, 4].into_iter().flat_map(|len| [Call::PutN(len), Call::GetN(len)]);
        single.into_iter().chain(many).chain((0..3).map(Call::PeekAt)).collect()
    }

    fn draw(both: &Both<Self, 3>, rng: &mut Rng) -> Call {
        let (capacity, size) = (both.gale.capacity, both.gale.size);
        match rng.weighed(&[2, 30, 30, 20, 20, 15, 2]) {
            0 => Call::Init(rng.pick(&[0, 1, 2, 3, capacity, both.ours.len() as u32, ROOM as u32, 1 << 31, u32::MAX])),
            1 => Call::Put,
            2 => Call::Get,
            3 => Call::PutN(draw_len(rng)),
            4 => Call::GetN(draw_len(rng)),
            5 => Call::PeekAt(rng.pick(&[0, 1, size / 2, size.wrapping_sub(1), size, capacity, u32::MAX])),
            _ => Call::Reset,
        }
    }
}

/// How many elements are lent, the capacity, where it starts and how many it holds: all of some small capacities.
pub fn small_starts() -> Vec<(usize, u32, u32, u32)> {
    let all = (1..=3).flat_map(|capacity| (0..capacity).map(move |start| (capacity, start)));
    let all = all.flat_map(|(capacity, start)| (0..=capacity).map(move |size| (capacity, start, size)));
    all.map(|(capacity, start, size)| (capacity as usize + 1, capacity, start, size)).collect()
}

pub fn random_start(rng: &mut Rng) -> (usize, u32, u32, u32) {
    let any = 1 + rng.below(ROOM as u32);
    let capacity = rng.pick(&[1, 2, 3, 8, any, any, ROOM as u32]);
    let len = rng.pick(&[capacity, (capacity + 1).min(ROOM as u32), ROOM as u32]);
    (len as usize, capacity, rng.below(capacity), rng.below(capacity + 1))
}

fn made((len, capacity, start, size): (usize, u32, u32, u32)) -> Both<RingBuf, 3> {
    let calls = [Call::PutN(start.into()), Call::GetN(start.into()), Call::PutN(size.into())];
    Both::made(len, &[&[Call::Init(capacity)], &calls[..]].concat())
}

pub fn compare(report: &mut Report, seed: u64) {
    let [claim, finish, space_get, size_get] = DECIDES;
    compare_decides(
        report,
        "ring buffer: decide functions",
        &[],
        [(claim, ours::claim), (finish, ours::finish), (space_get, ours::space_get), (size_get, ours::size_get)],
    );
    report.run("ring buffer: all sequences of 5", &[SHORT], |tally| {
        let starts: Vec<_> = small_starts().into_iter().map(made).collect();
        all_sequences(&starts, 5, tally)
    });
    report.run("ring buffer: 100,000 random sequences of 200", &[SHORT, LONG], |tally| {
        random_sequences(100_000, 200, &mut Rng::new(seed), |rng| made(random_start(rng)), tally)
    });
    compare_any::<RingBuf, 3>(report, "ring buffer: any memory", &[SHORT, LONG], seed);
    compare_limits::<RingBuf, 3>(report, "ring buffer: at the limits", &[SHORT, LONG], seed);
}
