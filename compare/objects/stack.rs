//! The stack.

use crate::decisions::compare_decides;
use crate::lent::{Both, Moved, Object, Step, SHORT};
use crate::lent_memory::{compare_any, compare_limits};
use crate::objects::ring_buf::{self, random_start};
use crate::ours::lent::{Memory, ROOM};
use crate::ours::stack::{self as ours, Stack};
use crate::report::{Kind, Report};
use crate::rng::Rng;
use crate::upstream::stack::{Call, APART, DECIDES};
use crate::walk::{all_sequences, random_sequences};
use gale::stack::Stack as Gale;
use std::collections::VecDeque;

impl Object<2> for Stack {
    type Gale = Gale;

    fn gale([capacity, count]: [u32; 2]) -> Gale {
        Gale { capacity, count }
    }

    fn head(gale: &Gale, _: [u32; 2]) -> [u32; 2] {
        [gale.capacity, gale.count]
    }

    fn apart(memory: &impl Memory<u64, 2>, call: Call) -> Option<(Kind, Option<i32>)> {
        let Call::Init(capacity) = call else { return None };
        ring_buf::apart(memory.len(), Some(capacity), 0)
    }

    fn code(_: Call, answer: i64) -> Option<i64> {
        Some(answer)
    }

    fn moves(held: &mut VecDeque<u64>, step: Step<Self, 2>) -> Result<Moved<u64>, String> {
        Ok(match step.call {
            Call::Init(_) => {
                held.clear();
                Moved::none()
            }
            Call::Push => {
                held.push_back(step.brought[0]);
                Moved::written(vec![(step.before.count.into(), step.brought[0])])
            }
            Call::Pop => Moved::out(vec![held.pop_back().unwrap()]),
        })
    }

    fn calls(len: u32) -> Vec<Call> {
        vec![Call::Init(0), Call::Init(2), Call::Init(len + 1), Call::Push, Call::Pop]
    }

    fn draw(both: &Both<Self, 2>, rng: &mut Rng) -> Call {
        let capacity = both.gale.capacity;
        match rng.weighed(&[1, 50, 50]) {
            0 => Call::Init(rng.pick(&[0, 1, 2, 3, capacity, ROOM as u32, 1 << 31, u32::MAX])),
            1 => Call::Push,
            _ => Call::Pop,
        }
    }
}

fn made(len: usize, capacity: u32, count: u32) -> Both<Stack, 2> {
    Both::made(len, &[vec![Call::Init(capacity)], vec![Call::Push; count as usize]].concat())
}

fn small_starts() -> Vec<Both<Stack, 2>> {
    let all = (1..=4).flat_map(|capacity| (0..=capacity).map(move |count| (capacity, count)));
    all.map(|(capacity, count)| made(capacity as usize + 1, capacity, count)).collect()
}

fn random(rng: &mut Rng) -> Both<Stack, 2> {
    let (len, capacity, _, count) = random_start(rng);
    made(len, capacity, count)
}

pub fn compare(report: &mut Report, seed: u64) {
    let [push, pop] = DECIDES;
    compare_decides(report, "stack: decide functions", &APART, [(push, ours::push), (pop, ours::pop)]);
    report.run("stack: all sequences of 8", &[SHORT], |tally| all_sequences(&small_starts(), 8, tally));
    report.run("stack: 100,000 random sequences of 200", &[SHORT], |tally| {
        random_sequences(100_000, 200, &mut Rng::new(seed), random, tally)
    });
    compare_any::<Stack, 2>(report, "stack: any memory", &[SHORT], seed);
    compare_limits::<Stack, 2>(report, "stack: at the limits", &[SHORT], seed);
}
