//! The pipe.

use crate::decisions::compare_decides;
use crate::lent::{around, Both, Moved, Object, Step, LONG, SHORT};
use crate::lent_memory::{compare_any, compare_limits};
use crate::objects::ring_buf::{self, draw_len, random_start, small_starts};
use crate::ours::lent::{Memory, ROOM};
use crate::ours::pipe::{self as ours, Pipe};
use crate::report::{Kind, Report};
use crate::rng::Rng;
use crate::upstream::pipe::{Call, PipeAndRing, APART, DECIDES};
use crate::walk::{all_sequences, random_sequences};
use std::collections::VecDeque;

impl Object<4> for Pipe {
    type Gale = PipeAndRing;

    fn gale([size, start, used, flags]: [u32; 4]) -> PipeAndRing {
        let pipe = gale::pipe::Pipe { size, used, flags: flags as u8 };
        PipeAndRing { pipe, ring: ring_buf::gale(size, start, used) }
    }

    fn head(gale: &PipeAndRing, _: [u32; 4]) -> [u32; 4] {
        [gale.pipe.size, gale.ring.head, gale.pipe.used, gale.pipe.flags.into()]
    }

    fn apart(memory: &impl Memory<u8, 4>, call: Call) -> Option<(Kind, Option<i32>)> {
        match call {
            Call::Init(size) => ring_buf::apart(memory.len(), Some(size), 0),
            Call::Write(len) | Call::WriteAll(len) | Call::Read(len) | Call::ReadAll(len) => {
                ring_buf::apart(memory.len(), None, len)
            }
            _ => None,
        }
    }

    fn code(_: Call, answer: i64) -> Option<i64> {
        Some(answer)
    }

    fn moves(held: &mut VecDeque<u8>, step: Step<Self, 4>) -> Result<Moved<u8>, String> {
        let (count, ring) = (step.answer as usize, step.before.ring);
        Ok(match step.call {
            Call::Init(_) | Call::Reset => {
                held.clear();
                Moved::none()
            }
            Call::Write(_) | Call::WriteAll(_) => {
                held.extend(&step.brought[..count]);
                Moved::written(around(ring.capacity, ring.tail.into(), &step.brought[..count]))
            }
            Call::Read(_) | Call::ReadAll(_) => Moved::out(held.drain(..count).collect()),
            Call::Close | Call::ClearReset => Moved::none(),
        })
    }

    fn calls(len: u32) -> Vec<Call> {
        let single = [Call::Init(0), Call::Init(2), Call::Init(len + 1), Call::Reset, Call::Close, Call::ClearReset];
        let many = [0, 1, 2, 4].into_iter().flat_map(|len| [Call::Write(len), Call::Read(len)]);
        single.into_iter().chain(many).chain([Call::WriteAll(2), Call::ReadAll(2)]).collect()
    }

    /// Few calls that leave it closed or resetting, and more that end this.
    fn draw(both: &Both<Self, 4>, rng: &mut Rng) -> Call {
        let size = both.gale.pipe.size;
        match rng.weighed(&[4, 30, 30, 1, 1, 8, 15, 15]) {
            0 => Call::Init(rng.pick(&[0, 1, 2, 3, size, size, size, ROOM as u32, 1 << 31, u32::MAX])),
            1 => Call::Write(draw_len(rng)),
            2 => Call::Read(draw_len(rng)),
            3 => Call::Reset,
            4 => Call::Close,
            5 => Call::ClearReset,
            6 => Call::WriteAll(draw_len(rng)),
            _ => Call::ReadAll(draw_len(rng)),
        }
    }
}

/// A length of 0 would be refused, and moves nothing.
fn made((len, size, start, used): (usize, u32, u32, u32)) -> Both<Pipe, 4> {
    let moves = [Call::Write(start.into()), Call::Read(start.into()), Call::Write(used.into())];
    Both::made(len, &[&[Call::Init(size)], &moves[..]].concat())
}

pub fn compare(report: &mut Report, seed: u64) {
    let [write, read] = DECIDES;
    compare_decides(report, "pipe: decide functions", &APART, [(write, ours::write), (read, ours::read)]);
    report.run("pipe: all sequences of 5", &[SHORT], |tally| {
        let starts: Vec<_> = small_starts().into_iter().map(made).collect();
        all_sequences(&starts, 5, tally)
    });
    report.run("pipe: 100,000 random sequences of 200", &[SHORT, LONG], |tally| {
        random_sequences(100_000, 200, &mut Rng::new(seed), |rng| made(random_start(rng)), tally)
    });
    compare_any::<Pipe, 4>(report, "pipe: any memory", &[SHORT, LONG], seed);
    compare_limits::<Pipe, 4>(report, "pipe: at the limits", &[SHORT, LONG], seed);
}
