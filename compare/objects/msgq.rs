//! The message queue.

use crate::decisions::compare_decides;
use crate::lent::{Both, Moved, Object, Step, SHORT};
use crate::lent_memory::{compare_any, compare_limits};
use crate::objects::ring_buf::{random_start, small_starts};
use crate::ours::lent::{Memory, ROOM};
use crate::ours::msgq::{self as ours, MsgQ};
use crate::ours::EINVAL;
use crate::report::{Kind, Report};
use crate::rng::Rng;
use crate::upstream::msgq::{Call, APART, DECIDES};
use crate::walk::{all_sequences, random_sequences};
use gale::msgq::MsgQ as Gale;
use std::collections::VecDeque;

pub const LENGTH: &str = "a message of another length than the queue's: -22";

/// The bytes of a message, in its slot.
pub fn in_slot(size: u32, slot: u64, message: &[u8]) -> Vec<(u64, u8)> {
    (slot * u64::from(size)..).zip(message.iter().copied()).collect()
}

impl Object<4> for MsgQ {
    type Gale = Gale;

    fn gale([max_msgs, read_idx, used_msgs, msg_size]: [u32; 4]) -> Gale {
        let sum = u64::from(read_idx) + u64::from(used_msgs);
        let write_idx = sum.checked_rem(max_msgs.into()).unwrap_or(0) as u32;
        Gale { msg_size, max_msgs, read_idx, write_idx, used_msgs }
    }

    fn head(gale: &Gale, _: [u32; 4]) -> [u32; 4] {
        [gale.max_msgs, gale.read_idx, gale.used_msgs, gale.msg_size]
    }

    fn apart(memory: &impl Memory<u8, 4>, call: Call) -> Option<(Kind, Option<i32>)> {
        let [.., msg_size] = memory.head();
        match call {
            // Where the product is above 2^32 - 1, Gale refuses too.
            Call::Init { msg_size, max_msgs } => {
                let bytes = u64::from(msg_size.checked_mul(max_msgs)?);
                (bytes > memory.len()).then_some((Kind::Outside(SHORT), Some(EINVAL)))
            }
            Call::Put { len } | Call::PutFront { len } | Call::Get { len } | Call::PeekAt { len, .. } => {
                (len != msg_size.into()).then_some((Kind::Outside(LENGTH), Some(EINVAL)))
            }
            Call::Purge => None,
        }
    }

    /// Gale answers the slot.
    fn code(call: Call, answer: i64) -> Option<i64> {
        Some(if matches!(call, Call::Purge) { answer } else { answer.min(0) })
    }

    fn moves(held: &mut VecDeque<u8>, step: Step<Self, 4>) -> Result<Moved<u8>, String> {
        let (size, message) = (step.before.msg_size, step.brought);
        Ok(match step.call {
            Call::Init { .. } | Call::Purge => {
                held.clear();
                Moved::none()
            }
            Call::Put { .. } => {
                held.extend(message);
                Moved::written(in_slot(size, step.answer as u64, message))
            }
            Call::PutFront { .. } => {
                message.iter().rev().for_each(|&byte| held.push_front(byte));
                Moved::written(in_slot(size, step.answer as u64, message))
            }
            Call::Get { .. } => Moved::out(held.drain(..size as usize).collect()),
            Call::PeekAt { idx, .. } => {
                Moved::out(held.range((idx * size) as usize..((idx + 1) * size) as usize).copied().collect())
            }
        })
    }

    fn calls(len: u32) -> Vec<Call> {
        let size = SMALL_SIZE.into();
        let peeks = (0..3).map(|idx| Call::PeekAt { idx, len: size });
        let others = [
            Call::Init { msg_size: SMALL_SIZE, max_msgs: 0 },
            Call::Init { msg_size: 1, max_msgs: 2 },
            Call::Init { msg_size: SMALL_SIZE, max_msgs: len / SMALL_SIZE + 1 },
            Call::Put { len: size },
            Call::Put { len: 1 },
            Call::PutFront { len: size },
            Call::PutFront { len: 3 },
            Call::Get { len: size },
            Call::Get { len: 1 },
            Call::PeekAt { idx: 0, len: 1 },
            Call::Purge,
        ];
        others.into_iter().chain(peeks).collect()
    }

    fn draw(both: &Both<Self, 4>, rng: &mut Rng) -> Call {
        let Gale { max_msgs, used_msgs, msg_size, .. } = both.gale;
        let any = u64::from(msg_size);
        let len = rng.pick(&[any, any, any, any, any, any, any, any, any, 0, any - 1, any + 1, any + (1 << 32)]);
        let idx = rng.pick(&[0, 1, used_msgs / 2, used_msgs.wrapping_sub(1), used_msgs, u32::MAX]);
        match rng.weighed(&[1, 30, 15, 35, 15, 1]) {
            0 => Call::Init {
                msg_size: rng.pick(&[0, 1, 2, 3, 8, msg_size, 1 << 16, u32::MAX]),
                max_msgs: rng.pick(&[0, 1, 2, 3, 8, max_msgs, 1 << 16, u32::MAX]),
            },
            1 => Call::Put { len },
            2 => Call::PutFront { len },
            3 => Call::Get { len },
            4 => Call::PeekAt { idx, len },
            _ => Call::Purge,
        }
    }
}

const SMALL_SIZE: u32 = 2;

/// A ring of this capacity, if slots are as large as messages.
fn made(msg_size: u32, (len, max_msgs, start, used): (usize, u32, u32, u32)) -> Both<MsgQ, 4> {
    let (put, get) = (Call::Put { len: msg_size.into() }, Call::Get { len: msg_size.into() });
    let calls = [vec![put, get].repeat(start as usize), vec![put; used as usize]].concat();
    Both::made(len * msg_size as usize, &[vec![Call::Init { msg_size, max_msgs }], calls].concat())
}

fn random(rng: &mut Rng) -> Both<MsgQ, 4> {
    let (len, max_msgs, start, used) = random_start(rng);
    let msg_size = rng.pick(&[1, 2, 3, 8, 64]).min((ROOM / len) as u32);
    made(msg_size, (len, max_msgs, start, used))
}

pub fn compare(report: &mut Report, seed: u64) {
    let [put, get, put_front, peek_at] = DECIDES;
    compare_decides(
        report,
        "message queue: decide functions",
        &APART,
        [(put, ours::put), (get, ours::get), (put_front, ours::put_front), (peek_at, ours::peek_at)],
    );
    report.run("message queue: all sequences of 5", &[SHORT, LENGTH], |tally| {
        let starts: Vec<_> = small_starts().into_iter().map(|start| made(SMALL_SIZE, start)).collect();
        all_sequences(&starts, 5, tally)
    });
    report.run("message queue: 100,000 random sequences of 200", &[SHORT, LENGTH], |tally| {
        random_sequences(100_000, 200, &mut Rng::new(seed), random, tally)
    });
    compare_any::<MsgQ, 4>(report, "message queue: any memory", &[SHORT, LENGTH], seed);
    compare_limits::<MsgQ, 4>(report, "message queue: at the limits", &[LENGTH], seed);
}
