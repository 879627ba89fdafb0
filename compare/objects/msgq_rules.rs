//! The rules of the message queue, for any memory contents.

use super::msgq::in_slot;
use crate::lent::{Expected, Moved};
use crate::lent_memory::{up_to, Rules};
use crate::memory::any_number;
use crate::ours::lent::Memory;
use crate::ours::msgq::MsgQ;
use crate::ours::{EINVAL, ENOMSG};
use crate::rng::Rng;
use crate::upstream::msgq::Call;

fn bytes(msg_size: u32, max_msgs: u32) -> u64 {
    u64::from(msg_size) * u64::from(max_msgs)
}

/// Whether there cannot be a queue of these numbers over so many bytes.
fn is_too_large(msg_size: u32, max_msgs: u32, len: u64) -> bool {
    let bytes = bytes(msg_size, max_msgs);
    bytes == 0 || bytes > u32::MAX.into() || bytes > len
}

fn message(memory: &impl Memory<u8, 4>, slot: u64) -> Vec<u8> {
    let size = u64::from(memory.head()[3]);
    (slot * size..(slot + 1) * size).map(|i| memory.cell(i)).collect()
}

/// What a call does with a message of the right length.
fn moves(memory: &impl Memory<u8, 4>, call: Call, brought: &[u8]) -> Expected<u8, 4> {
    let [max, read, used, size] = memory.head();
    let slot = |idx: u32| (u64::from(read) + u64::from(idx)) % u64::from(max);
    let puts = |slot: u64, read: u32| {
        Expected::done(0, Moved::written(in_slot(size, slot, brought)), [max, read, used + 1, size])
    };
    match call {
        Call::Put { .. } if used < max => puts(slot(used), read),
        Call::PutFront { .. } if used < max => puts(slot(max - 1), slot(max - 1) as u32),
        Call::Get { .. } if used > 0 => {
            Expected::done(0, Moved::out(message(memory, read.into())), [max, slot(1) as u32, used - 1, size])
        }
        Call::PeekAt { idx, .. } if idx < used => {
            Expected::done(0, Moved::out(message(memory, slot(idx))), memory.head())
        }
        _ => Expected::refusal(ENOMSG.into()),
    }
}

impl Rules<4> for MsgQ {
    fn is_malformed(memory: &impl Memory<u8, 4>) -> bool {
        let [max, read, used, size] = memory.head();
        read >= max || used > max || is_too_large(size, max, memory.len())
    }

    fn makes(call: Call) -> bool {
        matches!(call, Call::Init { .. })
    }

    fn expected(memory: &impl Memory<u8, 4>, call: Call, brought: &[u8]) -> Expected<u8, 4> {
        let [max, read, used, size] = memory.head();
        match call {
            Call::Init { msg_size, max_msgs } if is_too_large(msg_size, max_msgs, memory.len()) => {
                Expected::refusal(EINVAL.into())
            }
            Call::Init { msg_size, max_msgs } => Expected::done(0, Moved::none(), [max_msgs, 0, 0, msg_size]),
            Call::Put { len } | Call::PutFront { len } | Call::Get { len } | Call::PeekAt { len, .. }
                if len != size.into() =>
            {
                Expected::refusal(EINVAL.into())
            }
            Call::Purge => {
                let write = (u64::from(read) + u64::from(used)) % u64::from(max);
                Expected::done(used.into(), Moved::none(), [max, write as u32, 0, size])
            }
            _ => moves(memory, call, brought),
        }
    }

    fn any_head(len: u32, rng: &mut Rng) -> [u32; 4] {
        let any = any_number(rng);
        let size = rng.pick(&[1, 1, 2, 3, 8, 1 << 16, 1 << 31, any]);
        let max = up_to(len.checked_div(size).unwrap_or(1), rng);
        let overflows = u32::MAX.checked_div(size).unwrap_or(0).wrapping_add(1);
        let max = rng.pick(&[max, max, max, max, max, max, overflows]);
        [max, up_to(max.wrapping_sub(1), rng), up_to(max, rng), size]
    }

    fn any_calls([max, _, used, size]: [u32; 4], rng: &mut Rng) -> Vec<Call> {
        let own = u64::from(size);
        let len = rng.pick(&[own, own, own, own, own + 1, own.saturating_sub(1), own + (1 << 32)]);
        let other = any_number(rng);
        vec![
            Call::Init {
                msg_size: rng.pick(&[1, 2, 3, size, other]),
                max_msgs: rng.pick(&[1, 2, max, 1 << 16, other]),
            },
            Call::Put { len },
            Call::PutFront { len },
            Call::Get { len },
            Call::PeekAt { idx: up_to(used, rng), len },
            Call::Purge,
        ]
    }

    /// Messages of one byte, and of three, about the first slots, those in the middle, and the last.
    fn limits() -> Vec<([u32; 4], u64)> {
        let mut all = Vec::new();
        for size in [1, 3] {
            let (max, middle) = (u32::MAX / size, (1 << 31) / size);
            let places = [0, 1, middle - 1, middle, max - 2, max - 1];
            for (read, write) in places.into_iter().flat_map(|read| places.map(|write| (read, write))) {
                let used = if write >= read { write - read } else { max - read + write };
                all.push(([max, read, used, size], bytes(size, max)));
                if used == 0 {
                    all.push(([max, read, max, size], bytes(size, max)));
                }
            }
        }
        all
    }

    fn limit_calls([max, _, used, size]: [u32; 4]) -> Vec<Call> {
        let len = u64::from(size);
        let peeks = [0, 1, used.saturating_sub(1), used, u32::MAX].map(|idx| Call::PeekAt { idx, len });
        let others = [
            Call::Init { msg_size: size, max_msgs: max },
            Call::Init { msg_size: size, max_msgs: max.wrapping_add(1) },
            Call::Init { msg_size: 2, max_msgs: 1 << 31 },
            Call::Put { len },
            Call::Put { len: len + (1 << 32) },
            Call::PutFront { len },
            Call::Get { len },
            Call::Get { len: len + (1 << 32) },
            Call::Purge,
        ];
        others.into_iter().chain(peeks).collect()
    }
}
