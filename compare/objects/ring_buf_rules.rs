//! The rules of the ring buffer, for any memory contents.

use super::ring_buf::draw_len;
use crate::lent::{around, Expected, Moved};
use crate::lent_memory::{up_to, Rules};
use crate::memory::any_number;
use crate::ours::lent::Memory;
use crate::ours::ring_buf::RingBuf;
use crate::ours::{EAGAIN, EINVAL};
use crate::rng::Rng;
use crate::upstream::ring_buf::Call;

/// The first three header words of a ring of bytes: its capacity, where it starts, how many bytes it holds.
pub fn is_malformed<const N: usize>(memory: &impl Memory<u8, N>) -> bool {
    let [capacity, start, size] = ring(&memory.head());
    capacity == 0 || start >= capacity || size > capacity || memory.len() < capacity.into()
}

fn ring<const N: usize>(head: &[u32; N]) -> [u32; 3] {
    [head[0], head[1], head[2]]
}

fn wrapped(capacity: u32, start: u32, count: u64) -> u64 {
    (u64::from(start) + count) % u64::from(capacity)
}

/// Puts in as many of the bytes as there is room for, and answers the number.
pub fn puts<const N: usize>(memory: &impl Memory<u8, N>, brought: &[u8]) -> (i64, Moved<u8>, [u32; N]) {
    let mut head = memory.head();
    let [capacity, start, size] = ring(&head);
    let count = brought.len().min((capacity - size) as usize);
    head[2] += count as u32;
    (count as i64, Moved::written(around(capacity, wrapped(capacity, start, size.into()), &brought[..count])), head)
}

/// Takes out as many bytes as there are, but not more than there is room for, and answers the number.
pub fn takes<const N: usize>(memory: &impl Memory<u8, N>, room: u64) -> (i64, Moved<u8>, [u32; N]) {
    let mut head = memory.head();
    let [capacity, start, size] = ring(&head);
    let count = room.min(size.into());
    head[1] = wrapped(capacity, start, count) as u32;
    head[2] -= count as u32;
    (count as i64, Moved::out((0..count).map(|i| memory.cell(wrapped(capacity, start, i))).collect()), head)
}

/// A header of a ring of bytes over so many of them.
pub fn any_ring(len: u32, rng: &mut Rng) -> [u32; 3] {
    let capacity = up_to(len, rng);
    [capacity, up_to(capacity.wrapping_sub(1), rng), up_to(capacity, rng)]
}

/// Rings that start and end about the first slots, the middle ones and the last ones.
pub fn limits() -> Vec<[u32; 3]> {
    let mut all = Vec::new();
    for capacity in [1 << 31, (1 << 31) + 1, u32::MAX - 1, u32::MAX] {
        let places = [0, 1, 2, (1 << 31) - 3, (1 << 31) - 1, capacity - 3, capacity - 2, capacity - 1];
        for (start, end) in places.into_iter().flat_map(|start| places.map(|end| (start, end))) {
            let size = if end >= start { end - start } else { capacity - start + end };
            all.push([capacity, start, size]);
            if size == 0 {
                all.push([capacity, start, capacity]);
            }
        }
    }
    all
}

/// Lengths that move three bytes at most.
pub fn few(most: u32) -> Vec<u64> {
    let long = [u32::MAX.into(), 1 << 32, (1 << 32) + 1];
    let all = [0, 1, 2, 3].into_iter().chain(long);
    all.filter(|&len| len <= 3 || most <= 3).collect()
}

impl Rules<3> for RingBuf {
    fn is_malformed(memory: &impl Memory<u8, 3>) -> bool {
        is_malformed(memory)
    }

    fn makes(call: Call) -> bool {
        matches!(call, Call::Init(_))
    }

    fn expected(memory: &impl Memory<u8, 3>, call: Call, brought: &[u8]) -> Expected<u8, 3> {
        let [capacity, start, size] = memory.head();
        let refusal = |code: i32| Expected::refusal(code.into());
        match call {
            Call::Init(capacity) if capacity == 0 || memory.len() < capacity.into() => refusal(EINVAL),
            Call::Init(capacity) => Expected::done(0, Moved::none(), [capacity, 0, 0]),
            Call::Put if size == capacity => refusal(EAGAIN),
            Call::Put => {
                let (_, moved, head) = puts(memory, brought);
                Expected::done(0, moved, head)
            }
            Call::Get if size == 0 => refusal(EAGAIN),
            Call::Get => {
                let (_, moved, head) = takes(memory, 1);
                Expected::done(0, moved, head)
            }
            Call::PutN(_) => puts(memory, brought).into(),
            Call::GetN(room) => takes(memory, room).into(),
            Call::PeekAt(idx) if idx >= size => refusal(EINVAL),
            Call::PeekAt(idx) => {
                let cell = memory.cell(wrapped(capacity, start, idx.into()));
                Expected::done(0, Moved::out(vec![cell]), memory.head())
            }
            Call::Reset => Expected::done(0, Moved::none(), [capacity, 0, 0]),
        }
    }

    fn any_head(len: u32, rng: &mut Rng) -> [u32; 3] {
        any_ring(len, rng)
    }

    fn any_calls([.., size]: [u32; 3], rng: &mut Rng) -> Vec<Call> {
        vec![
            Call::Init(any_number(rng)),
            Call::Put,
            Call::Get,
            Call::PutN(draw_len(rng)),
            Call::GetN(draw_len(rng)),
            Call::PeekAt(up_to(size, rng)),
            Call::Reset,
        ]
    }

    fn limits() -> Vec<([u32; 3], u64)> {
        limits().into_iter().map(|head| (head, head[0].into())).collect()
    }

    fn limit_calls([capacity, _, size]: [u32; 3]) -> Vec<Call> {
        let single = [Call::Init(capacity), Call::Init(u32::MAX), Call::Put, Call::Get, Call::Reset];
        let peeks = [0, 1, size.saturating_sub(1), size, u32::MAX].map(Call::PeekAt);
        let puts = few(capacity - size).into_iter().map(Call::PutN);
        single.into_iter().chain(peeks).chain(puts).chain(few(size).into_iter().map(Call::GetN)).collect()
    }
}
