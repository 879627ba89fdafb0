//! The rules of the pipe, for any memory contents.

use super::ring_buf::draw_len;
use super::ring_buf_rules::{any_ring, few, is_malformed, limits, puts, takes};
use crate::lent::{Expected, Moved};
use crate::lent_memory::Rules;
use crate::memory::any_number;
use crate::ours::lent::Memory;
use crate::ours::pipe::Pipe;
use crate::ours::{EAGAIN, ECANCELED, EINVAL, ENOMSG, EPIPE};
use crate::rng::Rng;
use crate::upstream::pipe::Call;

impl Rules<4> for Pipe {
    fn is_malformed(memory: &impl Memory<u8, 4>) -> bool {
        is_malformed(memory) || memory.head()[3] > 3
    }

    fn makes(call: Call) -> bool {
        matches!(call, Call::Init(_))
    }

    fn expected(memory: &impl Memory<u8, 4>, call: Call, brought: &[u8]) -> Expected<u8, 4> {
        let [size, start, used, flags] = memory.head();
        let (open, resetting) = (flags & 1 != 0, flags & 2 != 0);
        let refusal = |code: i32| Expected::refusal(code.into());
        let becomes = |head| Expected::done(0, Moved::none(), head);
        match call {
            Call::Init(size) if size == 0 || memory.len() < size.into() => refusal(EINVAL),
            Call::Init(size) => becomes([size, 0, 0, 1]),
            Call::Write(_) | Call::WriteAll(_) | Call::Read(_) | Call::ReadAll(_) if resetting => refusal(ECANCELED),
            Call::Write(_) | Call::WriteAll(_) if !open => refusal(EPIPE),
            Call::Write(0) | Call::WriteAll(0) | Call::Read(0) | Call::ReadAll(0) => refusal(ENOMSG),
            Call::ReadAll(len) if u64::from(used) < len && !open => refusal(EPIPE),
            Call::WriteAll(len) if u64::from(size) < len => refusal(EINVAL),
            Call::ReadAll(len) if u64::from(size) < len => refusal(EINVAL),
            Call::WriteAll(len) if u64::from(size - used) < len => refusal(EAGAIN),
            Call::ReadAll(len) if u64::from(used) < len => refusal(EAGAIN),
            Call::Write(_) if used == size => refusal(EAGAIN),
            Call::Read(_) if used == 0 => refusal(if open { EAGAIN } else { EPIPE }),
            Call::Write(_) | Call::WriteAll(_) => puts(memory, brought).into(),
            Call::Read(room) | Call::ReadAll(room) => takes(memory, room).into(),
            Call::Reset => becomes([size, 0, 0, flags | 2]),
            Call::Close => becomes([size, start, used, 0]),
            Call::ClearReset => becomes([size, start, used, flags & 1]),
        }
    }

    fn any_head(len: u32, rng: &mut Rng) -> [u32; 4] {
        let [size, start, used] = any_ring(len, rng);
        [size, start, used, rng.pick(&[0, 0, 1, 1, 1, 1, 1, 2, 3, 4, 5, 255, 256, 257, u32::MAX])]
    }

    fn any_calls(_: [u32; 4], rng: &mut Rng) -> Vec<Call> {
        let (write, read) = (Call::Write(draw_len(rng)), Call::Read(draw_len(rng)));
        let (write_all, read_all) = (Call::WriteAll(draw_len(rng)), Call::ReadAll(draw_len(rng)));
        vec![Call::Init(any_number(rng)), write, read, write_all, read_all, Call::Reset, Call::Close, Call::ClearReset]
    }

    /// With each of the flags.
    fn limits() -> Vec<([u32; 4], u64)> {
        let all = limits().into_iter().flat_map(|ring| (0..4).map(move |flags| (ring, flags)));
        all.map(|([size, start, used], flags)| ([size, start, used, flags], size.into())).collect()
    }

    fn limit_calls([size, _, used, _]: [u32; 4]) -> Vec<Call> {
        let single = [Call::Init(size), Call::Init(u32::MAX), Call::Reset, Call::Close, Call::ClearReset];
        let writes = few(size - used).into_iter().flat_map(|len| [Call::Write(len), Call::WriteAll(len)]);
        let reads = few(used).into_iter().flat_map(|len| [Call::Read(len), Call::ReadAll(len)]);
        single.into_iter().chain(writes).chain(reads).collect()
    }
}
