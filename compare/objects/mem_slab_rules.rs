//! The rules of the memory slab, for any memory contents.

use crate::lent::{Expected, Moved};
use crate::lent_memory::{up_to, Rules};
use crate::memory::any_number;
use crate::ours::lent::{Memory, ROOM};
use crate::ours::mem_slab::MemSlab;
use crate::ours::{EINVAL, ENOMEM};
use crate::rng::Rng;
use crate::upstream::mem_slab::Call;

/// All blocks are free, and each but the last is given before the next.
fn made(block_size: u32, num_blocks: u32) -> Expected<u32, 4> {
    let links = (0..num_blocks).map(|block| (block.into(), (block + 1) % num_blocks + 1)).collect();
    Expected::done(0, Moved::written(links), [num_blocks, block_size, 0, 0])
}

impl Rules<4> for MemSlab {
    fn is_malformed(memory: &impl Memory<u32, 4>) -> bool {
        let [blocks, size, used, first] = memory.head();
        let numbers = blocks == 0 || size == 0 || used > blocks || first >= blocks || memory.len() < blocks.into();
        numbers || (used < blocks && !(1..=blocks).contains(&memory.cell(first.into())))
    }

    fn makes(call: Call) -> bool {
        matches!(call, Call::Init { .. })
    }

    fn expected(memory: &impl Memory<u32, 4>, call: Call, _: &[u32]) -> Expected<u32, 4> {
        let [blocks, size, used, first] = memory.head();
        match call {
            Call::Init { block_size, num_blocks }
                if block_size == 0 || num_blocks == 0 || memory.len() < num_blocks.into() =>
            {
                Expected::refusal(EINVAL.into())
            }
            Call::Init { block_size, num_blocks } => made(block_size, num_blocks),
            Call::Alloc if used == blocks => Expected::refusal(ENOMEM.into()),
            Call::Alloc => {
                let next = memory.cell(first.into()) - 1;
                Expected::done(first.into(), Moved::written(vec![(first.into(), 0)]), [blocks, size, used + 1, next])
            }
            Call::Free(block) if block >= blocks || memory.cell(block.into()) != 0 || used == 0 => {
                Expected::refusal(EINVAL.into())
            }
            Call::Free(block) => {
                let links = Moved::written(vec![(block.into(), first + 1)]);
                Expected::done(0, links, [blocks, size, used - 1, block])
            }
        }
    }

    fn any_head(len: u32, rng: &mut Rng) -> [u32; 4] {
        let blocks = up_to(len, rng);
        [blocks, rng.pick(&[0, 1, 8, 8, 8, u32::MAX]), up_to(blocks, rng), up_to(blocks.wrapping_sub(1), rng)]
    }

    /// Of many blocks, a link is to one of the first or last, which can be reached.
    fn any_cell([blocks, ..]: [u32; 4], rng: &mut Rng) -> u32 {
        let link = up_to(blocks.min(ROOM as u32), rng);
        rng.pick(&[0, link, link, link, link, blocks.wrapping_sub(1), blocks, blocks.wrapping_add(1)])
    }

    fn any_calls([blocks, .., first]: [u32; 4], rng: &mut Rng) -> Vec<Call> {
        vec![
            Call::Init { block_size: rng.pick(&[0, 1, 8, u32::MAX]), num_blocks: any_number(rng) },
            Call::Alloc,
            Call::Free(first),
            Call::Free(up_to(blocks, rng)),
            Call::Free(any_number(rng)),
        ]
    }

    /// An init would write all links, so all of these are made already.
    fn limits() -> Vec<([u32; 4], u64)> {
        let mut all = Vec::new();
        for blocks in [1 << 31, (1 << 31) + 1, u32::MAX - 1, u32::MAX] {
            for used in [0, 1, 1 << 31, blocks - 1, blocks] {
                for first in [0, 1, (1 << 31) - 1, blocks - 2, blocks - 1] {
                    all.push(([blocks, 8, used, first], blocks.into()));
                }
            }
        }
        all
    }

    fn limit_calls([blocks, ..]: [u32; 4]) -> Vec<Call> {
        let frees = [0, 1, 2, 3, (1 << 31) - 2, (1 << 31) - 1, blocks - 2, blocks - 1, blocks].map(Call::Free);
        let refused = Call::Init { block_size: 0, num_blocks: blocks };
        [refused, Call::Alloc].into_iter().chain(frees).collect()
    }
}
