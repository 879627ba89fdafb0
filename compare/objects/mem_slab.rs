//! The memory slab. Gale counts blocks; here the elements that the object holds are the blocks that are out.

use crate::decisions::compare_decides;
use crate::lent::{Both, Moved, Object, Step, SHORT};
use crate::lent_memory::{compare_any, compare_limits};
use crate::ours::lent::{Memory, ROOM};
use crate::ours::mem_slab::{self as ours, MemSlab};
use crate::ours::EINVAL;
use crate::report::{Kind, Report};
use crate::rng::Rng;
use crate::upstream::mem_slab::{Call, APART, DECIDES};
use crate::upstream::Counts;
use crate::walk::{all_sequences, random_sequences};
use gale::mem_slab::MemSlab as Gale;
use std::collections::VecDeque;

pub const NOT_OUT: &str = "free of a block that is not out, while others are: Gale counts one less (0), ours -22";

impl Object<4> for MemSlab {
    type Gale = Gale;

    fn gale([num_blocks, block_size, num_used, _]: [u32; 4]) -> Gale {
        Gale { num_blocks, block_size, num_used }
    }

    /// Which block comes next is for ours to say.
    fn head(gale: &Gale, [.., first]: [u32; 4]) -> [u32; 4] {
        [gale.num_blocks, gale.block_size, gale.num_used, first]
    }

    fn apart(memory: &impl Memory<u32, 4>, call: Call) -> Option<(Kind, Option<i32>)> {
        let [num_blocks, ..] = memory.head();
        match call {
            Call::Init { block_size, num_blocks } => {
                let short = block_size > 0 && u64::from(num_blocks) > memory.len();
                short.then_some((Kind::Outside(SHORT), Some(EINVAL)))
            }
            Call::Free(block) if block >= num_blocks || memory.cell(block.into()) != 0 => {
                let accepts = Self::gale(memory.head()).call(call) == 0;
                accepts.then_some((Kind::Differs(NOT_OUT), Some(EINVAL)))
            }
            _ => None,
        }
    }

    /// Ours answers the block.
    fn code(call: Call, answer: i64) -> Option<i64> {
        let is_block = matches!(call, Call::Alloc) && answer >= 0;
        (!is_block).then_some(answer)
    }

    /// The links may be any, if only those are 0 whose block is out.
    fn moves(out: &mut VecDeque<u32>, step: Step<Self, 4>) -> Result<Moved<u32>, String> {
        let num_blocks = step.ours.head()[0];
        match step.call {
            Call::Init { .. } => out.clear(),
            Call::Alloc => {
                let block = step.our_code;
                if !(0..num_blocks.into()).contains(&block) || out.contains(&(block as u32)) {
                    return Err(format!("hands out {block} of {num_blocks}, where these are out: {out:?}"));
                }
                out.push_back(block as u32);
            }
            Call::Free(block) => out.retain(|&other| other != block),
        }
        let links: Vec<_> = (0..num_blocks).map(|block| (block.into(), step.ours.cell(block.into()))).collect();
        if (0..num_blocks).any(|block| (links[block as usize].1 == 0) != out.contains(&block)) {
            return Err(format!("blocks that are out: {out:?}, links: {links:?}"));
        }
        Ok(Moved::written(links))
    }

    fn calls(len: u32) -> Vec<Call> {
        let inits = [(0, 1), (8, 0), (8, 2), (8, len + 1)];
        let inits = inits.map(|(block_size, num_blocks)| Call::Init { block_size, num_blocks });
        inits.into_iter().chain([Call::Alloc]).chain((0..=len).map(Call::Free)).collect()
    }

    fn draw(both: &Both<Self, 4>, rng: &mut Rng) -> Call {
        let blocks = both.gale.num_blocks;
        let any = rng.below(ROOM as u32 + 2);
        match rng.weighed(&[1, 55, 50]) {
            0 => Call::Init {
                block_size: rng.pick(&[0, 1, 8, u32::MAX]),
                num_blocks: rng.pick(&[0, 1, 2, 3, blocks, blocks, ROOM as u32, u32::MAX]),
            },
            1 => Call::Alloc,
            _ => {
                let place = rng.below(both.held.len().max(1) as u32) as usize;
                let given = both.held.get(place).copied().unwrap_or(any);
                Call::Free(rng.pick(&[given, given, given, given, given, given, any, blocks, u32::MAX]))
            }
        }
    }
}

fn made(len: usize, num_blocks: u32) -> Both<MemSlab, 4> {
    Both::made(len, &[Call::Init { block_size: 8, num_blocks }])
}

fn random(rng: &mut Rng) -> Both<MemSlab, 4> {
    let (len, num_blocks, ..) = super::ring_buf::random_start(rng);
    made(len, num_blocks)
}

pub fn compare(report: &mut Report, seed: u64) {
    let [alloc, free] = DECIDES;
    compare_decides(report, "memory slab: decide functions", &APART, [(alloc, ours::alloc), (free, ours::free)]);
    report.run("memory slab: all sequences of 6", &[SHORT, NOT_OUT], |tally| {
        let starts: Vec<_> = (1..=3).map(|blocks| made(blocks as usize + 1, blocks)).collect();
        all_sequences(&starts, 6, tally)
    });
    report.run("memory slab: 100,000 random sequences of 200", &[SHORT, NOT_OUT], |tally| {
        random_sequences(100_000, 200, &mut Rng::new(seed), random, tally)
    });
    compare_any::<MemSlab, 4>(report, "memory slab: any memory", &[SHORT, NOT_OUT], seed);
    compare_limits::<MemSlab, 4>(report, "memory slab: at the limits", &[NOT_OUT], seed);
}
