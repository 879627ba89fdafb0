//! The memory slab. Gale does not know one block from another, so a free names one of those that are out by its place
//! among them.

use super::{decisions, sequences, Tallied, FEW};
use crate::rng::Rng;
use crate::upstream::mem_slab::{Call, DECIDES};
use gale::mem_slab::MemSlab;

impl Tallied for MemSlab {
    fn words(call: Call) -> (&'static str, Vec<i64>) {
        match call {
            Call::Init { block_size, num_blocks } => ("mem_slab.init", vec![block_size.into(), num_blocks.into()]),
            Call::Alloc => ("mem_slab.alloc", vec![]),
            Call::Free(place) => ("mem_slab.free", vec![place.into()]),
        }
    }
}

fn draw(slab: &MemSlab, rng: &mut Rng) -> Call {
    let init = Call::Init { block_size: rng.pick(&[0, 8, u32::MAX]), num_blocks: rng.pick(&[0, 2, 7]) };
    let calls = [Call::Alloc, Call::Free(rng.below(slab.num_used_get().max(1))), init];
    calls[rng.weighed(&[14, 10, 1])]
}

pub fn tests(rng: &mut Rng) {
    decisions("memory slab", &DECIDES, &FEW);
    let start = |rng: &mut Rng| {
        let num_blocks = rng.pick(&[1, 2, 3, 5, 16]);
        (MemSlab::init(1, 1).unwrap(), Call::Init { block_size: 16, num_blocks })
    };
    sequences("memory slab", rng, start, draw);
}
