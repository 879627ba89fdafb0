//! The memory slab of Gale's Rust. It counts blocks, and does not know which.

use super::{remade, Counts};
use crate::decide::Arg::{Flag, Number};
use crate::decide::{words, Apart, Decide, Decision};
use gale::error::{EINVAL, ENOMEM};
use gale::mem_slab::{alloc_decide, free_decide, AllocDecision, FreeDecision, MemSlab};

#[derive(Clone, Copy, Debug)]
pub enum Call {
    Init { block_size: u32, num_blocks: u32 },
    Alloc,
    Free(u32),
}

impl Counts for MemSlab {
    type Call = Call;

    fn call(&mut self, call: Call) -> i64 {
        match call {
            Call::Init { block_size, num_blocks } => remade(self, MemSlab::init(block_size, num_blocks)),
            Call::Alloc => self.alloc().into(),
            Call::Free(_) => self.free().into(),
        }
    }

    fn numbers(&self) -> Vec<i64> {
        let [blocks, size] = [self.num_blocks_get(), self.block_size_get()].map(i64::from);
        let [used, free] = [self.num_used_get(), self.num_free_get()].map(i64::from);
        vec![blocks, size, used, free, self.is_empty().into(), self.is_full().into()]
    }

    fn copy(&self) -> Self {
        *self
    }
}

const TOO_MANY: &str = "alloc_decide, no blocks or more out than there are: Gale waits (1) or -12, ours -22";
const NONE_OUT: &str = "free_decide, no block is out: Gale frees (0) or hands over (1), ours -22";
pub const APART: [&str; 2] = [TOO_MANY, NONE_OUT];

pub const DECIDES: [Decide; 2] = [
    Decide {
        name: "mem_slab.alloc_decide",
        args: &[Number, Number, Flag],
        apart: |input| {
            let [num_used, num_blocks, _] = words(input);
            let differs = || Apart::differs(TOO_MANY, &[1, -12], EINVAL);
            (num_blocks == 0 || num_used > num_blocks).then(differs)
        },
        gale: |input| {
            let [num_used, num_blocks, no_wait] = words(input);
            let result = alloc_decide(num_used, num_blocks, no_wait != 0);
            let code = match result.decision {
                AllocDecision::Alloc => 0,
                AllocDecision::Pend => 1,
                AllocDecision::NoMem => return Decision::refusal(ENOMEM),
            };
            Decision::new(code, &[result.new_num_used])
        },
    },
    Decide {
        name: "mem_slab.free_decide",
        args: &[Number, Flag],
        apart: |input| (input[0] == 0).then(|| Apart::differs(NONE_OUT, &[0, 1], EINVAL)),
        gale: |input| {
            let [num_used, waiter] = words(input);
            let result = free_decide(num_used, waiter != 0);
            let code = match result.decision {
                FreeDecision::Free => 0,
                FreeDecision::WakeThread => 1,
            };
            Decision::new(code, &[result.new_num_used])
        },
    },
];
