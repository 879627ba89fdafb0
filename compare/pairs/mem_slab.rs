//! The memory slab. The object knows of no waiters: where one waits, a block is freed, and then the waiter allocates.

use super::check::{flag, number, words, Pair, Said};
use gale::error::{ENOMEM, OK};
use gale::mem_slab::{alloc_decide, free_decide, AllocDecision, FreeDecision, MemSlab};

fn left(what: &str, num_used: u32) -> Said {
    Said::new(what, &[("num_used", num_used)])
}

fn alloc() -> Pair {
    Pair {
        function: "mem_slab::alloc_decide",
        args: vec![number("num_used"), number("num_blocks"), flag("is_no_wait")],
        allowed: |input| {
            let [num_used, num_blocks, _] = words(input);
            num_blocks > 0 && num_used <= num_blocks
        },
        decide: |input| {
            let [num_used, num_blocks, no_wait] = words(input);
            let result = alloc_decide(num_used, num_blocks, no_wait != 0);
            match result.decision {
                AllocDecision::Alloc => left("allocates", result.new_num_used),
                AllocDecision::Pend => left("waits", result.new_num_used),
                AllocDecision::NoMem => left(&format!("refuses, {ENOMEM}"), result.new_num_used),
            }
        },
        object: |input| {
            let [num_used, num_blocks, no_wait] = words(input);
            let mut slab = MemSlab { num_blocks, block_size: 1, num_used };
            match slab.alloc() {
                OK => left("allocates", slab.num_used),
                ENOMEM if no_wait == 0 => left("waits", slab.num_used),
                code => left(&format!("refuses, {code}"), slab.num_used),
            }
        },
    }
}

/// The decide function is not told how many blocks there are.
fn free() -> Pair {
    Pair {
        function: "mem_slab::free_decide",
        args: vec![number("num_used"), flag("has_waiter")],
        allowed: |_| true,
        decide: |input| {
            let [num_used, waiter] = words(input);
            let result = free_decide(num_used, waiter != 0);
            match result.decision {
                FreeDecision::Free => left("frees", result.new_num_used),
                FreeDecision::WakeThread => left("hands over", result.new_num_used),
            }
        },
        object: |input| {
            let [num_used, waiter] = words(input);
            let mut slab = MemSlab { num_blocks: num_used.max(1), block_size: 1, num_used };
            match slab.free() {
                OK if waiter != 0 && slab.alloc() == OK => left("hands over", slab.num_used),
                OK => left("frees", slab.num_used),
                code => left(&format!("refuses, {code}"), slab.num_used),
            }
        },
    }
}

pub fn pairs() -> Vec<Pair> {
    vec![alloc(), free()]
}
