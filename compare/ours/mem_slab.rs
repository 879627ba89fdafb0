//! The memory slab.

use super::decided;
use super::lent::{plain, Library, Parts, Reply};
use crate::decide::{words, Decision};
use crate::upstream::mem_slab::Call;

extern "C" {
    fn wq_mem_slab_init(head: *mut u32, link: *mut u32, len: u64, block_size: u32, num_blocks: u32) -> i32;
    fn wq_mem_slab_alloc(head: *mut u32, link: *mut u32, len: u64) -> i64;
    fn wq_mem_slab_free(head: *mut u32, link: *mut u32, len: u64, block: u32) -> i32;
    fn wq_mem_slab_num_used_get(head: *const u32, link: *const u32, len: u64) -> i64;
    fn wq_mem_slab_num_free_get(head: *const u32, link: *const u32, len: u64) -> i64;
    fn wq_mem_slab_num_blocks_get(head: *const u32, link: *const u32, len: u64) -> i64;
    fn wq_mem_slab_block_size_get(head: *const u32, link: *const u32, len: u64) -> i64;
    fn wq_mem_slab_is_full(head: *const u32, link: *const u32, len: u64) -> i32;
    fn wq_mem_slab_is_empty(head: *const u32, link: *const u32, len: u64) -> i32;
    fn wq_mem_slab_alloc_decide(num_used: u32, num_blocks: u32, is_no_wait: bool, new_used: *mut u32) -> i32;
    fn wq_mem_slab_free_decide(num_used: u32, has_waiter: bool, new_used: *mut u32) -> i32;
}

pub struct MemSlab;

impl Library<4> for MemSlab {
    type Cell = u32;
    type Call = Call;

    fn brings(_: Call) -> u64 {
        0
    }

    fn ask(Parts { head, cells, len }: Parts<u32>, call: Call, _: &[u32]) -> Result<Reply<u32>, String> {
        unsafe {
            match call {
                Call::Init { block_size, num_blocks } => {
                    plain(wq_mem_slab_init(head, cells, len, block_size, num_blocks))
                }
                Call::Alloc => plain(wq_mem_slab_alloc(head, cells, len)),
                Call::Free(block) => plain(wq_mem_slab_free(head, cells, len, block)),
            }
        }
    }

    fn numbers(Parts { head, cells, len }: Parts<u32>) -> Vec<i64> {
        unsafe {
            vec![
                wq_mem_slab_num_blocks_get(head, cells, len),
                wq_mem_slab_block_size_get(head, cells, len),
                wq_mem_slab_num_used_get(head, cells, len),
                wq_mem_slab_num_free_get(head, cells, len),
                wq_mem_slab_is_empty(head, cells, len).into(),
                wq_mem_slab_is_full(head, cells, len).into(),
            ]
        }
    }
}

pub fn alloc(input: &[u32]) -> Result<Decision, String> {
    let [num_used, num_blocks, is_no_wait] = words(input);
    decided(|[new_used]| unsafe { wq_mem_slab_alloc_decide(num_used, num_blocks, is_no_wait != 0, new_used) }.into())
}

pub fn free(input: &[u32]) -> Result<Decision, String> {
    let [num_used, has_waiter] = words(input);
    decided(|[new_used]| unsafe { wq_mem_slab_free_decide(num_used, has_waiter != 0, new_used) }.into())
}
