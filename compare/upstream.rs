//! Gale's Rust: its calls, when it forbids them, and its answers in the codes of the header.

pub mod condvar;
pub mod event;
pub mod futex;
pub mod mem_slab;
pub mod msgq;
pub mod mutex;
pub mod pipe;
pub mod ring_buf;
pub mod sem;
pub mod stack;
pub mod thread;
pub mod timeout;
pub mod timer;
pub mod wait_queue;

use crate::answer::Answer;
use crate::decide::Decision;
use std::fmt::Debug;

/// An object of Gale that holds a wait queue.
pub trait Upstream {
    type Call: Copy + Debug;
    /// Why ours is not to answer a call as upstream does: upstream's precondition forbids the call, or ours differs on
    /// purpose.
    type Apart;

    fn apart(&self, call: Self::Call) -> Option<Self::Apart>;
    fn call(&mut self, call: Self::Call) -> Answer;
    fn copy(&self) -> Self;
}

/// An object of Gale that holds indices and counts, and leaves the elements to its caller.
pub trait Counts {
    type Call: Copy + Debug;

    /// A slot or a number, or a code below 0.
    fn call(&mut self, call: Self::Call) -> i64;
    /// What the functions answer that only read.
    fn numbers(&self) -> Vec<i64>;
    fn copy(&self) -> Self;
}

/// An object of Gale that is a few numbers, and nothing else.
pub trait Plain: Copy {
    type Word;
    type Call: Copy + Debug + 'static;
    /// The calls that only read and take nothing.
    const READS: &'static [Self::Call];

    /// Why Gale's precondition forbids the call, and what ours refuses it with.
    fn outside(&self, _: Self::Call) -> Option<(&'static str, i32)> {
        None
    }

    /// Why ours is not to do as Gale does, if what it answers is the same.
    fn differs(_: Self::Call) -> Option<&'static str> {
        None
    }

    fn call(&mut self, call: Self::Call) -> Decision<Self::Word>;
}

/// What an init answers that makes the object anew.
fn remade<T>(object: &mut T, made: Result<T, i32>) -> i64 {
    match made {
        Ok(new) => {
            *object = new;
            0
        }
        Err(code) => code.into(),
    }
}

fn slot(answer: Result<u32, i32>) -> i64 {
    answer.map_or_else(i64::from, i64::from)
}

/// Gale counts in u32: what is longer is as the longest.
fn counted(len: u64) -> u32 {
    len.try_into().unwrap_or(u32::MAX)
}
