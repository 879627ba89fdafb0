//! The library under test: include/waitqueue.h, with the objects' memory between guards.

pub mod condvar;
pub mod event;
pub mod far;
pub mod futex;
pub mod lent;
pub mod mem_slab;
pub mod msgq;
pub mod mutex;
pub mod pipe;
pub mod plain;
pub mod ring_buf;
pub mod sem;
pub mod stack;
pub mod thread;
pub mod timeout;
pub mod timer;
pub mod wait_queue;

use crate::answer::{Answer, Caller};
use crate::decide::Decision;
use lent::Cell;
use std::fmt;

pub const OK: i32 = 0;
pub const WAITS: i32 = 1;
pub const EPERM: i32 = -1;
pub const ENOENT: i32 = -2;
pub const EAGAIN: i32 = -11;
pub const ENOMEM: i32 = -12;
pub const EBUSY: i32 = -16;
pub const EINVAL: i32 = -22;
pub const EPIPE: i32 = -32;
pub const ENOMSG: i32 = -35;
pub const EDEADLK: i32 = -45;
pub const EOVERFLOW: i32 = -139;
pub const ECANCELED: i32 = -140;

pub const RUNNING: u32 = 1;
pub const BLOCKED: u32 = 2;
pub const WAITERS: usize = 64;

const GUARD: u64 = 0x6775_6172_6420_2121;
const UNTOUCHED: u64 = 0xA5A5_A5A5_5A5A_5A5A;

/// A kind of object of the library, of N header words.
pub trait Library<const N: usize> {
    type Call: Copy + fmt::Debug;
    type Numbers: PartialEq + fmt::Debug + AsMut<[i64]>;

    fn ask(memory: &mut Memory<N>, call: Self::Call) -> Result<Answer, String>;
    /// What the functions answer that only read.
    fn numbers(memory: &Memory<N>) -> Self::Numbers;
    fn audit(memory: &Memory<N>) -> bool;
}

pub fn entry_of(caller: Caller) -> u64 {
    u64::from(caller.priority) << 32 | u64::from(caller.id)
}

/// An object in memory: N header words and the entries of its queue.
#[repr(C)]
#[derive(Clone, Copy, PartialEq, Eq)]
pub struct Memory<const N: usize> {
    before: u64,
    pub head: [u32; N],
    between: [u32; 3],
    pub entry: [u64; WAITERS],
    after: u64,
}

impl<const N: usize> Memory<N> {
    pub fn new(head: [u32; N], entry: [u64; WAITERS]) -> Self {
        Memory { before: GUARD, head, between: [GUARD as u32; 3], entry, after: GUARD }
    }

    /// Memory in which no object has been made yet.
    pub fn raw() -> Self {
        Memory::new([u32::MAX; N], [UNTOUCHED; WAITERS])
    }

    /// How many wait: the last header word of every object.
    pub fn len(&self) -> u32 {
        self.head[N - 1]
    }

    pub fn guards_stand(&self) -> bool {
        self.before == GUARD && self.between == [GUARD as u32; 3] && self.after == GUARD
    }

    /// Those that wait, as they stand in memory: the first to be woken stands last.
    pub fn waiting(&self) -> &[u64] {
        &self.entry[..(self.len() as usize).min(WAITERS)]
    }

    fn parts(&self) -> (*const u32, *const u64) {
        (self.head.as_ptr(), self.entry.as_ptr())
    }

    fn parts_mut(&mut self) -> (*mut u32, *mut u64) {
        (self.head.as_mut_ptr(), self.entry.as_mut_ptr())
    }
}

impl<const N: usize> fmt::Debug for Memory<N> {
    /// With a length that no queue has, the entries mean nothing.
    fn fmt(&self, f: &mut fmt::Formatter) -> fmt::Result {
        let known = if self.len() as usize > WAITERS { &[] } else { self.waiting() };
        write!(f, "header {:?}, queue, hexadecimal: {:x?}", self.head, known.iter().rev().collect::<Vec<_>>())
    }
}

/// The answer of a call that wakes nobody.
fn plain(code: i32) -> Result<Answer, String> {
    Ok(Answer::code(code))
}

fn woken(word: u64) -> (u32, i32) {
    (word as u32, (word >> 32) as i32)
}

/// Lends one word, and answers the word if it was to be set.
fn with_word(call: impl FnOnce(*mut u64) -> i32, sets: impl Fn(i32) -> bool) -> Result<Answer, String> {
    let mut word = UNTOUCHED;
    let code = call(&mut word);
    if sets(code) {
        let (id, result) = woken(word);
        return Ok(Answer::woke(code, id, result));
    }
    if word != UNTOUCHED {
        return Err(format!("answers {code} and writes a woken thread"));
    }
    plain(code)
}

/// Lends room for so many woken threads, and answers those that were written.
fn with_room(room: usize, call: impl FnOnce(*mut u64, u64) -> i32) -> Result<Answer, String> {
    let mut out = [UNTOUCHED; WAITERS + 8];
    let code = call(out.as_mut_ptr(), room as u64);
    let count = code.max(0) as usize;
    if count > room {
        return Err(format!("answers {code} with room for {room}"));
    }
    let beyond = if code < 0 { 0 } else { room };
    if out[beyond..].iter().any(|&word| word != UNTOUCHED) {
        return Err(format!("answers {code} and writes past what it may, with room for {room}"));
    }
    Ok(Answer { code, woken: out[..count].iter().map(|&word| woken(word)).collect() })
}

/// Lends the words that a call writes if it does not refuse.
fn decided<C: Cell, const K: usize>(call: impl FnOnce([*mut C; K]) -> i64) -> Result<Decision<C>, String> {
    let mut out = [C::of(UNTOUCHED); K];
    let code = call(out.each_mut().map(|word| word as *mut C));
    if code >= 0 {
        return Ok(Decision::new(code, &out));
    }
    if out != [C::of(UNTOUCHED); K] {
        return Err(format!("answers {code} and writes {out:?}"));
    }
    Ok(Decision::new(code, &[]))
}
