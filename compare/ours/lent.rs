//! Objects over elements that the caller lends, and the memory for them.

use super::far::lengthy;
use super::{GUARD, UNTOUCHED};
use std::fmt::Debug;

/// Most elements that are lent, but for objects at the limits of their numbers.
pub const ROOM: usize = 64;
const MARGIN: usize = 8;

/// An element: a byte, a link of a memory slab, or a word of a stack.
pub trait Cell: Copy + PartialEq + Debug {
    /// The low bits of the word.
    fn of(word: u64) -> Self;
}

impl Cell for u8 {
    fn of(word: u64) -> Self {
        word as u8
    }
}

impl Cell for u32 {
    fn of(word: u64) -> Self {
        word as u32
    }
}

impl Cell for u64 {
    fn of(word: u64) -> Self {
        word
    }
}

/// What every function of an object takes: its header, the elements, and how many they are.
#[derive(Clone, Copy)]
pub struct Parts<C> {
    pub head: *mut u32,
    pub cells: *mut C,
    pub len: u64,
}

/// An answer, and the elements that were handed out.
#[derive(Debug, PartialEq)]
pub struct Reply<C> {
    pub code: i64,
    pub out: Vec<C>,
}

/// A kind of object of the library, of N header words.
pub trait Library<const N: usize> {
    type Cell: Cell;
    type Call: Copy + Debug;

    /// How many elements the call brings. What is handed over may be said to be longer than these.
    fn brings(call: Self::Call) -> u64;
    fn ask(at: Parts<Self::Cell>, call: Self::Call, brought: &[Self::Cell]) -> Result<Reply<Self::Cell>, String>;
    /// What the functions answer that only read, in the order of Gale's.
    fn numbers(at: Parts<Self::Cell>) -> Vec<i64>;
}

/// Memory of an object: N header words, and elements that are lent.
pub trait Memory<C, const N: usize>: Clone + PartialEq + Debug {
    fn head(&self) -> [u32; N];
    fn set_head(&mut self, head: [u32; N]);
    fn len(&self) -> u64;
    fn cell(&self, i: u64) -> C;
    fn set_cell(&mut self, i: u64, cell: C);
    fn lend<T>(&mut self, call: impl FnOnce(Parts<C>) -> T) -> T;
}

/// Guards stand around the header, and around and behind the elements.
#[repr(C)]
#[derive(Clone, Copy, PartialEq)]
pub struct Lent<C, const N: usize> {
    before: u32,
    head: [u32; N],
    between: [u32; 3],
    margin: [C; MARGIN],
    /// Those behind the lent ones are guards too.
    cells: [C; ROOM],
    behind: [C; MARGIN],
    len: usize,
}

impl<C: Cell, const N: usize> Lent<C, N> {
    pub fn new(head: [u32; N], lent: &[C]) -> Self {
        let (word, guard) = (GUARD as u32, C::of(GUARD));
        let mut cells = [guard; ROOM];
        cells[..lent.len()].copy_from_slice(lent);
        let (margin, between) = ([guard; MARGIN], [word; 3]);
        Lent { before: word, head, between, margin, cells, behind: margin, len: lent.len() }
    }

    /// Memory in which no object has been made yet.
    pub fn raw(len: usize) -> Self {
        Lent::new([u32::MAX; N], &vec![C::of(UNTOUCHED); len])
    }
}

impl<C: Cell, const N: usize> Memory<C, N> for Lent<C, N> {
    fn head(&self) -> [u32; N] {
        self.head
    }

    fn set_head(&mut self, head: [u32; N]) {
        self.head = head;
    }

    fn len(&self) -> u64 {
        self.len as u64
    }

    fn cell(&self, i: u64) -> C {
        self.cells[..self.len][i as usize]
    }

    fn set_cell(&mut self, i: u64, cell: C) {
        self.cells[..self.len][i as usize] = cell;
    }

    fn lend<T>(&mut self, call: impl FnOnce(Parts<C>) -> T) -> T {
        call(Parts { head: self.head.as_mut_ptr(), cells: self.cells.as_mut_ptr(), len: self.len as u64 })
    }
}

impl<C: Cell, const N: usize> Debug for Lent<C, N> {
    fn fmt(&self, f: &mut std::fmt::Formatter) -> std::fmt::Result {
        write!(f, "header {:?}, lent {} {:?}", self.head, self.len, &self.cells[..self.len])?;
        let guards = Lent::<C, N>::new(self.head, &self.cells[..self.len]);
        f.write_str(if guards == *self { "" } else { ", and a guard is overwritten" })
    }
}

/// The answer of a call that hands out nothing.
pub fn plain<C>(code: impl Into<i64>) -> Result<Reply<C>, String> {
    Ok(Reply { code: code.into(), out: Vec::new() })
}

/// Hands over the elements, which are said to be so many.
pub fn with_source<C: Cell>(
    brought: &[C],
    len: u64,
    call: impl FnOnce(*const C, u64) -> i64,
) -> Result<Reply<C>, String> {
    if len == brought.len() as u64 {
        return plain(call(brought.as_ptr(), len));
    }
    let source = lengthy().at::<C>();
    unsafe { source.copy_from_nonoverlapping(brought.as_ptr(), brought.len()) };
    plain(call(source, len))
}

/// Lends room for so many elements, and answers those that were to be written by this answer.
pub fn with_room<C: Cell>(
    room: u64,
    written: impl Fn(i64) -> usize,
    call: impl FnOnce(*mut C, u64) -> i64,
) -> Result<Reply<C>, String> {
    let mut near = [C::of(UNTOUCHED); ROOM + MARGIN];
    let out: &mut [C] = if room <= ROOM as u64 {
        &mut near
    } else {
        let far = unsafe { std::slice::from_raw_parts_mut(lengthy().at::<C>(), ROOM + MARGIN) };
        far.fill(C::of(UNTOUCHED));
        far
    };
    let code = call(out.as_mut_ptr(), room);
    let count = if code < 0 { 0 } else { written(code) };
    if count > ROOM || count as u64 > room {
        return Err(format!("answers {code} with room for {room}"));
    }
    if out[count..].iter().any(|&cell| cell != C::of(UNTOUCHED)) {
        return Err(format!("answers {code} and writes more than that"));
    }
    Ok(Reply { code, out: out[..count].to_vec() })
}
