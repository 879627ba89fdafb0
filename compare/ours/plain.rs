//! Objects that are a few words, and nothing else.

use super::lent::Cell;
use super::GUARD;
use crate::decide::Decision;
use std::fmt::Debug;

/// A kind of object of the library, of N words.
pub trait Library<const N: usize> {
    type Word: Cell;
    type Call: Copy + Debug;

    fn ask(head: *mut Self::Word, call: Self::Call) -> Result<Decision<Self::Word>, String>;
}

/// The words of an object, between guards.
#[repr(C)]
#[derive(Clone, Copy, PartialEq)]
pub struct Words<W, const N: usize> {
    before: [W; 2],
    pub head: [W; N],
    behind: [W; 2],
}

impl<W: Cell, const N: usize> Words<W, N> {
    pub fn new(head: [W; N]) -> Self {
        let guards = [W::of(GUARD); 2];
        Words { before: guards, head, behind: guards }
    }

    pub fn guards_stand(&self) -> bool {
        *self == Words::new(self.head)
    }
}

impl<W: Cell, const N: usize> Debug for Words<W, N> {
    fn fmt(&self, f: &mut std::fmt::Formatter) -> std::fmt::Result {
        write!(f, "header {:?}", self.head)?;
        f.write_str(if self.guards_stand() { "" } else { ", and a guard is overwritten" })
    }
}

/// The answer of a call that writes no number.
pub fn only<W: Cell>(code: impl Into<i64>) -> Result<Decision<W>, String> {
    Ok(Decision::new(code, &[]))
}
