//! What all objects over lent elements share.

use crate::ours::lent::{Cell, Lent, Library, Memory, Reply, ROOM};
use crate::report::Kind;
use crate::rng::Rng;
use crate::upstream::Counts;
use crate::walk::Pair;
use std::collections::VecDeque;

pub const SHORT: &str = "init over fewer elements than it needs: -22";
pub const LONG: &str = "a length above 2^32 - 1: as 2^32 - 1";

/// Which elements go out, and which are written where.
pub struct Moved<C> {
    pub out: Vec<C>,
    pub writes: Vec<(u64, C)>,
}

impl<C> Moved<C> {
    pub fn none() -> Self {
        Moved::out(Vec::new())
    }

    pub fn out(out: Vec<C>) -> Self {
        Moved { out, writes: Vec::new() }
    }

    pub fn written(writes: Vec<(u64, C)>) -> Self {
        Moved { out: Vec::new(), writes }
    }
}

/// What is to come of a call.
pub struct Expected<C, const N: usize> {
    reply: Reply<C>,
    /// The header words and elements that change; none of a refusal.
    change: Option<([u32; N], Vec<(u64, C)>)>,
}

impl<C: Cell, const N: usize> Expected<C, N> {
    pub fn refusal(code: i64) -> Self {
        Expected { reply: Reply { code, out: Vec::new() }, change: None }
    }

    pub fn done(code: i64, moved: Moved<C>, head: [u32; N]) -> Self {
        Expected { reply: Reply { code, out: moved.out }, change: Some((head, moved.writes)) }
    }

    /// Whether ours answered so, and changed this and nothing else.
    pub fn hold<M: Memory<C, N>>(&self, before: &M, after: &M, reply: &Reply<C>) -> Result<(), String> {
        if self.reply != *reply {
            return Err(format!("expected {:?}, ours {reply:?}", self.reply));
        }
        let mut memory = before.clone();
        if let Some((head, writes)) = &self.change {
            memory.set_head(*head);
            writes.iter().for_each(|&(place, cell)| memory.set_cell(place, cell));
        }
        if memory != *after {
            return Err(format!(
                "answers {} as it should, and leaves wrong:\n  {after:?}\n  expected:\n  {memory:?}",
                reply.code
            ));
        }
        Ok(())
    }
}

impl<C: Cell, const N: usize> From<(i64, Moved<C>, [u32; N])> for Expected<C, N> {
    fn from((code, moved, head): (i64, Moved<C>, [u32; N])) -> Self {
        Expected::done(code, moved, head)
    }
}

/// Elements behind each other from this place on, in a ring.
pub fn around<C: Copy>(capacity: u32, from: u64, cells: &[C]) -> Vec<(u64, C)> {
    cells.iter().zip(from..).map(|(&cell, place)| (place % u64::from(capacity), cell)).collect()
}

/// A call that Gale does not refuse: what it answers, its object before and after, and what ours has made of it.
pub struct Step<'a, T: Object<N>, const N: usize> {
    pub call: T::Call,
    pub brought: &'a [T::Cell],
    pub answer: i64,
    pub before: &'a T::Gale,
    pub our_code: i64,
    pub ours: &'a Lent<T::Cell, N>,
}

/// A kind of object, on both sides.
pub trait Object<const N: usize>: Library<N> + Sized {
    type Gale: Counts<Call = Self::Call>;

    /// Gale's object of these numbers, well formed or not.
    fn gale(head: [u32; N]) -> Self::Gale;
    /// The header words that Gale's numbers are; ours where it has none.
    fn head(gale: &Self::Gale, ours: [u32; N]) -> [u32; N];
    /// Why ours is not to answer as Gale does, and its own answer. Without one, it answers as Gale does for the longest
    /// length that Gale can be told.
    fn apart(memory: &impl Memory<Self::Cell, N>, call: Self::Call) -> Option<(Kind, Option<i32>)>;
    /// Our code for what Gale answers; none if ours is to choose one.
    fn code(call: Self::Call, answer: i64) -> Option<i64>;
    /// Moves the elements that the object holds, as far as they are the driver's to move.
    fn moves(held: &mut VecDeque<Self::Cell>, step: Step<Self, N>) -> Result<Moved<Self::Cell>, String>;
    /// The calls of the walks over all sequences, over so many elements.
    fn calls(len: u32) -> Vec<Self::Call>;
    fn draw(both: &Both<Self, N>, rng: &mut Rng) -> Self::Call;
}

/// An object on both sides, and the elements that it holds, in their order.
pub struct Both<T: Object<N>, const N: usize> {
    pub gale: T::Gale,
    pub ours: Lent<T::Cell, N>,
    pub held: VecDeque<T::Cell>,
    /// How many elements were brought so far.
    brought: u64,
}

impl<T: Object<N>, const N: usize> Clone for Both<T, N> {
    fn clone(&self) -> Self {
        Both { gale: self.gale.copy(), held: self.held.clone(), ..*self }
    }
}

/// No two alike of as many as an object holds.
pub fn values<C: Cell>(from: u64, count: u64) -> Vec<C> {
    let count = count.min(2 * ROOM as u64);
    (from + 1..=from + count).map(|i| C::of(i.wrapping_mul(0x9E37_79B9_7F4A_7C15))).collect()
}

impl<T: Object<N>, const N: usize> Both<T, N> {
    /// Over so many elements, and led there by these calls, of which the first is an init.
    pub fn made(len: usize, calls: &[T::Call]) -> Self {
        let (gale, ours) = (T::gale([0; N]), Lent::raw(len));
        let mut both = Both { gale, ours, held: VecDeque::new(), brought: 0 };
        for &call in calls {
            both.step(call).unwrap_or_else(|why| panic!("{call:?}, one of {calls:?}: {why}"));
        }
        both
    }

    fn expected(
        &mut self,
        call: T::Call,
        brought: &[T::Cell],
        before: &Lent<T::Cell, N>,
        our_code: i64,
    ) -> Outcome<T, N> {
        let (kind, code) = T::apart(before, call).unwrap_or((Kind::Same, None));
        if let Some(code) = code {
            return Ok((kind, Expected::refusal(code.into())));
        }
        let gale = self.gale.copy();
        let answer = self.gale.call(call);
        if answer < 0 {
            return Ok((kind, Expected::refusal(answer)));
        }
        let step = Step { call, brought, answer, before: &gale, our_code, ours: &self.ours };
        let moved = T::moves(&mut self.held, step)?;
        let head = T::head(&self.gale, self.ours.head());
        Ok((kind, Expected::done(T::code(call, answer).unwrap_or(our_code), moved, head)))
    }
}

type Outcome<T, const N: usize> = Result<(Kind, Expected<<T as Library<N>>::Cell, N>), String>;

impl<T: Object<N>, const N: usize> Pair for Both<T, N> {
    type Op = T::Call;

    fn ops(&self) -> Vec<T::Call> {
        T::calls(self.ours.len() as u32)
    }

    fn step(&mut self, call: T::Call) -> Result<Kind, String> {
        let before = self.ours;
        let brought = values(self.brought, T::brings(call));
        self.brought += brought.len() as u64;
        let reply = self.ours.lend(|at| T::ask(at, call, &brought))?;
        let (kind, expected) = self.expected(call, &brought, &before, reply.code)?;
        expected.hold(&before, &self.ours, &reply)?;
        same_numbers::<T, N>(&self.gale, &mut self.ours)?;
        Ok(kind)
    }

    fn audit(&self) -> bool {
        true
    }

    fn draw(&self, rng: &mut Rng) -> T::Call {
        T::draw(self, rng)
    }

    fn show(&self) -> String {
        format!("{:?}, holding {:?}", self.ours, self.held)
    }
}

/// Whether ours says of itself what Gale says.
pub fn same_numbers<T: Object<N>, const N: usize>(
    gale: &T::Gale,
    ours: &mut impl Memory<T::Cell, N>,
) -> Result<(), String> {
    let (theirs, ours) = (gale.numbers(), ours.lend(T::numbers));
    if theirs == ours {
        return Ok(());
    }
    Err(format!("numbers: Gale {theirs:?}, ours {ours:?}"))
}
