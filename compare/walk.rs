//! Leads both sides through the same operations: all sequences of them, or random ones.

use crate::report::{Kind, Tally};
use crate::rng::Rng;
use std::fmt::Debug;

/// An object on both sides.
pub trait Pair: Clone {
    type Op: Copy + Debug;

    /// All operations of the walks over all sequences.
    fn ops(&self) -> Vec<Self::Op>;
    /// Runs the operation on both sides and holds answers and states against each other.
    fn step(&mut self, op: Self::Op) -> Result<Kind, String>;
    /// What ours says of itself: whether it is well formed as a whole.
    fn audit(&self) -> bool;
    fn draw(&self, rng: &mut Rng) -> Self::Op;
    fn show(&self) -> String;
}

/// Operations after which the two sides were not alike, and how.
struct Deviation<Op> {
    ops: Vec<Op>,
    why: String,
}

impl<Op: Copy + Debug> Deviation<Op> {
    fn describe<P: Pair<Op = Op>>(&self, start: &P) -> String {
        let steps: Vec<String> = self.ops.iter().map(|op| format!("    {op:?}\n")).collect();
        format!("  {}\n{}  {}", start.show(), steps.concat(), self.why)
    }
}

fn checked<P: Pair>(at: &mut P, op: P::Op) -> Result<Kind, String> {
    let kind = at.step(op)?;
    if !at.audit() {
        return Err("ours calls itself malformed".to_string());
    }
    Ok(kind)
}

/// All sequences of up to `depth` operations from each start. A deviation names a shortest sequence.
pub fn all_sequences<P: Pair>(starts: &[P], depth: usize, tally: &mut Tally) -> Result<(), String> {
    if starts.iter().all(|start| visit(start, &start.ops(), depth, tally).is_ok()) {
        return Ok(());
    }
    let shortest = (1..=depth).find_map(|depth| {
        starts.iter().find_map(|start| {
            let deviation = visit(start, &start.ops(), depth, &mut Tally::default()).err()?;
            Some(deviation.describe(start))
        })
    });
    Err(shortest.unwrap())
}

fn visit<P: Pair>(at: &P, ops: &[P::Op], depth: usize, tally: &mut Tally) -> Result<(), Deviation<P::Op>> {
    if depth == 0 {
        return Ok(());
    }
    for &op in ops {
        let mut next = at.clone();
        tally.count(checked(&mut next, op).map_err(|why| Deviation { ops: vec![op], why })?);
        visit(&next, ops, depth - 1, tally).map_err(|mut deviation| {
            deviation.ops.insert(0, op);
            deviation
        })?;
    }
    Ok(())
}

/// Random sequences. A deviation names a sequence from which no single operation can be left out.
pub fn random_sequences<P: Pair>(
    count: usize,
    length: usize,
    rng: &mut Rng,
    setup: impl Fn(&mut Rng) -> P,
    tally: &mut Tally,
) -> Result<(), String> {
    for _ in 0..count {
        let start = setup(rng);
        let mut at = start.clone();
        let mut ops = Vec::with_capacity(length);
        for _ in 0..length {
            let op = at.draw(rng);
            ops.push(op);
            match at.step(op) {
                Ok(kind) => tally.count(kind),
                Err(_) => return Err(shrunk(&start, &ops).describe(&start)),
            }
        }
        if !at.audit() {
            return Err(shrunk(&start, &ops).describe(&start));
        }
    }
    Ok(())
}

fn replay<P: Pair>(start: &P, ops: &[P::Op]) -> Option<Deviation<P::Op>> {
    let mut at = start.clone();
    ops.iter().enumerate().find_map(|(last, &op)| {
        let why = checked(&mut at, op).err()?;
        Some(Deviation { ops: ops[..=last].to_vec(), why })
    })
}

fn shrunk<P: Pair>(start: &P, ops: &[P::Op]) -> Deviation<P::Op> {
    let mut best = replay(start, ops).unwrap();
    while let Some(smaller) = (0..best.ops.len()).rev().find_map(|left_out| {
        let mut ops = best.ops.clone();
        ops.remove(left_out);
        replay(start, &ops)
    }) {
        best = smaller;
    }
    best
}
