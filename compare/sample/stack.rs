//! The stack.

use super::{decisions, sequences, Tallied, FEW};
use crate::rng::Rng;
use crate::upstream::stack::{Call, DECIDES};
use gale::stack::Stack;

impl Tallied for Stack {
    fn words(call: Call) -> (&'static str, Vec<i64>) {
        match call {
            Call::Init(capacity) => ("stack.init", vec![capacity.into()]),
            Call::Push => ("stack.push", vec![]),
            Call::Pop => ("stack.pop", vec![]),
        }
    }
}

fn draw(_: &Stack, rng: &mut Rng) -> Call {
    let calls = [Call::Push, Call::Pop, Call::Init(rng.pick(&[0, 2, 7]))];
    calls[rng.weighed(&[12, 10, 1])]
}

pub fn tests(rng: &mut Rng) {
    decisions("stack", &DECIDES, &FEW);
    let start = |rng: &mut Rng| (Stack::init(1).unwrap(), Call::Init(rng.pick(&[1, 2, 3, 5, 16])));
    sequences("stack", rng, start, draw);
}
