//! The pipe.

use super::{decisions, sequences, Tallied, FEW};
use crate::rng::Rng;
use crate::upstream::pipe::{Call, PipeAndRing, DECIDES};

impl Tallied for PipeAndRing {
    fn words(call: Call) -> (&'static str, Vec<i64>) {
        match call {
            Call::Init(size) => ("pipe.init", vec![size.into()]),
            Call::Write(len) => ("pipe.write", vec![len as i64]),
            Call::WriteAll(len) => ("pipe.write_all", vec![len as i64]),
            Call::Read(len) => ("pipe.read", vec![len as i64]),
            Call::ReadAll(len) => ("pipe.read_all", vec![len as i64]),
            Call::Reset => ("pipe.reset", vec![]),
            Call::Close => ("pipe.close", vec![]),
            Call::ClearReset => ("pipe.clear_reset", vec![]),
        }
    }
}

fn draw(_: &PipeAndRing, rng: &mut Rng) -> Call {
    let len = rng.below(6).into();
    let init = Call::Init(rng.pick(&[0, 2, 7]));
    let moves = [Call::Write(len), Call::Read(len), Call::WriteAll(len), Call::ReadAll(len)];
    let calls = [&moves[..], &[Call::Reset, Call::Close, Call::ClearReset, init]].concat();
    calls[rng.weighed(&[12, 11, 6, 5, 1, 1, 4, 2])]
}

pub fn tests(rng: &mut Rng) {
    decisions("pipe", &DECIDES, &FEW);
    let start = |rng: &mut Rng| (PipeAndRing::init(1).unwrap(), Call::Init(rng.pick(&[1, 2, 3, 5, 16])));
    sequences("pipe", rng, start, draw);
}
