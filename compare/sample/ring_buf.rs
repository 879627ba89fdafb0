//! The ring buffer.

use super::{decisions, sequences, Tallied, FEW};
use crate::rng::Rng;
use crate::upstream::ring_buf::{Call, DECIDES};
use gale::ring_buf::RingBuf;

impl Tallied for RingBuf {
    fn words(call: Call) -> (&'static str, Vec<i64>) {
        match call {
            Call::Init(capacity) => ("ring_buf.init", vec![capacity.into()]),
            Call::Put => ("ring_buf.put", vec![]),
            Call::Get => ("ring_buf.get", vec![]),
            Call::PutN(len) => ("ring_buf.put_n", vec![len as i64]),
            Call::GetN(len) => ("ring_buf.get_n", vec![len as i64]),
            Call::PeekAt(idx) => ("ring_buf.peek_at", vec![idx.into()]),
            Call::Reset => ("ring_buf.reset", vec![]),
        }
    }
}

fn draw(_: &RingBuf, rng: &mut Rng) -> Call {
    let (len, idx) = (rng.below(6).into(), rng.below(6));
    let calls = [
        Call::Put,
        Call::Get,
        Call::PutN(len),
        Call::GetN(len),
        Call::PeekAt(idx),
        Call::Reset,
        Call::Init(rng.pick(&[0, 2, 7])),
    ];
    calls[rng.weighed(&[12, 10, 8, 7, 6, 1, 1])]
}

pub fn tests(rng: &mut Rng) {
    decisions("ring buffer", &DECIDES, &FEW);
    let start = |rng: &mut Rng| (RingBuf::init(1).unwrap(), Call::Init(rng.pick(&[1, 2, 3, 5, 16])));
    sequences("ring buffer", rng, start, draw);
}
