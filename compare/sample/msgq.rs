//! The message queue. A message's length is ours only, so all have the right one.

use super::{decisions, sequences, Tallied, FEW};
use crate::rng::Rng;
use crate::upstream::msgq::{Call, DECIDES};
use gale::msgq::MsgQ;

impl Tallied for MsgQ {
    fn words(call: Call) -> (&'static str, Vec<i64>) {
        match call {
            Call::Init { msg_size, max_msgs } => ("msgq.init", vec![msg_size.into(), max_msgs.into()]),
            Call::Put { .. } => ("msgq.put", vec![]),
            Call::PutFront { .. } => ("msgq.put_front", vec![]),
            Call::Get { .. } => ("msgq.get", vec![]),
            Call::PeekAt { idx, .. } => ("msgq.peek_at", vec![idx.into()]),
            Call::Purge => ("msgq.purge", vec![]),
        }
    }
}

fn draw(queue: &MsgQ, rng: &mut Rng) -> Call {
    let len = queue.msg_size_get().into();
    let (msg_size, max_msgs) = (rng.pick(&[0, 1, 4, u32::MAX]), rng.pick(&[0, 3, 4]));
    let calls = [
        Call::Put { len },
        Call::PutFront { len },
        Call::Get { len },
        Call::PeekAt { idx: rng.below(5), len },
        Call::Purge,
        Call::Init { msg_size, max_msgs },
    ];
    calls[rng.weighed(&[12, 6, 14, 6, 1, 1])]
}

pub fn tests(rng: &mut Rng) {
    decisions("message queue", &DECIDES, &FEW);
    let start = |rng: &mut Rng| {
        let (msg_size, max_msgs) = (rng.pick(&[1, 3, 8]), rng.pick(&[1, 2, 3, 8]));
        (MsgQ::init(1, 1).unwrap(), Call::Init { msg_size, max_msgs })
    };
    sequences("message queue", rng, start, draw);
}
