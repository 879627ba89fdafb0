//! The message queue of Gale's Rust.

use super::{remade, slot, Counts};
use crate::decide::Arg::{Flag, Number};
use crate::decide::{words, Apart, Decide, Decision};
use gale::error::{EINVAL, ENOMSG};
use gale::msgq::{get_decide, peek_at_decide, put_decide, put_front_decide, GetDecision, MsgQ, PutDecision};

/// A message has a length for ours only.
#[derive(Clone, Copy, Debug)]
pub enum Call {
    Init { msg_size: u32, max_msgs: u32 },
    Put { len: u64 },
    PutFront { len: u64 },
    Get { len: u64 },
    PeekAt { idx: u32, len: u64 },
    Purge,
}

impl Counts for MsgQ {
    type Call = Call;

    fn call(&mut self, call: Call) -> i64 {
        match call {
            Call::Init { msg_size, max_msgs } => remade(self, MsgQ::init(msg_size, max_msgs)),
            Call::Put { .. } => slot(self.put()),
            Call::PutFront { .. } => slot(self.put_front()),
            Call::Get { .. } => slot(self.get()),
            Call::PeekAt { idx, .. } => slot(self.peek_at(idx)),
            Call::Purge => self.purge().into(),
        }
    }

    fn numbers(&self) -> Vec<i64> {
        let [max, size, read] = [self.max_msgs_get(), self.msg_size_get(), self.read_idx_get()].map(i64::from);
        let [write, used, free] = [self.write_idx_get(), self.num_used_get(), self.num_free_get()].map(i64::from);
        vec![max, size, read, write, used, free, self.is_empty().into(), self.is_full().into()]
    }

    fn copy(&self) -> Self {
        MsgQ { ..*self }
    }
}

const MALFORMED: &str = "no room for a message, or an index or number above it: -22";
const READER_WAITS: &str =
    "put_decide, a reader waits while there are messages: Gale hands over (1), or if full 2 or -35, ours -22";
const WRITER_WAITS: &str =
    "get_decide, a writer waits while there is room: Gale wakes it (1), or if empty 2 or -35, ours -22";
pub const APART: [&str; 3] = [MALFORMED, READER_WAITS, WRITER_WAITS];

fn malformed(input: &[u32]) -> Option<Apart> {
    let [idx, used, max] = words(&input[..3]);
    (max == 0 || idx >= max || used > max).then(|| Apart::outside(MALFORMED, EINVAL))
}

pub const DECIDES: [Decide; 4] = [
    Decide {
        name: "msgq.put_decide",
        args: &[Number, Number, Number, Flag, Flag],
        apart: |input| {
            let [_, used, _, waiter, _] = words(input);
            let differs = || Apart::differs(READER_WAITS, &[1, 2, -35], EINVAL);
            malformed(input).or_else(|| (waiter != 0 && used > 0).then(differs))
        },
        gale: |input| {
            let [write_idx, used, max, waiter, no_wait] = words(input);
            let result = put_decide(write_idx, used, max, waiter != 0, no_wait != 0);
            let code = match result.decision {
                PutDecision::Store => 0,
                PutDecision::WakeReader => 1,
                PutDecision::Pend => 2,
                PutDecision::Full => return Decision::refusal(ENOMSG),
            };
            Decision::new(code, &[result.new_write_idx, result.new_used])
        },
    },
    Decide {
        name: "msgq.get_decide",
        args: &[Number, Number, Number, Flag, Flag],
        apart: |input| {
            let [_, used, max, waiter, _] = words(input);
            let differs = || Apart::differs(WRITER_WAITS, &[1, 2, -35], EINVAL);
            malformed(input).or_else(|| (waiter != 0 && used < max).then(differs))
        },
        gale: |input| {
            let [read_idx, used, max, waiter, no_wait] = words(input);
            let result = get_decide(read_idx, used, max, waiter != 0, no_wait != 0);
            let code = match result.decision {
                GetDecision::Read => 0,
                GetDecision::WakeWriter => 1,
                GetDecision::Pend => 2,
                GetDecision::Empty => return Decision::refusal(ENOMSG),
            };
            Decision::new(code, &[result.new_read_idx, result.new_used])
        },
    },
    Decide {
        name: "msgq.put_front_decide",
        args: &[Number, Number, Number],
        apart: malformed,
        gale: |input| {
            let [read_idx, used, max] = words(input);
            let result = put_front_decide(read_idx, used, max);
            if !result.ok {
                return Decision::refusal(ENOMSG);
            }
            Decision::new(0, &[result.new_read_idx, result.new_used])
        },
    },
    Decide {
        name: "msgq.peek_at_decide",
        args: &[Number, Number, Number, Number],
        apart: malformed,
        gale: |input| {
            let [read_idx, used, max, idx] = words(input);
            let result = peek_at_decide(read_idx, used, max, idx);
            if !result.ok {
                return Decision::refusal(ENOMSG);
            }
            Decision::new(0, &[result.slot_idx])
        },
    },
];
