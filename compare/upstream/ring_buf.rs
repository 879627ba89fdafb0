//! The ring buffer of Gale's Rust.

use super::{counted, remade, slot, Counts};
use crate::decide::Arg::Number;
use crate::decide::{words, Decide, Decision};
use gale::ring_buf::{claim_decide, finish_decide, size_get_decide, space_get_decide, RingBuf};

#[derive(Clone, Copy, Debug)]
pub enum Call {
    Init(u32),
    Put,
    Get,
    PutN(u64),
    GetN(u64),
    PeekAt(u32),
    Reset,
}

impl Counts for RingBuf {
    type Call = Call;

    fn call(&mut self, call: Call) -> i64 {
        match call {
            Call::Init(capacity) => remade(self, RingBuf::init(capacity)),
            Call::Put => slot(self.put()),
            Call::Get => slot(self.get()),
            Call::PutN(len) => self.put_n(counted(len)).into(),
            Call::GetN(len) => self.get_n(counted(len)).into(),
            Call::PeekAt(idx) => slot(self.peek_at(idx)),
            Call::Reset => {
                self.reset();
                0
            }
        }
    }

    fn numbers(&self) -> Vec<i64> {
        let [capacity, head, tail] = [self.capacity_get(), self.head_get(), self.tail_get()].map(i64::from);
        let [size, space] = [self.size_get(), self.space_get()].map(i64::from);
        vec![capacity, head, tail, size, space, self.is_empty().into(), self.is_full().into()]
    }

    fn copy(&self) -> Self {
        *self
    }
}

pub const DECIDES: [Decide; 4] = [
    Decide {
        name: "ring_buf.claim_decide",
        args: &[Number, Number, Number, Number],
        apart: |_| None,
        gale: |input| {
            let [head, base, buf_size, requested] = words(input);
            let decision = claim_decide(head, base, buf_size, requested);
            Decision::new(decision.claim_size, &[decision.buffer_offset])
        },
    },
    Decide {
        name: "ring_buf.finish_decide",
        args: &[Number, Number, Number],
        apart: |_| None,
        gale: |input| {
            let [head, tail, size] = words(input);
            Decision::new(finish_decide(head, tail, size), &[])
        },
    },
    Decide {
        name: "ring_buf.space_get_decide",
        args: &[Number, Number, Number],
        apart: |_| None,
        gale: |input| {
            let [put_head, get_tail, buf_size] = words(input);
            Decision::new(space_get_decide(put_head, get_tail, buf_size), &[])
        },
    },
    Decide {
        name: "ring_buf.size_get_decide",
        args: &[Number, Number],
        apart: |_| None,
        gale: |input| {
            let [put_tail, get_head] = words(input);
            Decision::new(size_get_decide(put_tail, get_head), &[])
        },
    },
];
