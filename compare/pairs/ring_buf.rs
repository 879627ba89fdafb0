//! The ring buffer. The decide functions are told counters that run on, where the object has indices below its
//! capacity. It has no claims: finish_decide has nothing to be compared with, and claim_decide only with what takes
//! many slots at once.

use super::check::{number, one_of, words, Arg, Pair, Said};
use gale::ring_buf::{claim_decide, size_get_decide, space_get_decide, RingBuf};

/// The tail is where it must be, as far as there can be one.
fn buffer(input: &[u64]) -> RingBuf {
    let [capacity, head, size] = words(input);
    let tail = (u64::from(head) + u64::from(size)).checked_rem(capacity.into()).unwrap_or(0) as u32;
    RingBuf { capacity, head, tail, size }
}

fn args() -> Vec<Arg> {
    vec![number("capacity"), number("head"), number("size")]
}

fn well_formed(input: &[u64]) -> bool {
    let [capacity, head, size] = words(input);
    capacity > 0 && head < capacity && size <= capacity
}

fn holds(name: &'static str, number: u32) -> Said {
    Said::new("answers", &[(name, number)])
}

fn size_get() -> Pair {
    Pair {
        function: "ring_buf::size_get_decide",
        args: args(),
        allowed: well_formed,
        decide: |input| {
            let [_, head, size] = words(input);
            holds("size", size_get_decide(head.wrapping_add(size), head))
        },
        object: |input| holds("size", buffer(input).size_get()),
    }
}

fn space_get() -> Pair {
    Pair {
        function: "ring_buf::space_get_decide",
        args: args(),
        allowed: well_formed,
        decide: |input| {
            let [capacity, head, size] = words(input);
            holds("space", space_get_decide(head.wrapping_add(size), head, capacity))
        },
        object: |input| holds("space", buffer(input).space_get()),
    }
}

/// What a caller gets that hands over the object's own indices.
fn own_size_get() -> Pair {
    Pair {
        function: "ring_buf::size_get_decide, own indices",
        decide: |input| {
            let RingBuf { head, tail, .. } = buffer(input);
            holds("size", size_get_decide(tail, head))
        },
        ..size_get()
    }
}

fn own_space_get() -> Pair {
    Pair {
        function: "ring_buf::space_get_decide, own indices",
        decide: |input| {
            let RingBuf { capacity, head, tail, .. } = buffer(input);
            holds("space", space_get_decide(tail, head, capacity))
        },
        ..space_get()
    }
}

fn claim_args() -> Vec<Arg> {
    args().into_iter().chain([number("requested"), one_of("base", &[0, 1, u64::from(u32::MAX)])]).collect()
}

fn took(slot: u32, count: u32) -> Said {
    Said::new("takes", &[("number", count), ("from slot", slot)])
}

fn claim(index: u32, input: &[u64]) -> Said {
    let [capacity, _, _, requested, base] = words(input);
    let claim = claim_decide(base.wrapping_add(index), base, capacity, requested);
    took(claim.buffer_offset, claim.claim_size)
}

fn claim_to_put() -> Pair {
    Pair {
        function: "ring_buf::claim_decide, put_n",
        args: claim_args(),
        allowed: well_formed,
        decide: |input| claim(buffer(input).tail, input),
        object: |input| {
            let mut buffer = buffer(input);
            took(buffer.tail, buffer.put_n(words::<4>(input)[3]))
        },
    }
}

fn claim_to_get() -> Pair {
    Pair {
        function: "ring_buf::claim_decide, get_n",
        decide: |input| claim(buffer(input).head, input),
        object: |input| {
            let mut buffer = buffer(input);
            took(buffer.head, buffer.get_n(words::<4>(input)[3]))
        },
        ..claim_to_put()
    }
}

pub fn pairs() -> Vec<Pair> {
    vec![size_get(), own_size_get(), space_get(), own_space_get(), claim_to_put(), claim_to_get()]
}
