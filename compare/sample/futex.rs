//! The futex.

use super::{
    answered, left, made, queue_holds, record, some_threads, test, Recorded, EDGES, LENGTH, SEQUENCES, WAITERS,
};
use crate::answer::{Answer, Caller};
use crate::rng::Rng;
use crate::upstream::futex::{wait_decision, Call};
use gale::futex::{wait_decide, wake_decide, Futex};
use gale::priority::MAX_PRIORITY;
use gale::wait_queue::MAX_WAITERS;

impl Recorded for Futex {
    fn words(call: Call) -> (&'static str, Vec<i64>) {
        match call {
            Call::Wait { expected, caller } => {
                ("futex.wait", vec![expected.into(), caller.id.into(), caller.priority.into()])
            }
            Call::Wake { all } => ("futex.wake", vec![all.into()]),
            Call::ValSet(val) => ("futex.val_set", vec![val.into()]),
        }
    }

    fn holds(&self) -> Vec<i64> {
        [vec![self.val_get().into()], queue_holds(&self.wait_q)].concat()
    }
}

fn decisions() {
    test("futex, decide functions");
    for (val, expected) in EDGES.into_iter().flat_map(|val| EDGES.map(move |expected| (val, expected))) {
        let decision = wait_decision(wait_decide(val, expected));
        answered("futex.wait_decide", &[val.into(), expected.into()], decision.into());
    }
    for (count, all) in WAITERS.into_iter().flat_map(|count| [(count, false), (count, true)]) {
        let decision = wake_decide(count, all);
        let woken = Answer::code(decision.woken as i32);
        left("futex.wake_decide", &[count.into(), all.into()], &woken, [decision.remaining.into()]);
    }
}

fn init(val: u32) -> Futex {
    made("futex.init", &[val.into()], Futex::init(val))
}

fn sequence(rng: &mut Rng, number: u32) {
    test(&format!("futex, sequence {number}"));
    let threads = some_threads(rng);
    let mut futex = init(rng.pick(&EDGES));
    for _ in 0..LENGTH {
        let other = rng.pick(&EDGES);
        let wait = Call::Wait { expected: rng.pick(&[futex.val, futex.val, other]), caller: rng.pick(&threads) };
        let calls = [wait, Call::Wake { all: false }, Call::Wake { all: true }, Call::ValSet(other)];
        record(&mut futex, calls[rng.weighed(&[16, 6, 1, 4])]);
    }
}

fn full() {
    test("futex, a full queue");
    let mut futex = init(1);
    for id in 0..MAX_WAITERS {
        record(&mut futex, Call::Wait { expected: 1, caller: Caller { id, priority: id * 13 % MAX_PRIORITY } });
    }
    for _ in 0..MAX_WAITERS / 4 {
        record(&mut futex, Call::Wake { all: false });
    }
    record(&mut futex, Call::Wake { all: true });
}

pub fn tests(rng: &mut Rng) {
    decisions();
    (1..=SEQUENCES).for_each(|number| sequence(rng, number));
    full();
}
