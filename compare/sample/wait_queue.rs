//! The wait queue.

use super::{made, numbers_of, queue_holds, record, some_threads, test, Recorded, LENGTH, SEQUENCES};
use crate::answer::Caller;
use crate::rng::Rng;
use crate::upstream::wait_queue::Call;
use gale::error;
use gale::priority::MAX_PRIORITY;
use gale::wait_queue::{WaitQueue, MAX_WAITERS};

impl Recorded for WaitQueue {
    fn words(call: Call) -> (&'static str, Vec<i64>) {
        match call {
            Call::Pend(caller) => ("wait_queue.pend", numbers_of(caller)),
            Call::UnpendFirst(result) => ("wait_queue.unpend_first", vec![result.into()]),
            Call::UnpendAll(result) => ("wait_queue.unpend_all", vec![result.into()]),
        }
    }

    fn holds(&self) -> Vec<i64> {
        queue_holds(self)
    }
}

fn new() -> WaitQueue {
    made("wait_queue.new", &[], WaitQueue::new())
}

fn sequence(rng: &mut Rng, number: u32) {
    test(&format!("wait queue, sequence {number}"));
    let threads = some_threads(rng);
    let mut queue = new();
    for _ in 0..LENGTH {
        let any = rng.number() as i32;
        let result = rng.pick(&[0, error::EAGAIN, i32::MIN, i32::MAX, any]);
        let calls = [Call::Pend(rng.pick(&threads)), Call::UnpendFirst(result), Call::UnpendAll(result)];
        record(&mut queue, calls[rng.weighed(&[16, 10, 1])]);
    }
}

fn full() {
    test("wait queue, full");
    let mut queue = new();
    for id in 0..MAX_WAITERS {
        record(&mut queue, Call::Pend(Caller { id: u32::MAX - id, priority: id * 5 % MAX_PRIORITY }));
    }
    record(&mut queue, Call::UnpendFirst(3));
    record(&mut queue, Call::UnpendAll(-140));
}

pub fn tests(rng: &mut Rng) {
    (1..=SEQUENCES).for_each(|number| sequence(rng, number));
    full();
}
