//! The counting semaphore.

use super::{answered, made, numbers_of, queue_holds, record, some_threads, test, Recorded, EDGES, LENGTH, SEQUENCES};
use crate::answer::Caller;
use crate::rng::Rng;
use crate::upstream::sem::{self, give_decision, take_decision, Call};
use gale::priority::MAX_PRIORITY;
use gale::sem::{give_decide, take_decide, Semaphore};
use gale::wait_queue::MAX_WAITERS;

impl Recorded for Semaphore {
    fn words(call: Call) -> (&'static str, Vec<i64>) {
        match call {
            Call::Give => ("sem.give", vec![]),
            Call::TryTake => ("sem.try_take", vec![]),
            Call::TakeBlocking(caller) => ("sem.take_blocking", numbers_of(caller)),
            Call::Reset => ("sem.reset", vec![]),
        }
    }

    fn holds(&self) -> Vec<i64> {
        [vec![self.count_get().into()], queue_holds(&self.wait_q)].concat()
    }
}

/// Where somebody waits while the count is above 0, ours differs on purpose, and nothing is recorded.
fn decisions() {
    test("semaphore, decide functions");
    for count in EDGES {
        for flag in [false, true] {
            for limit in EDGES.into_iter().filter(|&limit| limit > 0 && count <= limit && !(flag && count > 0)) {
                let decision = give_decision(give_decide(count, limit, flag));
                answered("sem.give_decide", &[count.into(), limit.into(), flag.into()], decision.into());
            }
            let decision = take_decision(take_decide(count, flag));
            answered("sem.take_decide", &[count.into(), flag.into()], decision.into());
        }
    }
}

fn init(count: u32, limit: u32) -> Option<Semaphore> {
    let (code, sem) = sem::init(count, limit);
    let inputs = [count.into(), limit.into()];
    if sem.is_none() {
        answered("sem.init", &inputs, code.into());
    }
    sem.map(|sem| made("sem.init", &inputs, sem))
}

fn inits() {
    test("semaphore, init");
    for (count, limit) in EDGES.into_iter().flat_map(|count| EDGES.map(move |limit| (count, limit))) {
        init(count, limit);
    }
}

fn worked_run() {
    test("semaphore, three threads of two priorities");
    let mut sem = init(0, 2).unwrap();
    for (id, priority) in [(7, 5), (3, 2), (9, 5)] {
        record(&mut sem, Call::TakeBlocking(Caller { id, priority }));
    }
    for _ in 0..6 {
        record(&mut sem, Call::Give);
    }
}

fn sequence(rng: &mut Rng, number: u32) {
    test(&format!("semaphore, sequence {number}"));
    let limit = rng.pick(&[1, 2, 3, 1000, u32::MAX]);
    let count = rng.pick(&[0, 0, 1, limit - 1, limit]);
    let threads = some_threads(rng);
    let mut sem = init(count, limit).unwrap();
    for _ in 0..LENGTH {
        let calls = [Call::Give, Call::TryTake, Call::TakeBlocking(rng.pick(&threads)), Call::Reset];
        record(&mut sem, calls[rng.weighed(&[8, 3, 16, 1])]);
    }
}

fn full() {
    test("semaphore, a full queue");
    let mut sem = init(0, 1).unwrap();
    for id in 0..MAX_WAITERS {
        record(&mut sem, Call::TakeBlocking(Caller { id, priority: id * 13 % MAX_PRIORITY }));
    }
    for _ in 0..MAX_WAITERS / 2 {
        record(&mut sem, Call::Give);
    }
    record(&mut sem, Call::Reset);
}

pub fn tests(rng: &mut Rng) {
    decisions();
    inits();
    worked_run();
    (1..=SEQUENCES).for_each(|number| sequence(rng, number));
    full();
}
