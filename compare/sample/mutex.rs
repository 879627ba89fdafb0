//! The mutex.

use super::{answered, made, numbers_of, queue_holds, record, some_threads, test, Recorded, EDGES, LENGTH, SEQUENCES};
use crate::answer::Caller;
use crate::rng::Rng;
use crate::upstream::mutex::{likely_owner, lock_decision, unlock_decision, Call};
use gale::error;
use gale::mutex::{lock_decide, unlock_decide, Mutex};
use gale::priority::MAX_PRIORITY;
use gale::wait_queue::MAX_WAITERS;

impl Recorded for Mutex {
    fn words(call: Call) -> (&'static str, Vec<i64>) {
        match call {
            Call::TryLock(id) => ("mutex.try_lock", vec![id.into()]),
            Call::LockBlocking(caller) => ("mutex.lock_blocking", numbers_of(caller)),
            Call::Unlock(id) => ("mutex.unlock", vec![id.into()]),
        }
    }

    fn holds(&self) -> Vec<i64> {
        let owner = self.owner_get().map_or(error::ENOENT.into(), |owner| owner.id.into());
        [vec![self.lock_count_get().into(), owner], queue_holds(&self.wait_q)].concat()
    }
}

/// Where there is an owner without a lock, or a lock without an owner, ours differs on purpose.
fn decisions() {
    test("mutex, decide functions");
    for count in EDGES {
        let null = count == 0;
        for (current, no_wait) in [(false, false), (false, true), (true, false), (true, true)] {
            let inputs = [count.into(), null.into(), current.into(), no_wait.into()];
            answered("mutex.lock_decide", &inputs, lock_decision(lock_decide(count, null, current, no_wait)).into());
        }
        for current in [false, true] {
            let inputs = [count.into(), null.into(), current.into()];
            answered("mutex.unlock_decide", &inputs, unlock_decision(unlock_decide(count, null, current)).into());
        }
    }
}

pub fn init() -> Mutex {
    made("mutex.init", &[], Mutex::init())
}

fn sequence(rng: &mut Rng, number: u32) {
    test(&format!("mutex, sequence {number}"));
    let threads = some_threads(rng);
    let mut mutex = init();
    for _ in 0..LENGTH {
        let caller = rng.pick(&threads);
        let unlocks = likely_owner(&mutex, &threads, rng);
        let calls = [Call::TryLock(caller.id), Call::LockBlocking(caller), Call::Unlock(unlocks.id)];
        record(&mut mutex, calls[rng.weighed(&[6, 10, 8])]);
    }
}

fn full() {
    test("mutex, a full queue");
    let mut mutex = init();
    record(&mut mutex, Call::TryLock(u32::MAX));
    for id in 0..MAX_WAITERS {
        record(&mut mutex, Call::LockBlocking(Caller { id, priority: id * 13 % MAX_PRIORITY }));
    }
    for _ in 0..MAX_WAITERS / 2 {
        let owner = mutex.owner_get().unwrap();
        record(&mut mutex, Call::Unlock(owner.id));
    }
}

pub fn tests(rng: &mut Rng) {
    decisions();
    (1..=SEQUENCES).for_each(|number| sequence(rng, number));
    full();
}
