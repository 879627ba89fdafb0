//! The condition variable, with its mutex.

use super::mutex::init as init_mutex;
use super::{
    answered, made, numbers_of, queue_holds, record, some_threads, test, Recorded, LENGTH, SEQUENCES, WAITERS,
};
use crate::answer::Caller;
use crate::rng::Rng;
use crate::upstream::condvar::{signal_decision, wait_decision, Call, CondvarAndMutex};
use crate::upstream::mutex::{likely_owner, Call as MutexCall};
use gale::condvar::{broadcast_decide, signal_decide, wait_decide, CondVar};
use gale::mutex::Mutex;
use gale::priority::MAX_PRIORITY;
use gale::wait_queue::MAX_WAITERS;

impl Recorded for CondvarAndMutex {
    fn words(call: Call) -> (&'static str, Vec<i64>) {
        match call {
            Call::Wait(caller) => ("condvar.wait", numbers_of(caller)),
            Call::Signal => ("condvar.signal", vec![]),
            Call::Broadcast => ("condvar.broadcast", vec![]),
            Call::Mutex(call) => Mutex::words(call),
        }
    }

    fn holds(&self) -> Vec<i64> {
        [queue_holds(&self.condvar.wait_q), self.mutex.holds()].concat()
    }
}

fn decisions() {
    test("condition variable, decide functions");
    for flag in [false, true] {
        answered("condvar.signal_decide", &[flag.into()], signal_decision(signal_decide(flag)).into());
        answered("condvar.wait_decide", &[flag.into()], wait_decision(wait_decide(flag)).into());
    }
    for count in WAITERS {
        answered("condvar.broadcast_decide", &[count.into()], broadcast_decide(count).into());
    }
}

fn init() -> CondvarAndMutex {
    let mutex = init_mutex();
    made("condvar.init", &[], CondvarAndMutex { condvar: CondVar::init(), mutex })
}

/// The calls on the mutex alone are recorded as the mutex's own.
fn sequence(rng: &mut Rng, number: u32) {
    test(&format!("condition variable, sequence {number}"));
    let threads = some_threads(rng);
    let mut both = init();
    for _ in 0..LENGTH {
        let caller = rng.pick(&threads);
        let owner = likely_owner(&both.mutex, &threads, rng);
        match rng.weighed(&[8, 6, 6, 2, 4, 1]) {
            0 => record(&mut both, Call::Wait(owner)),
            1 => record(&mut both.mutex, MutexCall::TryLock(caller.id)),
            2 => record(&mut both.mutex, MutexCall::LockBlocking(caller)),
            3 => record(&mut both.mutex, MutexCall::Unlock(owner.id)),
            4 => record(&mut both, Call::Signal),
            _ => record(&mut both, Call::Broadcast),
        }
    }
}

fn full() {
    test("condition variable, a full queue");
    let threads: Vec<Caller> = (0..MAX_WAITERS).map(|id| Caller { id, priority: id * 13 % MAX_PRIORITY }).collect();
    let mut both = init();
    record(&mut both.mutex, MutexCall::TryLock(0));
    for &caller in &threads[1..] {
        record(&mut both.mutex, MutexCall::LockBlocking(caller));
    }
    for _ in 0..MAX_WAITERS {
        let owner = both.mutex.owner_get().unwrap();
        record(&mut both, Call::Wait(threads[owner.id as usize]));
    }
    for _ in 0..MAX_WAITERS / 4 {
        record(&mut both, Call::Signal);
    }
    record(&mut both, Call::Broadcast);
}

pub fn tests(rng: &mut Rng) {
    decisions();
    (1..=SEQUENCES).for_each(|number| sequence(rng, number));
    full();
}
