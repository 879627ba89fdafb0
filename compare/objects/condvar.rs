//! The condition variable, with the mutex that a wait gives back.

use super::condvar_rules::WithMutex;
use super::mutex::free;
use crate::answer::{Answer, Caller};
use crate::memory;
use crate::numbers::{equal, waiters};
use crate::ours::condvar::{self as ours, Condvar};
use crate::ours::mutex::Mutex;
use crate::ours::{Library, Memory, EDEADLK, EINVAL, OK, RUNNING, WAITERS};
use crate::queue::{
    draw_thread, random_threads, refused, same_numbers, same_queue, woken_all, Both, Object, Scene, FULL, WAITS,
};
use crate::report::{Kind, Report, Tally};
use crate::rng::Rng;
use crate::upstream::condvar::{signal_decision, wait_decision, Apart, Call, CondvarAndMutex};
use crate::upstream::mutex::{is_owner, likely_owner, Call as MutexCall};
use crate::upstream::wait_queue::{cannot_wait, is_in, waiting};
use crate::upstream::Upstream;
use crate::walk::{all_sequences, random_sequences};
use gale::condvar::{broadcast_decide, signal_decide, wait_decide};

const MUTEX: &str = "a call on the mutex: as in the comparisons of the mutex";
const NESTED: &str = "a wait with the mutex locked more than once: Gale waits and keeps the mutex, ours -45";
const TOO_MANY: &str = "broadcast_decide, more than 64 wait: Gale answers the number, ours -22";

/// Where upstream lets a thread wait that keeps the mutex, it must really do so.
fn check_nested(gale: &CondvarAndMutex, caller: Caller) {
    if cannot_wait(&gale.condvar.wait_q, caller).is_none() {
        let mut after = gale.copy();
        after.call(Call::Wait(caller));
        assert!(is_owner(&after.mutex, caller.id) && cannot_wait(&after.condvar.wait_q, caller).is_some());
    }
}

impl Object for Condvar {
    type Gale = CondvarAndMutex;
    type Ours = (Memory<1>, Memory<4>);
    type Call = Call;

    fn expected(gale: &mut CondvarAndMutex, call: Call) -> (Answer, Kind) {
        match (gale.apart(call), call) {
            (Some(Apart::Mutex), Call::Mutex(call)) => (Mutex::expected(&mut gale.mutex, call).0, Kind::Outside(MUTEX)),
            (Some(Apart::Nested), Call::Wait(caller)) => {
                check_nested(gale, caller);
                (Answer::code(EDEADLK), Kind::Differs(NESTED))
            }
            (Some(Apart::Queue(why)), _) => refused(why),
            (_, Call::Broadcast) => {
                let woken = woken_all(&gale.condvar.wait_q, OK);
                (Answer { woken, ..gale.call(call) }, Kind::Same)
            }
            _ => (gale.call(call), Kind::Same),
        }
    }

    fn ask_ours((condvar, mutex): &mut Self::Ours, call: Call, state: u32) -> Result<Answer, String> {
        match call {
            Call::Wait(caller) => ours::wait(condvar, mutex, caller, state),
            Call::Signal => Condvar::ask(condvar, ours::Call::Signal),
            Call::Broadcast => Condvar::ask(condvar, ours::Call::Broadcast { room: condvar.len() as usize }),
            Call::Mutex(call) => Mutex::ask_ours(mutex, call, state),
        }
    }

    fn same(gale: &CondvarAndMutex, (condvar, mutex): &Self::Ours) -> Result<(), String> {
        let numbers = [gale.condvar.num_waiters().into(), gale.condvar.has_waiters().into()];
        same_numbers::<Condvar, 1>(numbers, condvar)?;
        same_queue(&gale.condvar.wait_q, condvar)?;
        Mutex::same(&gale.mutex, mutex).map_err(|why| format!("mutex: {why}"))
    }

    fn audit_ours((condvar, mutex): &Self::Ours) -> bool {
        Condvar::audit(condvar) && Mutex::audit(mutex)
    }

    fn calls(threads: &[Caller]) -> Vec<Call> {
        let by = |&caller: &Caller| {
            let [lock, unlock] = [MutexCall::LockBlocking(caller), MutexCall::Unlock(caller.id)];
            [Call::Wait(caller), Call::Mutex(lock), Call::Mutex(unlock)]
        };
        threads.iter().flat_map(by).chain([Call::Signal, Call::Broadcast]).collect()
    }

    fn draw(gale: &CondvarAndMutex, scene: &Scene, rng: &mut Rng) -> Call {
        let CondvarAndMutex { condvar, mutex } = gale;
        let is_busy = |id| is_in(&condvar.wait_q, id) || is_in(&mutex.wait_q, id) || is_owner(mutex, id);
        let owner = likely_owner(mutex, &scene.threads, rng);
        match rng.weighed(&scene.weights) {
            0 => Call::Wait(owner),
            1 => Call::Mutex(MutexCall::LockBlocking(draw_thread(scene, rng, is_busy))),
            2 => Call::Mutex(MutexCall::Unlock(owner.id)),
            3 => Call::Mutex(MutexCall::TryLock(draw_thread(scene, rng, is_busy).id)),
            4 => Call::Signal,
            _ => Call::Broadcast,
        }
    }

    fn show(gale: &CondvarAndMutex) -> String {
        let ids: Vec<u32> = waiting(&gale.condvar.wait_q).map(|thread| thread.id.id).collect();
        format!("a condition variable where {ids:?} wait, and {}", Mutex::show(&gale.mutex))
    }
}

/// With these threads in the queue already.
fn made(waiting: &[Caller]) -> (CondvarAndMutex, (Memory<1>, Memory<4>)) {
    let (mut gale, mut ours) = (CondvarAndMutex::init(), (Memory::raw(), free().1));
    Condvar::ask(&mut ours.0, ours::Call::Init).unwrap();
    for &caller in waiting {
        for call in [Call::Mutex(MutexCall::TryLock(caller.id)), Call::Wait(caller)] {
            gale.call(call);
            Condvar::ask_ours(&mut ours, call, RUNNING).unwrap();
        }
    }
    (gale, ours)
}

/// Two calls for each that waits fill no queue in time, so that some begin with one that is almost full.
fn random_start(rng: &mut Rng) -> Both<Condvar> {
    let threads = random_threads(rng);
    let waiting = if threads.len() > 60 { rng.pick(&[0, 0, 60]) } else { 0 };
    let weights = vec![4 + rng.below(8), 4 + rng.below(8), rng.below(4), rng.below(4), rng.below(12), rng.below(8) / 7];
    Both::new(made(&threads[..waiting]), threads, weights)
}

fn compare_decide(tally: &mut Tally) -> Result<(), String> {
    for flag in [false, true] {
        let (signal, wait) = unsafe { (ours::wq_condvar_signal_decide(flag), ours::wq_condvar_wait_decide(flag)) };
        equal(format!("signal_decide({flag})"), signal_decision(signal_decide(flag)), signal)?;
        tally.count(Kind::Same);
        equal(format!("wait_decide({flag})"), wait_decision(wait_decide(flag)), wait)?;
        tally.count(Kind::Same);
    }
    for count in waiters() {
        let (expected, kind) = if count as usize > WAITERS {
            (EINVAL, Kind::Differs(TOO_MANY))
        } else {
            (broadcast_decide(count) as i32, Kind::Same)
        };
        equal(format!("broadcast_decide({count})"), expected, unsafe { ours::wq_condvar_broadcast_decide(count) })?;
        tally.count(kind);
    }
    Ok(())
}

pub fn compare(report: &mut Report, seed: u64) {
    report.run("condvar: decide functions", &[TOO_MANY], compare_decide);
    report.run("condvar: all sequences of 6", &[MUTEX, WAITS, NESTED], |tally| {
        all_sequences(&Both::<Condvar>::small(|_| made(&[])), 6, tally)
    });
    report.run("condvar: 100,000 random sequences of 200", &[MUTEX, WAITS, FULL, NESTED], |tally| {
        random_sequences(100_000, 200, &mut Rng::new(seed), random_start, tally)
    });
    memory::compare::<WithMutex, 1>(report, "condvar: any memory", seed);
}
