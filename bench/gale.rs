//! Gale's objects behind C functions (forms.h). bench/run writes Gale's sources as plain Rust first.
//!
//! SPDX-License-Identifier: Apache-2.0

#![allow(dead_code, unused_imports, unused_variables)]

#[path = "../target/bench/gale/condvar.rs"]
mod condvar;
#[path = "../target/bench/gale/error.rs"]
mod error;
#[path = "../target/bench/gale/mutex.rs"]
mod mutex;
#[path = "../target/bench/gale/priority.rs"]
mod priority;
#[path = "../target/bench/gale/sem.rs"]
mod sem;
#[path = "../target/bench/gale/thread.rs"]
mod thread;
#[path = "../target/bench/gale/wait_queue.rs"]
mod wait_queue;

use condvar::{CondVar, SignalResult};
use mutex::{LockResult, Mutex, UnlockResult};
use priority::Priority;
use sem::{GiveResult, Semaphore, TakeResult};
use std::mem::{align_of, size_of, MaybeUninit};
use thread::{Thread, ThreadId};

const WAITS: i32 = 1;

/// Whether it has room in a gale_object of forms.h.
const fn fits<T>() -> bool {
    size_of::<T>() <= 130 * 8 && align_of::<T>() <= 8
}

const _: () = assert!(fits::<Semaphore>() && fits::<Mutex>() && fits::<CondVar>());

fn running(id: u32, priority: u32) -> Thread {
    let mut t = Thread::new(id, Priority { value: priority });
    t.dispatch();
    t
}

/// A thread that was woken, as a wq_woken.
fn woken(t: &Thread) -> u64 {
    (t.return_value as u32 as u64) << 32 | t.id.id as u64
}

fn waits(has_room: bool) -> i32 {
    if has_room {
        WAITS
    } else {
        error::ENOMEM
    }
}

#[no_mangle]
pub extern "C" fn gale_sem_init(room: &mut MaybeUninit<Semaphore>, count: u32, limit: u32) -> i32 {
    match Semaphore::init(count, limit) {
        Ok(s) => {
            room.write(s);
            error::OK
        }
        Err(code) => code,
    }
}

#[no_mangle]
pub extern "C" fn gale_sem_give(s: &mut Semaphore, who: &mut u64) -> i32 {
    match s.give() {
        GiveResult::WokeThread(t) => {
            *who = woken(&t);
            0
        }
        GiveResult::Incremented => 1,
        GiveResult::Saturated => 2,
    }
}

#[no_mangle]
pub extern "C" fn gale_sem_take(s: &mut Semaphore, id: u32, priority: u32) -> i32 {
    if s.try_take() == TakeResult::Acquired {
        return error::OK;
    }
    waits(s.take_blocking(running(id, priority)))
}

#[no_mangle]
pub extern "C" fn gale_mutex_init(room: &mut MaybeUninit<Mutex>) -> i32 {
    room.write(Mutex::init());
    error::OK
}

#[no_mangle]
pub extern "C" fn gale_mutex_lock(m: &mut Mutex, id: u32, priority: u32) -> i32 {
    if m.try_lock(ThreadId { id }) == LockResult::Acquired {
        return error::OK;
    }
    waits(m.lock_blocking(running(id, priority)))
}

#[no_mangle]
pub extern "C" fn gale_mutex_unlock(m: &mut Mutex, id: u32, who: &mut u64) -> i32 {
    match m.unlock(ThreadId { id }) {
        Ok(UnlockResult::Released) => 0,
        Ok(UnlockResult::Unlocked) => 1,
        Ok(UnlockResult::Transferred(t)) => {
            *who = woken(&t);
            2
        }
        Err(code) => code,
    }
}

#[no_mangle]
pub extern "C" fn gale_condvar_init(room: &mut MaybeUninit<CondVar>) -> i32 {
    room.write(CondVar::init());
    error::OK
}

#[no_mangle]
pub extern "C" fn gale_condvar_signal(c: &mut CondVar, who: &mut u64) -> i32 {
    match c.signal() {
        SignalResult::Woke(t) => {
            *who = woken(&t);
            1
        }
        SignalResult::Empty => 0,
    }
}

/// Gale's wait knows no mutex: what is one step in waitqueue.h is two here.
#[no_mangle]
pub extern "C" fn gale_condvar_wait(c: &mut CondVar, m: &mut Mutex, id: u32, priority: u32, who: &mut u64) -> i32 {
    let answer = gale_mutex_unlock(m, id, who);
    if c.wait_blocking(running(id, priority)) {
        answer
    } else {
        error::ENOMEM
    }
}
