//! Asks Gale's decide functions, and its objects, what `border --inputs` wrote. Links nothing of ours.
//!
//! The one argument is Gale's commit. For each function and each side a line "FUNCTION SIDE", then one character for each
//! input: the number of Gale's decision; o, it panics by an overflow; u, it unwraps None; x, it panics otherwise.

use gale::mutex::{lock_decide, unlock_decide, LockResult, Mutex, UnlockResult};
use gale::priority::Priority;
use gale::sem::{give_decide, take_decide, GiveResult, Semaphore, TakeResult};
use gale::thread::{Thread, ThreadId};
use gale::wait_queue::WaitQueue;
use std::io::Read;
use std::panic::{catch_unwind, set_hook};

type Input = [u32; 4];

const CALLER: ThreadId = ThreadId { id: 0 };
const OTHER: ThreadId = ThreadId { id: 99 };

fn running(id: u32) -> Thread {
    let mut thread = Thread::new(id, Priority::new(0).unwrap());
    thread.dispatch();
    thread
}

/// Nobody, or thread 1.
fn queue(waiter: bool) -> WaitQueue {
    let mut queue = WaitQueue::new();
    if waiter {
        let mut thread = running(1);
        thread.block();
        queue.pend(thread);
    }
    queue
}

fn give([count, limit, waiter, _]: Input) -> u8 {
    let mut sem = Semaphore { wait_q: queue(waiter != 0), count, limit };
    match sem.give() {
        GiveResult::WokeThread(_) => 0,
        GiveResult::Incremented => 1,
        GiveResult::Saturated => 2,
    }
}

/// The decide function is told no limit: here it is the largest. Who finds none, and may, waits.
fn take([count, no_wait, ..]: Input) -> u8 {
    let mut sem = Semaphore { wait_q: queue(false), count, limit: u32::MAX };
    match sem.try_take() {
        TakeResult::Acquired => 0,
        _ if no_wait != 0 => 1,
        _ => waits(sem.take_blocking(running(CALLER.id))),
    }
}

fn waits(joined: bool) -> u8 {
    assert!(joined);
    2
}

fn mutex([count, null, current, _]: Input) -> Mutex {
    let owner = if current != 0 { CALLER } else { OTHER };
    Mutex { wait_q: queue(false), owner: (null == 0).then_some(owner), lock_count: count }
}

fn lock(input: Input) -> u8 {
    let mut mutex = mutex(input);
    match mutex.try_lock(CALLER) {
        LockResult::Acquired if mutex.lock_count == 1 => 0,
        LockResult::Acquired => 1,
        LockResult::WouldBlock if input[3] != 0 => 3,
        LockResult::WouldBlock => waits(mutex.lock_blocking(running(CALLER.id))),
    }
}

fn unlock(input: Input) -> u8 {
    match mutex(input).unlock(CALLER) {
        Err(gale::error::EINVAL) => 0,
        Err(_) => 1,
        Ok(UnlockResult::Released) => 2,
        Ok(_) => 3,
    }
}

/// Name, side, and the number of the decision.
const SIDES: [(&str, &str, fn(Input) -> u8); 8] = [
    ("give_decide", "decide", |[count, limit, waiter, _]| give_decide(count, limit, waiter != 0) as u8),
    ("give_decide", "object", give),
    ("take_decide", "decide", |[count, no_wait, ..]| take_decide(count, no_wait != 0) as u8),
    ("take_decide", "object", take),
    ("lock_decide", "decide", |[count, null, current, no_wait]| {
        lock_decide(count, null != 0, current != 0, no_wait != 0) as u8
    }),
    ("lock_decide", "object", lock),
    ("unlock_decide", "decide", |[count, null, current, _]| unlock_decide(count, null != 0, current != 0) as u8),
    ("unlock_decide", "object", unlock),
];

fn ask(side: fn(Input) -> u8, input: Input) -> char {
    match catch_unwind(|| side(input)) {
        Ok(number) => (b'0' + number).into(),
        Err(panic) => {
            let text = panic.downcast_ref::<String>().map(String::as_str).or(panic.downcast_ref::<&str>().copied());
            match text.unwrap_or("") {
                text if text.contains("overflow") => 'o',
                text if text.contains("unwrap") => 'u',
                _ => 'x',
            }
        }
    }
}

fn main() {
    let mut text = String::new();
    std::io::stdin().read_to_string(&mut text).unwrap();
    set_hook(Box::new(|_| {}));
    let sum = text.bytes().fold(0xcbf2_9ce4_8422_2325_u64, |sum, byte| (sum ^ u64::from(byte)).wrapping_mul(0x100_0000_01b3));
    println!("# What Gale's Rust answers at the border, at {}.", std::env::args().nth(1).unwrap());
    println!("# Written by tests/border/run --record, from gale.rs, which says what the characters mean.");
    println!("inputs {sum:x}");
    for (name, part, side) in SIDES {
        println!("{name} {part}");
        let inputs = text.lines().filter_map(|line| line.strip_prefix(name)?.strip_prefix(' '));
        let answers: Vec<char> = inputs
            .map(|line| {
                let words: Vec<u32> = line.split(' ').map(|word| word.parse().unwrap()).collect();
                ask(side, words.try_into().unwrap())
            })
            .collect();
        for line in answers.chunks(100) {
            println!("{}", line.iter().collect::<String>());
        }
    }
}
