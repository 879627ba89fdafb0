//! Writes the recorded sample: operations, and what Gale's Rust answers. Nothing of ours is linked here.
//!
//!     record COMMIT > recorded.txt

// The sample needs a part of these three; the comparison needs all.
#[allow(dead_code)]
mod answer;
#[allow(dead_code)]
mod decide;
mod rng;
mod sample;
#[allow(dead_code)]
mod upstream;

use gale::error;
use gale::priority::MAX_PRIORITY;
use gale::wait_queue::MAX_WAITERS;
use rng::Rng;
use sample::{answered, test};

const SEED: u64 = 0x5EED_0F6A_1E00_0002;

fn header(commit: &str) {
    println!("# What Gale's Rust answers, for compare/replay.c. Written by: compare/run --record");
    println!("# Gale: commit {commit}, its executable bodies as they stand. Seed: {SEED:#x}.");
    println!("#");
    println!("# operation inputs = answer [id of the woken thread, its result].. ; what the object holds then");
    println!("# A queue holds: how many wait, and their ids, the first to be woken first. A semaphore holds its count");
    println!(
        "# and then its queue; a mutex the number of locks, the owner or -2, and its queue; a condition variable its"
    );
    println!(
        "# queue, and what its mutex holds; a futex its value and its queue. A thread holds its id, priority, state"
    );
    println!("# and return value. Answers are codes of include/waitqueue.h.");
    println!(
        "# A ring buffer, message queue, pipe, stack and memory slab hold what their functions answer that only read."
    );
    println!(
        "# Where something is put into a slot, got or peeked at, the answer is the slot. A free names a block by its"
    );
    println!("# place among those that are out. A decide function leaves the numbers that it writes.");
    println!(
        "# Event flags, a timer and a timeout hold what their functions answer or write that only read. Where another"
    );
    println!("# call on them writes a number, it stands behind the answer.");
    println!("# A line \"test\" begins one test, with new objects.");
}

fn constants() {
    test("constants");
    let codes = [
        ("OK", error::OK),
        ("EPERM", error::EPERM),
        ("ENOENT", error::ENOENT),
        ("EAGAIN", error::EAGAIN),
        ("ENOMEM", error::ENOMEM),
        ("EBUSY", error::EBUSY),
        ("EINVAL", error::EINVAL),
        ("EPIPE", error::EPIPE),
        ("ENOMSG", error::ENOMSG),
        ("EDEADLK", error::EDEADLK),
        ("EOVERFLOW", error::EOVERFLOW),
        ("ECANCELED", error::ECANCELED),
    ];
    for (name, code) in codes {
        answered(name, &[], code.into());
    }
    answered("MAX_PRIORITY", &[], MAX_PRIORITY.into());
    answered("MAX_WAITERS", &[], MAX_WAITERS.into());
}

fn main() {
    let commit = std::env::args().nth(1).expect("record COMMIT");
    let mut rng = Rng::new(SEED);
    header(&commit);
    constants();
    sample::thread::tests();
    sample::wait_queue::tests(&mut rng);
    sample::sem::tests(&mut rng);
    sample::mutex::tests(&mut rng);
    sample::condvar::tests(&mut rng);
    sample::futex::tests(&mut rng);
    sample::ring_buf::tests(&mut rng);
    sample::msgq::tests(&mut rng);
    sample::pipe::tests(&mut rng);
    sample::stack::tests(&mut rng);
    sample::mem_slab::tests(&mut rng);
    sample::event::tests(&mut rng);
    sample::timer::tests(&mut rng);
    sample::timeout::tests(&mut rng);
}
