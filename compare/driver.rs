//! Compares libwaitqueue.a with Gale's Rust.

mod answer;
mod decide;
mod decisions;
mod lent;
mod lent_memory;
mod memory;
mod numbers;
mod objects {
    pub mod condvar;
    pub mod condvar_rules;
    pub mod event;
    pub mod event_rules;
    pub mod futex;
    pub mod futex_rules;
    pub mod mem_slab;
    pub mod mem_slab_rules;
    pub mod msgq;
    pub mod msgq_rules;
    pub mod mutex;
    pub mod mutex_rules;
    pub mod pipe;
    pub mod pipe_rules;
    pub mod ring_buf;
    pub mod ring_buf_rules;
    pub mod sem;
    pub mod sem_rules;
    pub mod stack;
    pub mod stack_rules;
    pub mod thread;
    pub mod timeout;
    pub mod timeout_rules;
    pub mod timer;
    pub mod timer_rules;
    pub mod wait_queue;
    pub mod wait_queue_rules;
}
mod ours;
mod plain;
mod queue;
mod report;
mod rng;
mod upstream;
mod walk;

const SEED: u64 = 0x5EED_0F6A_1E00_0001;

fn main() -> std::process::ExitCode {
    let mut report = report::Report::default();
    objects::thread::compare(&mut report);
    objects::wait_queue::compare(&mut report, SEED);
    objects::sem::compare(&mut report, SEED);
    objects::mutex::compare(&mut report, SEED);
    objects::condvar::compare(&mut report, SEED);
    objects::futex::compare(&mut report, SEED);
    objects::ring_buf::compare(&mut report, SEED);
    objects::msgq::compare(&mut report, SEED);
    objects::pipe::compare(&mut report, SEED);
    objects::stack::compare(&mut report, SEED);
    objects::mem_slab::compare(&mut report, SEED);
    objects::event::compare(&mut report, SEED);
    objects::timer::compare(&mut report, SEED);
    objects::timeout::compare(&mut report, SEED);
    report.finish()
}
