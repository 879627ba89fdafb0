//! The recorded sample: what its lines look like, and what the tests of all objects share.

pub mod condvar;
pub mod event;
pub mod futex;
pub mod mem_slab;
pub mod msgq;
pub mod mutex;
pub mod pipe;
pub mod ring_buf;
pub mod sem;
pub mod stack;
pub mod thread;
pub mod timeout;
pub mod timer;
pub mod wait_queue;

use crate::answer::{Answer, Caller};
use crate::decide::{Decide, Decision};
use crate::rng::Rng;
use crate::upstream::wait_queue::waiting;
use crate::upstream::{Counts, Plain, Upstream};
use gale::wait_queue::WaitQueue;
use std::fmt::Display;

const SEQUENCES: u32 = 20;
const LENGTH: usize = 50;
const EDGES: [u32; 6] = [0, 1, 2, 3, u32::MAX - 1, u32::MAX];
/// Fewer, for functions of many numbers.
const FEW: [u32; 4] = [0, 1, 2, u32::MAX];
/// Numbers of threads that can wait.
const WAITERS: [u32; 5] = [0, 1, 2, 63, 64];

fn words(numbers: impl IntoIterator<Item = impl Display>) -> String {
    numbers.into_iter().map(|number| format!(" {number}")).collect()
}

pub fn test(name: &str) {
    println!("test {name}");
}

pub fn answered(operation: &str, inputs: &[i64], answer: i64) {
    println!("{operation}{} = {answer}", words(inputs.iter().copied()));
}

fn left(operation: &str, inputs: &[i64], answer: &Answer, after: impl IntoIterator<Item = i64>) {
    let woken = answer.woken.iter().flat_map(|&(id, result)| [i64::from(id), result.into()]);
    let inputs = words(inputs.iter().copied());
    println!("{operation}{inputs} = {}{} ;{}", answer.code, words(woken), words(after));
}

/// An object in the sample.
trait Recorded: Upstream {
    /// The name of the operation, and its inputs.
    fn words(call: Self::Call) -> (&'static str, Vec<i64>);
    fn holds(&self) -> Vec<i64>;
}

/// Calls outside upstream's preconditions are left out, and those where ours differs on purpose.
fn record<T: Recorded>(object: &mut T, call: T::Call) {
    if object.apart(call).is_some() {
        return;
    }
    let answer = object.call(call);
    let (operation, inputs) = T::words(call);
    left(operation, &inputs, &answer, object.holds());
}

fn made<T: Recorded>(operation: &str, inputs: &[i64], object: T) -> T {
    left(operation, inputs, &Answer::code(gale::error::OK), object.holds());
    object
}

fn queue_holds(queue: &WaitQueue) -> Vec<i64> {
    [queue.len().into()].into_iter().chain(waiting(queue).map(|thread| thread.id.id.into())).collect()
}

fn numbers_of(caller: Caller) -> Vec<i64> {
    vec![caller.id.into(), caller.priority.into()]
}

/// Up to nine threads. The ids of some differ in high bits only.
fn some_threads(rng: &mut Rng) -> Vec<Caller> {
    let (count, levels) = (rng.pick(&[3, 5, 9]), rng.pick(&[1, 2, 3, 32]));
    let factor = rng.pick(&[1, 1 << 16, 1 << 28]);
    (0..count).map(|i| Caller { id: i * factor, priority: 31 - i * 7 % levels }).collect()
}

/// An object in the sample that only counts. Its answer is a slot where Gale answers that.
trait Tallied: Counts {
    /// The name of the operation, and its inputs.
    fn words(call: Self::Call) -> (&'static str, Vec<i64>);
}

fn record_counts<T: Tallied>(object: &mut T, call: T::Call) {
    let (operation, inputs) = T::words(call);
    let answer = object.call(call);
    println!("{operation}{} = {answer} ;{}", words(inputs), words(object.numbers()));
}

/// An object in the sample that is a few numbers.
trait Small: Plain<Word: Display> {
    /// The name of the operation, and its inputs.
    fn words(call: Self::Call) -> (&'static str, Vec<Self::Word>);
}

/// The number that a call answers that only reads, or writes.
fn number<W: Display>(read: Decision<W>) -> String {
    read.numbers.first().map_or(read.code.to_string(), W::to_string)
}

/// Calls outside upstream's preconditions are left out.
fn record_plain<T: Small>(object: &mut T, call: T::Call) {
    if object.outside(call).is_some() {
        return;
    }
    let (operation, inputs) = T::words(call);
    let answer = object.call(call);
    let holds = T::READS.iter().map(|&read| number(object.call(read)));
    println!("{operation}{} = {}{} ;{}", words(inputs), answer.code, words(answer.numbers), words(holds));
}

/// Half as many as of an object with a queue. Each begins with an init.
fn sequences_of<T, Call: Copy>(
    name: &str,
    rng: &mut Rng,
    start: impl Fn(&mut Rng) -> (T, Call),
    draw: impl Fn(&T, &mut Rng) -> Call,
    record: fn(&mut T, Call),
) {
    for number in 1..=SEQUENCES / 2 {
        test(&format!("{name}, sequence {number}"));
        let (mut object, init) = start(rng);
        record(&mut object, init);
        for _ in 0..LENGTH {
            let call = draw(&object, rng);
            record(&mut object, call);
        }
    }
}

fn sequences<T: Tallied>(
    name: &str,
    rng: &mut Rng,
    start: impl Fn(&mut Rng) -> (T, T::Call),
    draw: impl Fn(&T, &mut Rng) -> T::Call,
) {
    sequences_of(name, rng, start, draw, record_counts);
}

/// Where ours does not decide as Gale does, nothing is recorded.
fn decisions<W: Copy + From<bool> + Display>(name: &str, decides: &[Decide<W>], numbers: &[W]) {
    test(&format!("{name}, decide functions"));
    for decide in decides {
        for input in decide.inputs(numbers).iter().filter(|input| (decide.apart)(input).is_none()) {
            let decision = (decide.gale)(input);
            println!("{}{} = {} ;{}", decide.name, words(input), decision.code, words(decision.numbers));
        }
    }
}
