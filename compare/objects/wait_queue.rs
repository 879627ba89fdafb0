//! The wait queue.

use crate::answer::{Answer, Caller};
use crate::memory;
use crate::ours::wait_queue::{self as ours, Queue};
use crate::ours::{Library, Memory, EAGAIN, ENOENT, OK};
use crate::queue::{
    draw_thread, random_threads, refused, same_numbers, same_queue, woken_all, Both, Object, Scene, FULL, WAITS,
};
use crate::report::{Kind, Report};
use crate::rng::Rng;
use crate::upstream::wait_queue::{is_in, waiting, Call};
use crate::upstream::Upstream;
use crate::walk::{all_sequences, random_sequences};
use gale::wait_queue::WaitQueue;

const REMOVED: &str = "remove, which upstream lacks: the others keep their order";
const NOT_THERE: &str = "remove, which upstream lacks: not in the queue, -2";

#[derive(Clone, Copy, Debug)]
pub enum Op {
    Call(Call),
    Remove(u32),
}

/// The queue that upstream makes when all others wait anew, in their order.
fn expected_remove(gale: &mut WaitQueue, id: u32) -> (Answer, Kind) {
    let mut others = WaitQueue::new();
    for thread in waiting(gale).filter(|thread| thread.id.id != id) {
        others.pend(*thread);
    }
    if others.len() == gale.len() {
        return (Answer::code(ENOENT), Kind::Outside(NOT_THERE));
    }
    *gale = others;
    (Answer::code(OK), Kind::Outside(REMOVED))
}

impl Object for Queue {
    type Gale = WaitQueue;
    type Ours = Memory<1>;
    type Call = Op;

    fn expected(gale: &mut WaitQueue, op: Op) -> (Answer, Kind) {
        let call = match op {
            Op::Call(call) => call,
            Op::Remove(id) => return expected_remove(gale, id),
        };
        if let Some(why) = gale.apart(call) {
            return refused(why);
        }
        if let Call::UnpendAll(result) = call {
            let woken = woken_all(gale, result);
            return (Answer { woken, ..gale.call(call) }, Kind::Same);
        }
        (gale.call(call), Kind::Same)
    }

    fn ask_ours(queue: &mut Memory<1>, op: Op, state: u32) -> Result<Answer, String> {
        let call = match op {
            Op::Call(Call::Pend(caller)) => ours::Call::Pend(caller, state),
            Op::Call(Call::UnpendFirst(result)) => ours::Call::UnpendFirst(result),
            Op::Call(Call::UnpendAll(result)) => ours::Call::UnpendAll { result, room: queue.len() as usize },
            Op::Remove(id) => ours::Call::Remove(id),
        };
        Queue::ask(queue, call)
    }

    fn same(gale: &WaitQueue, ours: &Memory<1>) -> Result<(), String> {
        same_numbers::<Queue, 1>([gale.len().into(), gale.is_empty().into()], ours)?;
        same_queue(gale, ours)
    }

    fn audit_ours(ours: &Memory<1>) -> bool {
        Queue::audit(ours)
    }

    fn calls(threads: &[Caller]) -> Vec<Op> {
        let wakes = [Op::Call(Call::UnpendFirst(-5)), Op::Call(Call::UnpendAll(EAGAIN))];
        threads.iter().flat_map(|&caller| [Op::Call(Call::Pend(caller)), Op::Remove(caller.id)]).chain(wakes).collect()
    }

    fn draw(gale: &WaitQueue, scene: &Scene, rng: &mut Rng) -> Op {
        let any = rng.number() as i32;
        let result = rng.pick(&[0, -11, -116, 1, i32::MIN, i32::MAX, any]);
        match rng.weighed(&scene.weights) {
            0 => Op::Call(Call::Pend(draw_thread(scene, rng, |id| is_in(gale, id)))),
            1 => Op::Call(Call::UnpendFirst(result)),
            2 => Op::Call(Call::UnpendAll(result)),
            _ => Op::Remove(rng.pick(&scene.threads).id),
        }
    }

    fn show(_: &WaitQueue) -> String {
        "an empty queue".to_string()
    }
}

fn made(_: &[Caller]) -> (WaitQueue, Memory<1>) {
    (WaitQueue::new(), ours::empty())
}

fn random_start(rng: &mut Rng) -> Both<Queue> {
    let weights = vec![1 + rng.below(20), rng.below(12), rng.below(8) / 7, rng.below(8) / 3];
    Both::new(made(&[]), random_threads(rng), weights)
}

pub fn compare(report: &mut Report, seed: u64) {
    report.run("wait queue: all sequences of 7", &[WAITS, REMOVED, NOT_THERE], |tally| {
        all_sequences(&Both::<Queue>::small(made), 7, tally)
    });
    report.run("wait queue: 100,000 random sequences of 200", &[WAITS, FULL, REMOVED, NOT_THERE], |tally| {
        random_sequences(100_000, 200, &mut Rng::new(seed), random_start, tally)
    });
    memory::compare::<Queue, 1>(report, "wait queue: any memory", seed);
}
