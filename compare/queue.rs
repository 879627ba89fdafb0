//! What all objects that hold a wait queue share.

use crate::answer::{Answer, Caller};
use crate::ours::{entry_of, Library, Memory, BLOCKED, EBUSY, ENOMEM, RUNNING};
use crate::report::Kind;
use crate::rng::Rng;
use crate::upstream::wait_queue::{self, waiting};
use crate::upstream::Upstream;
use crate::walk::Pair;
use gale::wait_queue::WaitQueue;
use std::fmt::Debug;
use std::rc::Rc;

pub const WAITS: &str = "a wait by a thread that waits here: -16";
pub const FULL: &str = "a wait in a full queue: -12";

/// Who calls, and how often what.
pub struct Scene {
    pub threads: Vec<Caller>,
    pub weights: Vec<u32>,
}

/// A kind of object, on both sides.
pub trait Object {
    type Gale: Upstream;
    type Ours: Copy + PartialEq;
    type Call: Copy + Debug;

    /// What upstream answers, or, where the two are not held against each other, what the port promises.
    fn expected(gale: &mut Self::Gale, call: Self::Call) -> (Answer, Kind);
    /// Asks ours, in a thread of this state.
    fn ask_ours(ours: &mut Self::Ours, call: Self::Call, state: u32) -> Result<Answer, String>;
    /// Whether numbers and queues are the same.
    fn same(gale: &Self::Gale, ours: &Self::Ours) -> Result<(), String>;
    fn audit_ours(ours: &Self::Ours) -> bool;
    /// All calls of the walks over all sequences.
    fn calls(threads: &[Caller]) -> Vec<Self::Call>;
    fn draw(gale: &Self::Gale, scene: &Scene, rng: &mut Rng) -> Self::Call;
    fn show(gale: &Self::Gale) -> String;
}

pub struct Both<T: Object> {
    gale: T::Gale,
    ours: T::Ours,
    scene: Rc<Scene>,
}

impl<T: Object> Clone for Both<T> {
    fn clone(&self) -> Self {
        Both { gale: self.gale.copy(), ours: self.ours, scene: self.scene.clone() }
    }
}

impl<T: Object> Both<T> {
    pub fn new((gale, ours): (T::Gale, T::Ours), threads: Vec<Caller>, weights: Vec<u32>) -> Self {
        Both { gale, ours, scene: Rc::new(Scene { threads, weights }) }
    }

    /// Each way to order three priorities, from the object that `made` makes for these threads.
    pub fn small(made: impl Fn(&[Caller]) -> (T::Gale, T::Ours)) -> Vec<Self> {
        three_threads().into_iter().map(|threads| Both::new(made(&threads), threads, Vec::new())).collect()
    }
}

impl<T: Object> Pair for Both<T> {
    type Op = T::Call;

    fn ops(&self) -> Vec<T::Call> {
        T::calls(&self.scene.threads)
    }

    fn step(&mut self, call: T::Call) -> Result<Kind, String> {
        let before = self.ours;
        let (expected, kind) = T::expected(&mut self.gale, call);
        if let Kind::Outside(WAITS) = kind {
            let answer = T::ask_ours(&mut self.ours, call, BLOCKED)?;
            same_answer(&Answer::code(EBUSY), &answer).map_err(|why| format!("state blocked: {why}"))?;
        }
        let answer = T::ask_ours(&mut self.ours, call, RUNNING)?;
        same_answer(&expected, &answer)?;
        if answer.code < 0 && self.ours != before {
            return Err(format!("the refusal {} changed a word", answer.code));
        }
        T::same(&self.gale, &self.ours)?;
        Ok(kind)
    }

    fn audit(&self) -> bool {
        T::audit_ours(&self.ours)
    }

    fn draw(&self, rng: &mut Rng) -> T::Call {
        T::draw(&self.gale, &self.scene, rng)
    }

    fn show(&self) -> String {
        T::show(&self.gale)
    }
}

/// Threads for the walks over all sequences: every way to order three priorities, ties included. The ids differ in
/// high bits only.
fn three_threads() -> Vec<Vec<Caller>> {
    let ids = [7, 0x0001_0007, 0x8000_0007];
    let priorities = [0, 5, 31];
    let mut found = Vec::new();
    for code in 0..27 {
        let ranks = [code / 9, code / 3 % 3, code % 3];
        let top = *ranks.iter().max().unwrap();
        if (0..top).all(|rank| ranks.contains(&rank)) {
            found.push((0..3).map(|i| Caller { id: ids[i], priority: priorities[ranks[i]] }).collect());
        }
    }
    found
}

/// Up to 80 threads, often with few priorities among them. The ids are small, or differ in high bits only, or anywhere.
pub fn random_threads(rng: &mut Rng) -> Vec<Caller> {
    let count = rng.pick(&[3, 8, 20, 40, 64, 65, 80]);
    let levels = rng.pick(&[1, 2, 3, 32]);
    let highest = rng.below(33 - levels);
    let factor = rng.pick(&[1, 1 << 25, 0x9E37_79B1]);
    (0..count).map(|i: u32| Caller { id: i.wrapping_mul(factor), priority: highest + rng.below(levels) }).collect()
}

/// Mostly one that is not busy, so that few calls are refused.
pub fn draw_thread(scene: &Scene, rng: &mut Rng, is_busy: impl Fn(u32) -> bool) -> Caller {
    let any = rng.below(scene.threads.len() as u32) as usize;
    if rng.below(8) == 0 {
        return scene.threads[any];
    }
    let (first, last) = scene.threads.split_at(any);
    *last.iter().chain(first).find(|caller| !is_busy(caller.id)).unwrap_or(&scene.threads[any])
}

/// What the port promises where upstream forbids a thread to wait.
pub fn refused(why: wait_queue::Apart) -> (Answer, Kind) {
    match why {
        wait_queue::Apart::Waits => (Answer::code(EBUSY), Kind::Outside(WAITS)),
        wait_queue::Apart::Full => (Answer::code(ENOMEM), Kind::Outside(FULL)),
    }
}

/// Where upstream only counts those that it wakes, those that waited before are taken for the woken.
pub fn woken_all(queue: &WaitQueue, result: i32) -> Vec<(u32, i32)> {
    waiting(queue).map(|thread| (thread.id.id, result)).collect()
}

/// Whether the same threads wait in the same order.
pub fn same_queue<const N: usize>(gale: &WaitQueue, ours: &Memory<N>) -> Result<(), String> {
    if !ours.guards_stand() {
        return Err("ours writes beside the object".to_string());
    }
    let entries = waiting(gale).map(|thread| Caller { id: thread.id.id, priority: thread.priority.get() });
    if ours.len() == gale.len() && ours.waiting().iter().rev().copied().eq(entries.map(entry_of)) {
        return Ok(());
    }
    let theirs: Vec<u32> = waiting(gale).map(|thread| thread.id.id).collect();
    Err(format!("queue: Gale {theirs:?}, ours: {ours:?}"))
}

/// Whether ours says of itself what upstream does.
pub fn same_numbers<T: Library<N>, const N: usize>(gale: T::Numbers, ours: &Memory<N>) -> Result<(), String> {
    let numbers = T::numbers(ours);
    if gale == numbers {
        return Ok(());
    }
    Err(format!("numbers: Gale {gale:?}, ours {numbers:?}"))
}

fn same_answer(expected: &Answer, ours: &Answer) -> Result<(), String> {
    if expected == ours {
        return Ok(());
    }
    let show = |answer: &Answer| format!("{} woken {:?}", answer.code, answer.woken);
    Err(format!("answer (id, result of each woken): expected {}, ours {}", show(expected), show(ours)))
}
