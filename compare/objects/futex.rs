//! The futex.

use crate::answer::{Answer, Caller};
use crate::memory;
use crate::numbers::{edges, equal, waiters};
use crate::ours::futex::{self as ours, Futex};
use crate::ours::{Library, Memory, EINVAL, ENOMEM, WAITERS};
use crate::queue::{draw_thread, random_threads, refused, same_numbers, same_queue, Both, Object, Scene, WAITS};
use crate::report::{Kind, Report, Tally};
use crate::rng::Rng;
use crate::upstream::futex::{wait_decision, Apart, Call};
use crate::upstream::wait_queue::{self, cannot_wait, is_in};
use crate::upstream::Upstream;
use crate::walk::{all_sequences, random_sequences, Pair};
use gale::futex::{wait_decide, wake_decide, Futex as Gale, WakeDecision};

const MISMATCH: &str = "a wait by a thread that waits here or in a full queue, another value: as wait_decide, -11";
const LOST: &str = "a wait in a full queue: Gale answers that the thread waits and forgets it, ours -12";
const TOO_MANY: &str = "wake_decide, more than 64 wait: Gale decides, ours -22";

/// They differ in the highest bit only.
const VALUES: [u32; 2] = [5, 0x8000_0005];

impl Object for Futex {
    type Gale = Gale;
    type Ours = Memory<2>;
    type Call = Call;

    fn expected(gale: &mut Gale, call: Call) -> (Answer, Kind) {
        match (gale.apart(call), call) {
            (Some(Apart::Queue(wait_queue::Apart::Full)), Call::Wait { caller, .. }) => {
                let answer = gale.call(call);
                assert!(
                    answer == Answer::code(1) && cannot_wait(&gale.wait_q, caller) == Some(wait_queue::Apart::Full)
                );
                (Answer::code(ENOMEM), Kind::Differs(LOST))
            }
            (Some(Apart::Queue(why)), _) => refused(why),
            (Some(Apart::Mismatch), Call::Wait { expected, .. }) => {
                (Answer::code(wait_decision(wait_decide(gale.val, expected))), Kind::Outside(MISMATCH))
            }
            _ => (gale.call(call), Kind::Same),
        }
    }

    fn ask_ours(futex: &mut Memory<2>, call: Call, state: u32) -> Result<Answer, String> {
        let call = match call {
            Call::Wait { expected, caller } => ours::Call::Wait { expected, caller, state },
            Call::Wake { all: true } => ours::Call::Wake { all: true, room: futex.len() as usize },
            Call::Wake { all: false } => ours::Call::Wake { all: false, room: 1 },
            Call::ValSet(val) => ours::Call::ValSet(val),
        };
        Futex::ask(futex, call)
    }

    fn same(gale: &Gale, ours: &Memory<2>) -> Result<(), String> {
        same_numbers::<Futex, 2>([gale.val_get(), gale.num_waiters()].map(i64::from), ours)?;
        same_queue(&gale.wait_q, ours)
    }

    fn audit_ours(ours: &Memory<2>) -> bool {
        Futex::audit(ours)
    }

    fn calls(threads: &[Caller]) -> Vec<Call> {
        let waits = threads.iter().flat_map(|&caller| VALUES.map(|expected| Call::Wait { expected, caller }));
        let wakes = [false, true].map(|all| Call::Wake { all });
        waits.chain(wakes).chain(VALUES.map(Call::ValSet)).collect()
    }

    fn draw(gale: &Gale, scene: &Scene, rng: &mut Rng) -> Call {
        let any = rng.number();
        let other = rng.pick(&[VALUES[0], VALUES[1], any]);
        match rng.weighed(&scene.weights) {
            0 => {
                let expected = if rng.below(16) > 0 { gale.val } else { other };
                Call::Wait { expected, caller: draw_thread(scene, rng, |id| is_in(&gale.wait_q, id)) }
            }
            1 => Call::Wake { all: false },
            2 => Call::Wake { all: true },
            _ => Call::ValSet(other),
        }
    }

    fn show(gale: &Gale) -> String {
        format!("a futex of value {}", gale.val)
    }
}

fn made(val: u32) -> (Gale, Memory<2>) {
    let mut ours = Memory::raw();
    Futex::ask(&mut ours, ours::Call::Init(val)).unwrap();
    (Gale::init(val), ours)
}

fn random_start(rng: &mut Rng) -> Both<Futex> {
    let weights = vec![1 + rng.below(20), rng.below(12), rng.below(8) / 7, rng.below(4)];
    Both::new(made(rng.pick(&VALUES)), random_threads(rng), weights)
}

/// Where upstream loses a thread: 64 wait, and one more comes.
fn compare_lost(tally: &mut Tally) -> Result<(), String> {
    let mut both = Both::<Futex>::new(made(0), Vec::new(), Vec::new());
    for id in 0..=WAITERS as u32 {
        let wait = Call::Wait { expected: 0, caller: Caller { id, priority: 0 } };
        tally.count(both.step(wait).map_err(|why| format!("  {wait:?}, where {id} wait\n  {why}"))?);
    }
    Ok(())
}

fn compare_wake_decide(count: u32, all: bool) -> Result<Kind, String> {
    let untouched = 0xA5A5_5A5A;
    let WakeDecision { woken, remaining } = wake_decide(count, all);
    let (expected, left, kind) = if count as usize > WAITERS {
        (EINVAL, untouched, Kind::Differs(TOO_MANY))
    } else {
        (woken as i32, remaining, Kind::Same)
    };
    let mut our_left = untouched;
    let ours = unsafe { ours::wq_futex_wake_decide(count, all, &mut our_left) };
    equal(format!("wake_decide({count}, {all})"), expected, ours)?;
    equal(format!("wake_decide({count}, {all}), the remaining"), left as i32, our_left as i32)?;
    Ok(kind)
}

fn compare_decide(tally: &mut Tally) -> Result<(), String> {
    for (val, expected) in edges().flat_map(|val| edges().map(move |expected| (val, expected))) {
        let ours = unsafe { ours::wq_futex_wait_decide(val, expected) };
        equal(format!("wait_decide({val}, {expected})"), wait_decision(wait_decide(val, expected)), ours)?;
        tally.count(Kind::Same);
    }
    for (count, all) in waiters().flat_map(|count| [(count, false), (count, true)]) {
        tally.count(compare_wake_decide(count, all)?);
    }
    Ok(())
}

pub fn compare(report: &mut Report, seed: u64) {
    report.run("futex: decide functions", &[TOO_MANY], compare_decide);
    report.run("futex: a wait where 64 wait", &[LOST], compare_lost);
    report.run("futex: all sequences of 6", &[WAITS, MISMATCH], |tally| {
        all_sequences(&Both::<Futex>::small(|_| made(VALUES[0])), 6, tally)
    });
    report.run("futex: 100,000 random sequences of 200", &[WAITS, MISMATCH, LOST], |tally| {
        random_sequences(100_000, 200, &mut Rng::new(seed), random_start, tally)
    });
    memory::compare::<Futex, 2>(report, "futex: any memory", seed);
}
