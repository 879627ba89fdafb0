//! The counting semaphore.

use crate::answer::{Answer, Caller};
use crate::memory;
use crate::numbers::{edges, equal};
use crate::ours::sem::{self as ours, Sem, WOKE};
use crate::ours::{Library, Memory, EAGAIN, EINVAL};
use crate::queue::{
    draw_thread, random_threads, refused, same_numbers, same_queue, woken_all, Both, Object, Scene, FULL, WAITS,
};
use crate::report::{Kind, Report, Tally};
use crate::rng::Rng;
use crate::upstream::sem::{give_decision, init, take_decision, Apart, Call};
use crate::upstream::wait_queue::is_in;
use crate::upstream::Upstream;
use crate::walk::{all_sequences, random_sequences};
use gale::sem::{give_decide, take_decide, Semaphore};

const AVAILABLE: &str = "take_blocking while the count is above 0: takes, as try_take";
const MALFORMED: &str = "give_decide, limit 0 or count above it: -22";
const WAITER_AND_COUNT: &str = "give_decide, somebody waits while the count is above 0: Gale wakes (0), ours -22";

impl Object for Sem {
    type Gale = Semaphore;
    type Ours = Memory<3>;
    type Call = Call;

    fn expected(gale: &mut Semaphore, call: Call) -> (Answer, Kind) {
        match gale.apart(call) {
            None if matches!(call, Call::Reset) => {
                let woken = woken_all(&gale.wait_q, EAGAIN);
                (Answer { woken, ..gale.call(call) }, Kind::Same)
            }
            None => (gale.call(call), Kind::Same),
            Some(Apart::Available) => (gale.call(Call::TryTake), Kind::Outside(AVAILABLE)),
            Some(Apart::Queue(why)) => refused(why),
        }
    }

    fn ask_ours(sem: &mut Memory<3>, call: Call, state: u32) -> Result<Answer, String> {
        let call = match call {
            Call::Give => ours::Call::Give,
            Call::TryTake => ours::Call::TryTake,
            Call::TakeBlocking(caller) => ours::Call::TakeBlocking(caller, state),
            Call::Reset => ours::Call::Reset { room: sem.len() as usize },
        };
        Sem::ask(sem, call)
    }

    fn same(gale: &Semaphore, ours: &Memory<3>) -> Result<(), String> {
        let numbers = [gale.count_get(), gale.limit_get(), gale.num_waiters()].map(i64::from);
        same_numbers::<Sem, 3>(numbers, ours)?;
        same_queue(&gale.wait_q, ours)
    }

    fn audit_ours(ours: &Memory<3>) -> bool {
        Sem::audit(ours)
    }

    fn calls(threads: &[Caller]) -> Vec<Call> {
        let takes = threads.iter().map(|&caller| Call::TakeBlocking(caller));
        [Call::Give, Call::TryTake, Call::Reset].into_iter().chain(takes).collect()
    }

    fn draw(gale: &Semaphore, scene: &Scene, rng: &mut Rng) -> Call {
        match rng.weighed(&scene.weights) {
            0 => Call::Give,
            1 => Call::TryTake,
            2 => Call::TakeBlocking(draw_thread(scene, rng, |id| is_in(&gale.wait_q, id))),
            _ => Call::Reset,
        }
    }

    fn show(gale: &Semaphore) -> String {
        format!("a semaphore {} of {}", gale.count, gale.limit)
    }
}

fn made(count: u32, limit: u32) -> (Semaphore, Memory<3>) {
    let mut ours = Memory::raw();
    Sem::ask(&mut ours, ours::Call::Init { count, limit }).unwrap();
    (init(count, limit).1.unwrap(), ours)
}

fn small_starts() -> Vec<Both<Sem>> {
    let starts = (1..=3).flat_map(|limit| (0..=limit).map(move |count| (count, limit)));
    starts.flat_map(|(count, limit)| Both::small(|_| made(count, limit))).collect()
}

fn random_start(rng: &mut Rng) -> Both<Sem> {
    let any = 1 + rng.below(u32::MAX);
    let limit = rng.pick(&[1, 2, 3, 1000, 1 << 31, u32::MAX - 1, u32::MAX, any]);
    let count = rng.pick(&[0, 0, 0, 1, limit / 2, limit - 1, limit]).min(limit);
    let weights = vec![rng.below(12), rng.below(4), 1 + rng.below(20), rng.below(8) / 7];
    Both::new(made(count, limit), random_threads(rng), weights)
}

fn compare_init(tally: &mut Tally) -> Result<(), String> {
    for (count, limit) in edges().flat_map(|count| edges().map(move |limit| (count, limit))) {
        let raw = Memory::raw();
        let mut ours = raw;
        let code = Sem::ask(&mut ours, ours::Call::Init { count, limit })?.code;
        let (expected, gale) = init(count, limit);
        let state_is_right = match gale {
            Some(sem) => ours.head == [sem.count, sem.limit, sem.wait_q.len] && ours.guards_stand(),
            None => ours == raw,
        };
        if code != expected || !state_is_right {
            return Err(format!("  init({count}, {limit}): Gale {expected}, ours {code}, header {:?}", ours.head));
        }
        tally.count(Kind::Same);
    }
    Ok(())
}

fn compare_give_decide(count: u32, limit: u32, has_waiter: bool) -> Result<Kind, String> {
    let ours = unsafe { ours::wq_sem_give_decide(count, limit, has_waiter) };
    let gale = || give_decision(give_decide(count, limit, has_waiter));
    let (expected, kind) = if limit == 0 || count > limit {
        (EINVAL, Kind::Outside(MALFORMED))
    } else if has_waiter && count > 0 && gale() == WOKE {
        (EINVAL, Kind::Differs(WAITER_AND_COUNT))
    } else {
        (gale(), Kind::Same)
    };
    equal(format!("give_decide({count}, {limit}, {has_waiter})"), expected, ours)?;
    Ok(kind)
}

fn compare_decide(tally: &mut Tally) -> Result<(), String> {
    for count in edges() {
        for flag in [false, true] {
            for limit in edges() {
                tally.count(compare_give_decide(count, limit, flag)?);
            }
            let ours = unsafe { ours::wq_sem_take_decide(count, flag) };
            equal(format!("take_decide({count}, {flag})"), take_decision(take_decide(count, flag)), ours)?;
            tally.count(Kind::Same);
        }
    }
    Ok(())
}

pub fn compare(report: &mut Report, seed: u64) {
    report.run("semaphore: init", &[], compare_init);
    report.run("semaphore: decide functions", &[MALFORMED, WAITER_AND_COUNT], compare_decide);
    report.run("semaphore: all sequences of 7", &[AVAILABLE, WAITS], |tally| all_sequences(&small_starts(), 7, tally));
    report.run("semaphore: 100,000 random sequences of 200", &[AVAILABLE, WAITS, FULL], |tally| {
        random_sequences(100_000, 200, &mut Rng::new(seed), random_start, tally)
    });
    memory::compare::<Sem, 3>(report, "semaphore: any memory", seed);
}
