//! The mutex.

use crate::answer::{Answer, Caller};
use crate::memory;
use crate::numbers::{edges, equal};
use crate::ours::mutex::{self as ours, Mutex};
use crate::ours::{Library, Memory, EINVAL, ENOENT};
use crate::queue::{draw_thread, random_threads, refused, same_numbers, same_queue, Both, Object, Scene, FULL, WAITS};
use crate::report::{Kind, Report, Tally};
use crate::rng::Rng;
use crate::upstream::mutex::{is_owner, likely_owner, lock_decision, unlock_decision, Apart, Call};
use crate::upstream::wait_queue::is_in;
use crate::upstream::Upstream;
use crate::walk::{all_sequences, random_sequences};
use gale::mutex::{lock_decide, unlock_decide, Mutex as Gale};
use gale::thread::ThreadId;

const AVAILABLE: &str = "lock_blocking, free or the caller's own: takes it, as try_lock";
const LIMIT: &str = "try_lock or lock_blocking at 2^32 - 1 locks: as lock_decide, -139 or -16";
const LOCK_MALFORMED: &str = "lock_decide, an owner without a lock or a lock without an owner: Gale decides, ours -22";
const UNLOCK_MALFORMED: &str = "unlock_decide, an owner without a lock: Gale decides, ours -22";

impl Object for Mutex {
    type Gale = Gale;
    type Ours = Memory<4>;
    type Call = Call;

    fn expected(gale: &mut Gale, call: Call) -> (Answer, Kind) {
        let (Call::TryLock(id) | Call::LockBlocking(Caller { id, .. }) | Call::Unlock(id)) = call;
        match gale.apart(call) {
            None => (gale.call(call), Kind::Same),
            Some(Apart::Available) => (gale.call(Call::TryLock(id)), Kind::Outside(AVAILABLE)),
            Some(Apart::Limit) => {
                let decision = lock_decide(gale.lock_count, gale.owner.is_none(), is_owner(gale, id), true);
                (Answer::code(lock_decision(decision)), Kind::Outside(LIMIT))
            }
            Some(Apart::Queue(why)) => refused(why),
        }
    }

    fn ask_ours(mutex: &mut Memory<4>, call: Call, state: u32) -> Result<Answer, String> {
        let call = match call {
            Call::TryLock(id) => ours::Call::TryLock(id),
            Call::LockBlocking(caller) => ours::Call::LockBlocking(caller, state),
            Call::Unlock(id) => ours::Call::Unlock(id),
        };
        Mutex::ask(mutex, call)
    }

    fn same(gale: &Gale, ours: &Memory<4>) -> Result<(), String> {
        let owner = gale.owner_get().map_or(ENOENT.into(), |owner| owner.id.into());
        let numbers = [gale.is_locked().into(), gale.lock_count_get().into(), gale.num_waiters().into(), owner];
        same_numbers::<Mutex, 4>(numbers, ours)?;
        same_queue(&gale.wait_q, ours)
    }

    fn audit_ours(ours: &Memory<4>) -> bool {
        Mutex::audit(ours)
    }

    fn calls(threads: &[Caller]) -> Vec<Call> {
        let by = |&caller: &Caller| [Call::TryLock(caller.id), Call::LockBlocking(caller), Call::Unlock(caller.id)];
        threads.iter().flat_map(by).collect()
    }

    fn draw(gale: &Gale, scene: &Scene, rng: &mut Rng) -> Call {
        let caller = |rng| draw_thread(scene, rng, |id| is_in(&gale.wait_q, id));
        match rng.weighed(&scene.weights) {
            0 => Call::TryLock(caller(rng).id),
            1 => Call::LockBlocking(caller(rng)),
            _ => Call::Unlock(likely_owner(gale, &scene.threads, rng).id),
        }
    }

    fn show(gale: &Gale) -> String {
        gale.owner.map_or("a free mutex".to_string(), |owner| {
            format!("a mutex that thread {} has locked {} times", owner.id, gale.lock_count)
        })
    }
}

pub fn free() -> (Gale, Memory<4>) {
    let mut ours = Memory::raw();
    Mutex::ask(&mut ours, ours::Call::Init).unwrap();
    (Gale::init(), ours)
}

/// More locks than a walk could make. Any word but 0 says that the mutex is owned.
fn locked(id: u32, count: u32, owned: u32) -> (Gale, Memory<4>) {
    let (mut gale, mut ours) = free();
    gale.owner = Some(ThreadId { id });
    gale.lock_count = count;
    ours.head = [owned, id, count, 0];
    (gale, ours)
}

fn small_starts() -> Vec<Both<Mutex>> {
    let nested = Both::small(|threads| locked(threads[0].id, u32::MAX - 1, 1));
    Both::small(|_| free()).into_iter().chain(nested).collect()
}

fn random_start(rng: &mut Rng) -> Both<Mutex> {
    let threads = random_threads(rng);
    let weights = vec![rng.below(4), 1 + rng.below(20), rng.below(12)];
    let count = rng.pick(&[0, 0, 0, 0, 0, 0, 1, 5, u32::MAX - 2, u32::MAX - 1, u32::MAX]);
    let owned = rng.pick(&[1, 2, 1 << 31, u32::MAX]);
    let made = if count == 0 { free() } else { locked(threads[0].id, count, owned) };
    Both::new(made, threads, weights)
}

fn compare_lock_decide(count: u32, null: bool, current: bool, no_wait: bool) -> Result<Kind, String> {
    let gale = lock_decision(lock_decide(count, null, current, no_wait));
    let malformed = null != (count == 0);
    let (expected, kind) = if malformed { (EINVAL, Kind::Differs(LOCK_MALFORMED)) } else { (gale, Kind::Same) };
    let ours = unsafe { ours::wq_mutex_lock_decide(count, null, current, no_wait) };
    equal(format!("lock_decide({count}, {null}, {current}, {no_wait})"), expected, ours)?;
    Ok(kind)
}

fn compare_unlock_decide(count: u32, null: bool, current: bool) -> Result<Kind, String> {
    let gale = unlock_decision(unlock_decide(count, null, current));
    let malformed = !null && count == 0;
    let (expected, kind) = if malformed { (EINVAL, Kind::Differs(UNLOCK_MALFORMED)) } else { (gale, Kind::Same) };
    let ours = unsafe { ours::wq_mutex_unlock_decide(count, null, current) };
    equal(format!("unlock_decide({count}, {null}, {current})"), expected, ours)?;
    Ok(kind)
}

fn compare_decide(tally: &mut Tally) -> Result<(), String> {
    for count in edges() {
        for (null, current) in [(false, false), (false, true), (true, false), (true, true)] {
            for no_wait in [false, true] {
                tally.count(compare_lock_decide(count, null, current, no_wait)?);
            }
            tally.count(compare_unlock_decide(count, null, current)?);
        }
    }
    Ok(())
}

pub fn compare(report: &mut Report, seed: u64) {
    report.run("mutex: decide functions", &[LOCK_MALFORMED, UNLOCK_MALFORMED], compare_decide);
    report
        .run("mutex: all sequences of 6", &[AVAILABLE, LIMIT, WAITS], |tally| all_sequences(&small_starts(), 6, tally));
    report.run("mutex: 100,000 random sequences of 200", &[AVAILABLE, LIMIT, WAITS, FULL], |tally| {
        random_sequences(100_000, 200, &mut Rng::new(seed), random_start, tally)
    });
    memory::compare::<Mutex, 4>(report, "mutex: any memory", seed);
}
