//! The counting semaphore.

use super::{plain, with_room, with_word, Library, Memory};
use crate::answer::{Answer, Caller};

/// What a give answers when it wakes somebody.
pub const WOKE: i32 = 0;

extern "C" {
    fn wq_sem_init(head: *mut u32, count: u32, limit: u32) -> i32;
    fn wq_sem_give(head: *mut u32, entry: *const u64, who: *mut u64) -> i32;
    fn wq_sem_try_take(head: *mut u32, entry: *const u64) -> i32;
    fn wq_sem_take_blocking(head: *mut u32, entry: *mut u64, id: u32, priority: u32, state: u32) -> i32;
    fn wq_sem_reset(head: *mut u32, entry: *const u64, out: *mut u64, out_len: u64) -> i32;
    fn wq_sem_count_get(head: *const u32, entry: *const u64) -> i64;
    fn wq_sem_limit_get(head: *const u32, entry: *const u64) -> i64;
    fn wq_sem_num_waiters(head: *const u32, entry: *const u64) -> i64;
    fn wq_sem_audit(head: *const u32, entry: *const u64) -> bool;
    pub fn wq_sem_give_decide(count: u32, limit: u32, has_waiter: bool) -> i32;
    pub fn wq_sem_take_decide(count: u32, is_no_wait: bool) -> i32;
}

/// A wait carries the state of its caller.
#[derive(Clone, Copy, Debug)]
pub enum Call {
    Init { count: u32, limit: u32 },
    Give,
    TryTake,
    TakeBlocking(Caller, u32),
    Reset { room: usize },
}

pub struct Sem;

impl Library<3> for Sem {
    type Call = Call;
    /// Count, limit, how many wait.
    type Numbers = [i64; 3];

    fn ask(sem: &mut Memory<3>, call: Call) -> Result<Answer, String> {
        let (head, entry) = sem.parts_mut();
        unsafe {
            match call {
                Call::Init { count, limit } => plain(wq_sem_init(head, count, limit)),
                Call::Give => with_word(|who| wq_sem_give(head, entry, who), |code| code == WOKE),
                Call::TryTake => plain(wq_sem_try_take(head, entry)),
                Call::TakeBlocking(Caller { id, priority }, state) => {
                    plain(wq_sem_take_blocking(head, entry, id, priority, state))
                }
                Call::Reset { room } => with_room(room, |out, room| wq_sem_reset(head, entry, out, room)),
            }
        }
    }

    fn numbers(sem: &Memory<3>) -> [i64; 3] {
        let (head, entry) = sem.parts();
        unsafe { [wq_sem_count_get(head, entry), wq_sem_limit_get(head, entry), wq_sem_num_waiters(head, entry)] }
    }

    fn audit(sem: &Memory<3>) -> bool {
        let (head, entry) = sem.parts();
        unsafe { wq_sem_audit(head, entry) }
    }
}
