//! The mutex.

use super::{plain, with_word, Library, Memory};
use crate::answer::{Answer, Caller};

/// What an unlock answers.
pub const RELEASED: i32 = 0;
pub const UNLOCKED: i32 = 1;
pub const TRANSFERRED: i32 = 2;

extern "C" {
    fn wq_mutex_init(head: *mut u32) -> i32;
    fn wq_mutex_try_lock(head: *mut u32, entry: *const u64, id: u32) -> i32;
    fn wq_mutex_lock_blocking(head: *mut u32, entry: *mut u64, id: u32, priority: u32, state: u32) -> i32;
    fn wq_mutex_unlock(head: *mut u32, entry: *const u64, id: u32, who: *mut u64) -> i32;
    fn wq_mutex_is_locked(head: *const u32, entry: *const u64) -> i32;
    fn wq_mutex_lock_count_get(head: *const u32, entry: *const u64) -> i64;
    fn wq_mutex_num_waiters(head: *const u32, entry: *const u64) -> i64;
    fn wq_mutex_owner_get(head: *const u32, entry: *const u64) -> i64;
    fn wq_mutex_audit(head: *const u32, entry: *const u64) -> bool;
    pub fn wq_mutex_lock_decide(lock_count: u32, owner_is_null: bool, owner_is_current: bool, is_no_wait: bool) -> i32;
    pub fn wq_mutex_unlock_decide(lock_count: u32, owner_is_null: bool, owner_is_current: bool) -> i32;
}

/// A wait carries the state of its caller.
#[derive(Clone, Copy, Debug)]
pub enum Call {
    Init,
    TryLock(u32),
    LockBlocking(Caller, u32),
    Unlock(u32),
}

pub struct Mutex;

impl Library<4> for Mutex {
    type Call = Call;
    /// Whether it is locked, how often, how many wait, the owner.
    type Numbers = [i64; 4];

    fn ask(mutex: &mut Memory<4>, call: Call) -> Result<Answer, String> {
        let (head, entry) = mutex.parts_mut();
        unsafe {
            match call {
                Call::Init => plain(wq_mutex_init(head)),
                Call::TryLock(id) => plain(wq_mutex_try_lock(head, entry, id)),
                Call::LockBlocking(Caller { id, priority }, state) => {
                    plain(wq_mutex_lock_blocking(head, entry, id, priority, state))
                }
                Call::Unlock(id) => with_word(|who| wq_mutex_unlock(head, entry, id, who), |code| code == TRANSFERRED),
            }
        }
    }

    fn numbers(mutex: &Memory<4>) -> [i64; 4] {
        let (head, entry) = mutex.parts();
        unsafe {
            [
                wq_mutex_is_locked(head, entry).into(),
                wq_mutex_lock_count_get(head, entry),
                wq_mutex_num_waiters(head, entry),
                wq_mutex_owner_get(head, entry),
            ]
        }
    }

    fn audit(mutex: &Memory<4>) -> bool {
        let (head, entry) = mutex.parts();
        unsafe { wq_mutex_audit(head, entry) }
    }
}
