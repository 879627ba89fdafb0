//! The condition variable.

use super::mutex::TRANSFERRED;
use super::{plain, with_room, with_word, Library, Memory};
use crate::answer::{Answer, Caller};

extern "C" {
    fn wq_condvar_init(head: *mut u32) -> i32;
    fn wq_condvar_signal(head: *mut u32, entry: *const u64, who: *mut u64) -> i32;
    fn wq_condvar_broadcast(head: *mut u32, entry: *const u64, out: *mut u64, out_len: u64) -> i32;
    fn wq_condvar_wait_blocking(
        head: *mut u32,
        entry: *mut u64,
        mutex_head: *mut u32,
        mutex_entry: *const u64,
        id: u32,
        priority: u32,
        state: u32,
        who: *mut u64,
    ) -> i32;
    fn wq_condvar_num_waiters(head: *const u32, entry: *const u64) -> i64;
    fn wq_condvar_has_waiters(head: *const u32, entry: *const u64) -> i32;
    fn wq_condvar_audit(head: *const u32, entry: *const u64) -> bool;
    pub fn wq_condvar_signal_decide(has_waiter: bool) -> i32;
    pub fn wq_condvar_broadcast_decide(num_waiters: u32) -> i32;
    pub fn wq_condvar_wait_decide(is_no_wait: bool) -> i32;
}

/// The calls that need no mutex.
#[derive(Clone, Copy, Debug)]
pub enum Call {
    Init,
    Signal,
    Broadcast { room: usize },
}

pub struct Condvar;

/// The call that needs one.
pub fn wait(condvar: &mut Memory<1>, mutex: &mut Memory<4>, caller: Caller, state: u32) -> Result<Answer, String> {
    let ((head, entry), (mutex_head, mutex_entry)) = (condvar.parts_mut(), mutex.parts_mut());
    let Caller { id, priority } = caller;
    with_word(
        |who| unsafe { wq_condvar_wait_blocking(head, entry, mutex_head, mutex_entry, id, priority, state, who) },
        |code| code == TRANSFERRED,
    )
}

impl Library<1> for Condvar {
    type Call = Call;
    /// How many wait, and whether anybody does.
    type Numbers = [i64; 2];

    fn ask(condvar: &mut Memory<1>, call: Call) -> Result<Answer, String> {
        let (head, entry) = condvar.parts_mut();
        unsafe {
            match call {
                Call::Init => plain(wq_condvar_init(head)),
                Call::Signal => with_word(|who| wq_condvar_signal(head, entry, who), |code| code == 1),
                Call::Broadcast { room } => with_room(room, |out, room| wq_condvar_broadcast(head, entry, out, room)),
            }
        }
    }

    fn numbers(condvar: &Memory<1>) -> [i64; 2] {
        let (head, entry) = condvar.parts();
        unsafe { [wq_condvar_num_waiters(head, entry), wq_condvar_has_waiters(head, entry).into()] }
    }

    fn audit(condvar: &Memory<1>) -> bool {
        let (head, entry) = condvar.parts();
        unsafe { wq_condvar_audit(head, entry) }
    }
}
