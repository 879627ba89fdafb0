//! Priorities and threads.

extern "C" {
    pub fn wq_priority_new(value: u32) -> i32;
    pub fn wq_priority_get(priority: u32) -> i32;
    pub fn wq_priority_is_higher_than(a: u32, b: u32) -> i32;
    pub fn wq_priority_is_higher_or_equal(a: u32, b: u32) -> i32;
    pub fn wq_thread_dispatch(priority: u32, state: *mut u32) -> i32;
    pub fn wq_thread_block(priority: u32, state: *mut u32) -> i32;
    pub fn wq_thread_wake(priority: u32, state: *mut u32, return_value: *mut i32, result: i32) -> i32;
    pub fn wq_thread_is_blocked(state: u32) -> bool;
}
