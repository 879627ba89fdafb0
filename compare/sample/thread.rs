//! Priorities and threads.

use super::{answered, left, test};
use crate::answer::Answer;
use crate::upstream::thread::number_of;
use gale::error;
use gale::priority::Priority;
use gale::thread::Thread;

fn priorities() {
    test("priority");
    for value in (0..34).chain([u32::MAX]) {
        let made = Priority::new(value);
        answered("priority.new", &[value.into()], made.map_or(error::EINVAL.into(), |p| p.value.into()));
        if let Some(priority) = made {
            answered("priority.get", &[value.into()], priority.get().into());
        }
    }
    let few = [0, 1, 15, 31].map(|value| Priority::new(value).unwrap());
    for (a, b) in few.iter().flat_map(|a| few.iter().map(move |b| (a, b))) {
        let inputs = [a.value.into(), b.value.into()];
        answered("priority.is_higher_than", &inputs, a.is_higher_than(b).into());
        answered("priority.is_higher_or_equal", &inputs, a.is_higher_or_equal(b).into());
    }
}

fn thread_left(operation: &str, inputs: &[i64], t: &Thread) {
    let holds = [t.id.id.into(), t.priority.value.into(), number_of(t.state).into(), t.return_value.into()];
    left(operation, inputs, &Answer::code(error::OK), holds);
    answered("thread.is_blocked", &[], t.is_blocked().into());
}

fn threads() {
    test("thread");
    for (id, priority, result) in [(7, 5, 0), (0, 0, -11), (u32::MAX, 31, i32::MIN), (9, 1, i32::MAX)] {
        let mut t = Thread::new(id, Priority::new(priority).unwrap());
        thread_left("thread.init", &[id.into(), priority.into()], &t);
        t.dispatch();
        thread_left("thread.dispatch", &[], &t);
        t.block();
        thread_left("thread.block", &[], &t);
        t.wake(result);
        thread_left("thread.wake", &[result.into()], &t);
    }
}

pub fn tests() {
    priorities();
    threads();
}
