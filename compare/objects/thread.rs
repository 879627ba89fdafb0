//! Priorities and threads: functions on plain numbers.

use crate::numbers::equal;
use crate::ours::thread as ours;
use crate::ours::{EINVAL, OK};
use crate::report::{Kind, Report, Tally};
use crate::upstream::thread::{number_of, STATES};
use gale::priority::{Priority, MAX_PRIORITY};
use gale::thread::Thread;

const LOW: &str = "a priority above 31: -22";
const STATE: &str = "a state in which upstream forbids the step: -22";
const UNKNOWN: &str = "is_blocked of a state above 3: no";

fn values() -> impl Iterator<Item = u32> + Clone {
    (0..=40).chain([u32::MAX])
}

fn compare_priority(tally: &mut Tally) -> Result<(), String> {
    for a in values() {
        let gale = Priority::new(a);
        equal(format!("new({a})"), gale.map_or(EINVAL, |p| p.value as i32), unsafe { ours::wq_priority_new(a) })?;
        tally.count(Kind::Same);
        equal(format!("get({a})"), gale.map_or(EINVAL, |p| p.get() as i32), unsafe { ours::wq_priority_get(a) })?;
        tally.count(if gale.is_some() { Kind::Same } else { Kind::Outside(LOW) });
        for b in values() {
            tally.count(compare_order(a, b)?);
        }
    }
    Ok(())
}

fn compare_order(a: u32, b: u32) -> Result<Kind, String> {
    let (than, or_equal, kind) = match (Priority::new(a), Priority::new(b)) {
        (Some(p), Some(q)) => (p.is_higher_than(&q).into(), p.is_higher_or_equal(&q).into(), Kind::Same),
        _ => (EINVAL, EINVAL, Kind::Outside(LOW)),
    };
    equal(format!("is_higher_than({a}, {b})"), than, unsafe { ours::wq_priority_is_higher_than(a, b) })?;
    equal(format!("is_higher_or_equal({a}, {b})"), or_equal, unsafe { ours::wq_priority_is_higher_or_equal(a, b) })?;
    Ok(kind)
}

#[derive(Clone, Copy, Debug)]
enum Step {
    Dispatch,
    Block,
    Wake(i32),
}

/// The state in which upstream's precondition allows the step, by its number.
fn allowed_in(step: Step) -> u32 {
    match step {
        Step::Dispatch => 0,
        Step::Block => 1,
        Step::Wake(_) => 2,
    }
}

fn gale_step(step: Step, priority: u32, state: u32, return_value: i32) -> (u32, i32) {
    let mut thread = Thread::new(1, Priority::new(priority).unwrap());
    thread.state = STATES[state as usize];
    thread.return_value = return_value;
    match step {
        Step::Dispatch => thread.dispatch(),
        Step::Block => thread.block(),
        Step::Wake(result) => thread.wake(result),
    }
    (number_of(thread.state), thread.return_value)
}

fn our_step(step: Step, priority: u32, state: &mut u32, return_value: &mut i32) -> i32 {
    unsafe {
        match step {
            Step::Dispatch => ours::wq_thread_dispatch(priority, state),
            Step::Block => ours::wq_thread_block(priority, state),
            Step::Wake(result) => ours::wq_thread_wake(priority, state, return_value, result),
        }
    }
}

fn compare_step(step: Step, priority: u32, state: u32) -> Result<Kind, String> {
    let kept = -77;
    let (code, after, kind) = if priority >= MAX_PRIORITY {
        (EINVAL, (state, kept), Kind::Outside(LOW))
    } else if state != allowed_in(step) {
        (EINVAL, (state, kept), Kind::Outside(STATE))
    } else {
        (OK, gale_step(step, priority, state, kept), Kind::Same)
    };
    let (mut our_state, mut our_value) = (state, kept);
    let our_code = our_step(step, priority, &mut our_state, &mut our_value);
    if (our_code, our_state, our_value) != (code, after.0, after.1) {
        return Err(format!(
            "  {step:?} of priority {priority}, state {state}, return value {kept}: code, state, value: \
             expected {code}, {}, {}, ours {our_code}, {our_state}, {our_value}",
            after.0, after.1
        ));
    }
    Ok(kind)
}

fn compare_is_blocked(state: u32) -> Result<Kind, String> {
    let known = STATES.get(state as usize);
    let expected = known.is_some_and(|&state| {
        let mut thread = Thread::new(1, Priority::new(0).unwrap());
        thread.state = state;
        thread.is_blocked()
    });
    equal(format!("is_blocked({state})"), expected.into(), unsafe { ours::wq_thread_is_blocked(state) }.into())?;
    Ok(if known.is_some() { Kind::Same } else { Kind::Outside(UNKNOWN) })
}

fn compare_thread(tally: &mut Tally) -> Result<(), String> {
    let steps =
        [Step::Dispatch, Step::Block, Step::Wake(0), Step::Wake(-11), Step::Wake(i32::MAX), Step::Wake(i32::MIN)];
    for state in values() {
        for priority in values() {
            for step in steps {
                tally.count(compare_step(step, priority, state)?);
            }
        }
        tally.count(compare_is_blocked(state)?);
    }
    Ok(())
}

pub fn compare(report: &mut Report) {
    report.run("priority: all functions", &[LOW], compare_priority);
    report.run("thread: all functions", &[LOW, STATE, UNKNOWN], compare_thread);
}
