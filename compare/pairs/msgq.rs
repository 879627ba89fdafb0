//! The message queue. The object knows of no waiters: where a reader waits, a message is put, and then the reader gets.

use super::check::{flag, number, words, Pair, Said};
use gale::error::ENOMSG;
use gale::msgq::{get_decide, peek_at_decide, put_decide, put_front_decide, GetDecision, MsgQ, PutDecision};

/// A queue of which the decide function is told one index; the other is what it must be, as far as there can be one.
fn with_read_idx(read_idx: u32, used: u32, max: u32) -> MsgQ {
    let sum = u64::from(read_idx) + u64::from(used);
    let write_idx = sum.checked_rem(max.into()).unwrap_or(0) as u32;
    MsgQ { msg_size: 1, max_msgs: max, read_idx, write_idx, used_msgs: used }
}

fn with_write_idx(write_idx: u32, used: u32, max: u32) -> MsgQ {
    let sum = (u64::from(write_idx) + u64::from(max)).saturating_sub(used.into());
    let read_idx = sum.checked_rem(max.into()).unwrap_or(0) as u32;
    MsgQ { msg_size: 1, max_msgs: max, read_idx, write_idx, used_msgs: used }
}

fn well_formed([idx, used, max]: [u32; 3]) -> bool {
    max > 0 && idx < max && used <= max
}

fn moved(what: &str, idx: (&'static str, u32), used: u32) -> Said {
    Said::new(what, &[idx, ("used", used)])
}

fn refused(no_wait: u32) -> Said {
    if no_wait != 0 {
        Said::code("refuses", ENOMSG)
    } else {
        Said::new("waits", &[])
    }
}

fn put() -> Pair {
    Pair {
        function: "msgq::put_decide",
        args: vec![
            number("write_idx"),
            number("used_msgs"),
            number("max_msgs"),
            flag("has_waiter"),
            flag("is_no_wait"),
        ],
        allowed: |input| well_formed(words(input)),
        decide: |input| {
            let [write_idx, used, max, waiter, no_wait] = words(input);
            let result = put_decide(write_idx, used, max, waiter != 0, no_wait != 0);
            match result.decision {
                PutDecision::Store => moved("puts", ("write_idx", result.new_write_idx), result.new_used),
                PutDecision::WakeReader => Said::new("hands it over", &[("used", result.new_used)]),
                PutDecision::Pend | PutDecision::Full => refused(no_wait),
            }
        },
        object: |input| {
            let [write_idx, used, max, waiter, no_wait] = words(input);
            let mut queue = with_write_idx(write_idx, used, max);
            match queue.put() {
                Err(_) => refused(no_wait),
                Ok(_) if waiter == 0 => moved("puts", ("write_idx", queue.write_idx), queue.used_msgs),
                Ok(slot) if queue.get() == Ok(slot) => Said::new("hands it over", &[("used", queue.used_msgs)]),
                Ok(_) => Said::new("hands over an older one", &[("used", queue.used_msgs)]),
            }
        },
    }
}

/// Where a writer waits, the decide function speaks of the get alone.
fn get() -> Pair {
    Pair {
        function: "msgq::get_decide",
        args: vec![number("read_idx"), number("used_msgs"), number("max_msgs"), flag("has_waiter"), flag("is_no_wait")],
        allowed: |input| well_formed(words(input)),
        decide: |input| {
            let [read_idx, used, max, waiter, no_wait] = words(input);
            let result = get_decide(read_idx, used, max, waiter != 0, no_wait != 0);
            match result.decision {
                GetDecision::Read | GetDecision::WakeWriter => {
                    moved("gets", ("read_idx", result.new_read_idx), result.new_used)
                }
                GetDecision::Pend | GetDecision::Empty => refused(no_wait),
            }
        },
        object: |input| {
            let [read_idx, used, max, _, no_wait] = words(input);
            let mut queue = with_read_idx(read_idx, used, max);
            match queue.get() {
                Err(_) => refused(no_wait),
                Ok(_) => moved("gets", ("read_idx", queue.read_idx), queue.used_msgs),
            }
        },
    }
}

fn put_front() -> Pair {
    Pair {
        function: "msgq::put_front_decide",
        args: vec![number("read_idx"), number("used_msgs"), number("max_msgs")],
        allowed: |input| well_formed(words(input)),
        decide: |input| {
            let [read_idx, used, max] = words(input);
            let result = put_front_decide(read_idx, used, max);
            let what = if result.ok { "puts" } else { "refuses" };
            moved(what, ("read_idx", result.new_read_idx), result.new_used)
        },
        object: |input| {
            let [read_idx, used, max] = words(input);
            let mut queue = with_read_idx(read_idx, used, max);
            let what = if queue.put_front().is_ok() { "puts" } else { "refuses" };
            moved(what, ("read_idx", queue.read_idx), queue.used_msgs)
        },
    }
}

fn peek_at() -> Pair {
    Pair {
        function: "msgq::peek_at_decide",
        args: vec![number("read_idx"), number("used_msgs"), number("max_msgs"), number("idx")],
        allowed: |input| well_formed(words(input)),
        decide: |input| {
            let [read_idx, used, max, idx] = words(input);
            let result = peek_at_decide(read_idx, used, max, idx);
            if result.ok {
                Said::new("peeks", &[("slot", result.slot_idx)])
            } else {
                Said::new("refuses", &[])
            }
        },
        object: |input| {
            let [read_idx, used, max, idx] = words(input);
            match with_read_idx(read_idx, used, max).peek_at(idx) {
                Ok(slot) => Said::new("peeks", &[("slot", slot)]),
                Err(_) => Said::new("refuses", &[]),
            }
        },
    }
}

pub fn pairs() -> Vec<Pair> {
    vec![put(), get(), put_front(), peek_at()]
}
