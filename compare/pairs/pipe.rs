//! The pipe. The object knows of no waiters: where a reader waits at an empty pipe, bytes are written, and then the
//! reader reads them. "Try again" of the object is a wait of the decide function.

use super::check::{flag, number, one_of, words, Arg, Pair, Said};
use gale::error::EAGAIN;
use gale::pipe::{read_decide, write_decide, Pipe, ReadDecision, WriteDecision};

fn args(waiter: &'static str) -> Vec<Arg> {
    let flags = one_of("flags", &[0, 1, 2, 3, 4, 255]);
    vec![number("used"), number("size"), flags, number("request_len"), flag(waiter)]
}

fn well_formed(input: &[u64]) -> bool {
    let [used, size] = words(input);
    size > 0 && used <= size
}

fn pipe(input: &[u64]) -> Pipe {
    let [used, size, flags] = words(input);
    Pipe { size, used, flags: flags as u8 }
}

fn moved(what: &str, bytes: u32, used: u32) -> Said {
    Said::new(what, &[("bytes", bytes), ("used", used)])
}

fn refused(code: i32) -> Said {
    if code == EAGAIN {
        Said::new("waits", &[])
    } else {
        Said::code("refuses", code)
    }
}

fn write() -> Pair {
    Pair {
        function: "pipe::write_decide",
        args: args("has_reader"),
        allowed: well_formed,
        decide: |input| {
            let [used, size, flags, len, reader] = words(input);
            let result = write_decide(used, size, flags as u8, len, reader != 0);
            match result.decision {
                WriteDecision::WriteOk => moved("writes", result.actual_bytes, result.new_used),
                WriteDecision::WakeReader => moved("hands over", result.actual_bytes, result.new_used),
                WriteDecision::WritePend => Said::new("waits", &[]),
                WriteDecision::WriteError => refused(result.ret),
            }
        },
        object: |input| {
            let [used, _, _, len, reader] = words(input);
            let mut pipe = pipe(input);
            match pipe.write_check(len) {
                Err(code) => refused(code),
                Ok(n) if used == 0 && reader != 0 && pipe.read_check(n) == Ok(n) => moved("hands over", n, pipe.used),
                Ok(n) => moved("writes", n, pipe.used),
            }
        },
    }
}

/// Where a writer waits at a full pipe, the decide function speaks of the read alone.
fn read() -> Pair {
    Pair {
        function: "pipe::read_decide",
        args: args("has_writer"),
        allowed: well_formed,
        decide: |input| {
            let [used, size, flags, len, writer] = words(input);
            let result = read_decide(used, size, flags as u8, len, writer != 0);
            match result.decision {
                ReadDecision::ReadOk | ReadDecision::WakeWriter => moved("reads", result.actual_bytes, result.new_used),
                ReadDecision::ReadPend => Said::new("waits", &[]),
                ReadDecision::ReadError => refused(result.ret),
            }
        },
        object: |input| {
            let mut pipe = pipe(input);
            match pipe.read_check(words::<4>(input)[3]) {
                Err(code) => refused(code),
                Ok(n) => moved("reads", n, pipe.used),
            }
        },
    }
}

pub fn pairs() -> Vec<Pair> {
    vec![write(), read()]
}
