//! The pipe of Gale's Rust. It counts bytes only; its comment leaves the places to the ring buffer, so Gale's ring
//! buffer goes along.

use super::{counted, remade, ring_buf, slot, Counts};
use crate::decide::Arg::{Flag, Number, Of};
use crate::decide::{words, Apart, Arg, Decide, Decision};
use gale::error::{EAGAIN, EINVAL, ENOMSG, EPIPE};
use gale::pipe::{read_decide, write_decide, Pipe, ReadDecision, WriteDecision, FLAG_OPEN, FLAG_RESET};
use gale::ring_buf::RingBuf;

#[derive(Clone, Copy, Debug)]
pub enum Call {
    Init(u32),
    Write(u64),
    WriteAll(u64),
    Read(u64),
    ReadAll(u64),
    Reset,
    Close,
    ClearReset,
}

#[derive(Clone, Copy)]
pub struct PipeAndRing {
    pub pipe: Pipe,
    pub ring: RingBuf,
}

impl PipeAndRing {
    pub fn init(size: u32) -> Result<Self, i32> {
        Ok(PipeAndRing { pipe: Pipe::init(size)?, ring: RingBuf::init(size)? })
    }
}

impl PipeAndRing {
    /// All bytes or none, which Gale has not: it is asked for the ordinary call, which is done where all bytes move or
    /// Gale refuses for another reason than that there is no room, or no byte.
    fn wholly(&mut self, call: Call, len: u64, short: i32) -> i64 {
        let answer = self.copy().call(call);
        let never = if len > self.pipe.size().into() { EINVAL } else { EAGAIN };
        let part = answer >= 0 && answer as u64 != len;
        if part || answer == EAGAIN.into() {
            return if short != EAGAIN { short } else { never }.into();
        }
        self.call(call)
    }
}

impl Counts for PipeAndRing {
    type Call = Call;

    fn call(&mut self, call: Call) -> i64 {
        match call {
            Call::Init(size) => return remade(self, PipeAndRing::init(size)),
            Call::Write(len) => {
                let moved = self.pipe.write_check(counted(len));
                assert!(moved.is_err() || moved == Ok(self.ring.put_n(moved.unwrap())));
                return slot(moved);
            }
            Call::WriteAll(len) => return self.wholly(Call::Write(len), len, EAGAIN),
            Call::ReadAll(len) => {
                let short = if self.pipe.is_open() { EAGAIN } else { EPIPE };
                return self.wholly(Call::Read(len), len, short);
            }
            Call::Read(len) => {
                let moved = self.pipe.read_check(counted(len));
                assert!(moved.is_err() || moved == Ok(self.ring.get_n(moved.unwrap())));
                return slot(moved);
            }
            Call::Reset => {
                self.pipe.reset();
                self.ring.call(ring_buf::Call::Reset);
            }
            Call::Close => self.pipe.close(),
            Call::ClearReset => self.pipe.clear_reset(),
        }
        0
    }

    fn numbers(&self) -> Vec<i64> {
        let pipe = &self.pipe;
        let [size, data, space] = [pipe.size(), pipe.data_get(), pipe.space_get()].map(i64::from);
        let [is_empty, is_full] = [pipe.is_empty(), pipe.is_full()].map(i64::from);
        vec![size, data, space, is_empty, is_full, pipe.is_open().into(), pipe.is_resetting().into()]
    }

    fn copy(&self) -> Self {
        *self
    }
}

/// All flags, and what are none; the last three are not for Gale, whose flags are a byte.
const FLAGS: Arg = Of(&[0, 1, 2, 3, 4, 5, 6, 7, 255, 256, 257, u32::MAX]);

const NO_BYTE: &str = "flags above 255, which Gale cannot be told: -22";
const NO_FLAGS: &str = "flags above 3: Gale decides by the two that it knows, ours -22";
const MALFORMED: &str = "size 0 or more used than that: Gale decides all the same, ours -22";
const READER_WAITS: &str = "write_decide, a reader waits while bytes are held and some fit: Gale 0, ours 1";
const WRITER_WAITS: &str = "read_decide, a writer waits while bytes are held and some would fit: Gale 0, ours 1";
const NO_LENGTH: &str =
    "write_decide and read_decide, length 0: Gale moves no bytes (0, 1), waits (2) or -32, ours -35";
pub const APART: [&str; 6] = [NO_BYTE, NO_FLAGS, MALFORMED, READER_WAITS, WRITER_WAITS, NO_LENGTH];

fn malformed(input: &[u32]) -> Option<Apart> {
    let [used, size, flags] = words(&input[..3]);
    match flags {
        0..=3 if size > 0 && used <= size => None,
        0..=3 => Some(Apart::differs(MALFORMED, &[0, 1, 2, -32, -140], EINVAL)),
        4..=255 => Some(Apart::differs(NO_FLAGS, &[0, 1, 2, -32, -140], EINVAL)),
        _ => Some(Apart::outside(NO_BYTE, EINVAL)),
    }
}

/// Where bytes move, ours wakes whoever waits on the other side.
fn write_apart(input: &[u32]) -> Option<Apart> {
    let [used, size, flags, len, reader] = words(input);
    let open = flags == FLAG_OPEN.into();
    let no_length = || (len == 0 && open).then(|| Apart::differs(NO_LENGTH, &[0, 1, 2], ENOMSG));
    let waits = reader != 0 && used > 0 && used < size && open;
    malformed(input).or_else(no_length).or_else(|| waits.then(|| Apart::answers(READER_WAITS, &[0], 1)))
}

fn read_apart(input: &[u32]) -> Option<Apart> {
    let [used, size, flags, len, writer] = words(input);
    let over = flags < FLAG_RESET.into();
    let no_length = || (len == 0 && over).then(|| Apart::differs(NO_LENGTH, &[0, 1, 2, -32], ENOMSG));
    let waits = writer != 0 && used > 0 && used < size && over;
    malformed(input).or_else(no_length).or_else(|| waits.then(|| Apart::answers(WRITER_WAITS, &[0], 1)))
}

pub const DECIDES: [Decide; 2] = [
    Decide {
        name: "pipe.write_decide",
        args: &[Number, Number, FLAGS, Number, Flag],
        apart: write_apart,
        gale: |input| {
            let [used, size, flags, len, reader] = words(input);
            let result = write_decide(used, size, flags as u8, len, reader != 0);
            let code = match result.decision {
                WriteDecision::WriteOk => 0,
                WriteDecision::WakeReader => 1,
                WriteDecision::WritePend => 2,
                WriteDecision::WriteError => return Decision::refusal(result.ret),
            };
            Decision::new(code, &[result.actual_bytes, result.new_used])
        },
    },
    Decide {
        name: "pipe.read_decide",
        args: &[Number, Number, FLAGS, Number, Flag],
        apart: read_apart,
        gale: |input| {
            let [used, size, flags, len, writer] = words(input);
            let result = read_decide(used, size, flags as u8, len, writer != 0);
            let code = match result.decision {
                ReadDecision::ReadOk => 0,
                ReadDecision::WakeWriter => 1,
                ReadDecision::ReadPend => 2,
                ReadDecision::ReadError => return Decision::refusal(result.ret),
            };
            Decision::new(code, &[result.actual_bytes, result.new_used])
        },
    },
];
