//! Ring buffer, pipe, message queue, stack and memory slab in plain safe Rust behind the names of waitqueue.h, with the
//! refusals that the header lists, in that order. Bytes are copied by copy_from_slice.
//!
//! SPDX-License-Identifier: Apache-2.0

use std::slice::{from_raw_parts, from_raw_parts_mut};

const OK: i32 = 0;
const EAGAIN: i32 = -11;
const ENOMEM: i32 = -12;
const EBUSY: i32 = -16;
const EINVAL: i32 = -22;
const EPIPE: i32 = -32;
const ENOMSG: i32 = -35;
const ECANCELED: i32 = -140;

/// What C passes as a pointer and a length.
unsafe fn slice<'a, T>(at: *const T, len: u64) -> &'a [T] {
    from_raw_parts(at, len as usize)
}

unsafe fn slice_mut<'a, T>(at: *mut T, len: u64) -> &'a mut [T] {
    from_raw_parts_mut(at, len as usize)
}

fn code(result: Result<usize, i32>) -> i64 {
    match result {
        Ok(count) => count as i64,
        Err(code) => code as i64,
    }
}

fn wrapped(at: usize, size: usize) -> usize {
    if at >= size {
        at - size
    } else {
        at
    }
}

// ---- Ring buffer and pipe -------------------------------------------------------------------------

#[repr(C)]
pub struct Ring {
    size: u32,
    start: u32,
    used: u32,
}

impl Ring {
    fn new(buf_len: u64, size: u32) -> Result<Ring, i32> {
        if size == 0 || buf_len < size as u64 {
            return Err(EINVAL);
        }
        Ok(Ring { size, start: 0, used: 0 })
    }

    #[inline]
    fn malformed(&self, len: usize) -> bool {
        self.size == 0 || self.start >= self.size || self.used > self.size || len < self.size as usize
    }

    #[inline]
    fn put(&mut self, buf: &mut [u8], src: &[u8]) -> usize {
        let size = self.size as usize;
        let count = src.len().min(size - self.used as usize);
        let at = wrapped(self.start as usize + self.used as usize, size);
        let before = size - at;
        if count <= before {
            buf[at..at + count].copy_from_slice(&src[..count]);
        } else {
            buf[at..size].copy_from_slice(&src[..before]);
            buf[..count - before].copy_from_slice(&src[before..count]);
        }
        self.used += count as u32;
        count
    }

    #[inline]
    fn get(&mut self, buf: &[u8], out: &mut [u8]) -> usize {
        let size = self.size as usize;
        let count = out.len().min(self.used as usize);
        let at = self.start as usize;
        let before = size - at;
        if count <= before {
            out[..count].copy_from_slice(&buf[at..at + count]);
        } else {
            out[..before].copy_from_slice(&buf[at..size]);
            out[before..count].copy_from_slice(&buf[..count - before]);
        }
        self.start = wrapped(at + count, size) as u32;
        self.used -= count as u32;
        count
    }
}

#[no_mangle]
pub extern "C" fn wq_ring_buf_init(head: &mut Ring, _buf: *const u8, buf_len: u64, capacity: u32) -> i32 {
    match Ring::new(buf_len, capacity) {
        Ok(ring) => {
            *head = ring;
            OK
        }
        Err(code) => code,
    }
}

#[no_mangle]
pub unsafe extern "C" fn wq_ring_buf_put_n(
    head: &mut Ring,
    buf: *mut u8,
    buf_len: u64,
    src: *const u8,
    src_len: u64,
) -> i64 {
    let (buf, src) = (slice_mut(buf, buf_len), slice(src, src_len));
    if head.malformed(buf.len()) {
        return EINVAL as i64;
    }
    head.put(buf, src) as i64
}

#[no_mangle]
pub unsafe extern "C" fn wq_ring_buf_get_n(
    head: &mut Ring,
    buf: *const u8,
    buf_len: u64,
    out: *mut u8,
    out_len: u64,
) -> i64 {
    let (buf, out) = (slice(buf, buf_len), slice_mut(out, out_len));
    if head.malformed(buf.len()) {
        return EINVAL as i64;
    }
    head.get(buf, out) as i64
}

const OPEN: u32 = 1;
const RESET: u32 = 2;

#[repr(C)]
pub struct Pipe {
    ring: Ring,
    flags: u32,
}

impl Pipe {
    #[inline]
    fn write(&mut self, buf: &mut [u8], src: &[u8]) -> Result<usize, i32> {
        if self.ring.malformed(buf.len()) || self.flags > OPEN | RESET {
            Err(EINVAL)
        } else if self.flags & RESET != 0 {
            Err(ECANCELED)
        } else if self.flags & OPEN == 0 {
            Err(EPIPE)
        } else if src.is_empty() {
            Err(ENOMSG)
        } else if self.ring.used == self.ring.size {
            Err(EAGAIN)
        } else {
            Ok(self.ring.put(buf, src))
        }
    }

    #[inline]
    fn read(&mut self, buf: &[u8], out: &mut [u8]) -> Result<usize, i32> {
        if self.ring.malformed(buf.len()) || self.flags > OPEN | RESET {
            Err(EINVAL)
        } else if self.flags & RESET != 0 {
            Err(ECANCELED)
        } else if out.is_empty() {
            Err(ENOMSG)
        } else if self.ring.used == 0 {
            Err(if self.flags & OPEN == 0 { EPIPE } else { EAGAIN })
        } else {
            Ok(self.ring.get(buf, out))
        }
    }
}

#[no_mangle]
pub extern "C" fn wq_pipe_init(head: &mut Pipe, _buf: *const u8, buf_len: u64, size: u32) -> i32 {
    match Ring::new(buf_len, size) {
        Ok(ring) => {
            *head = Pipe { ring, flags: OPEN };
            OK
        }
        Err(code) => code,
    }
}

#[no_mangle]
pub unsafe extern "C" fn wq_pipe_write(
    head: &mut Pipe,
    buf: *mut u8,
    buf_len: u64,
    src: *const u8,
    src_len: u64,
) -> i64 {
    code(head.write(slice_mut(buf, buf_len), slice(src, src_len)))
}

#[no_mangle]
pub unsafe extern "C" fn wq_pipe_read(
    head: &mut Pipe,
    buf: *const u8,
    buf_len: u64,
    out: *mut u8,
    out_len: u64,
) -> i64 {
    code(head.read(slice(buf, buf_len), slice_mut(out, out_len)))
}

// ---- Message queue --------------------------------------------------------------------------------

#[repr(C)]
pub struct Queue {
    max_msgs: u32,
    read_idx: u32,
    used_msgs: u32,
    msg_size: u32,
}

impl Queue {
    #[inline]
    fn malformed(&self, len: usize) -> bool {
        let bytes = self.max_msgs as u64 * self.msg_size as u64;
        self.max_msgs == 0
            || self.msg_size == 0
            || self.read_idx >= self.max_msgs
            || self.used_msgs > self.max_msgs
            || bytes > u32::MAX as u64
            || (len as u64) < bytes
    }

    #[inline]
    fn put(&mut self, buf: &mut [u8], msg: &[u8]) -> i32 {
        if self.malformed(buf.len()) || msg.len() != self.msg_size as usize {
            return EINVAL;
        }
        if self.used_msgs == self.max_msgs {
            return ENOMSG;
        }
        let slot = wrapped(self.read_idx as usize + self.used_msgs as usize, self.max_msgs as usize);
        let at = slot * msg.len();
        buf[at..at + msg.len()].copy_from_slice(msg);
        self.used_msgs += 1;
        OK
    }

    #[inline]
    fn get(&mut self, buf: &[u8], out: &mut [u8]) -> i32 {
        if self.malformed(buf.len()) || out.len() != self.msg_size as usize {
            return EINVAL;
        }
        if self.used_msgs == 0 {
            return ENOMSG;
        }
        let at = self.read_idx as usize * out.len();
        out.copy_from_slice(&buf[at..at + out.len()]);
        self.read_idx = wrapped(self.read_idx as usize + 1, self.max_msgs as usize) as u32;
        self.used_msgs -= 1;
        OK
    }
}

#[no_mangle]
pub extern "C" fn wq_msgq_init(
    head: &mut Queue,
    _buf: *const u8,
    buf_len: u64,
    msg_size: u32,
    max_msgs: u32,
) -> i32 {
    let new = Queue { max_msgs, read_idx: 0, used_msgs: 0, msg_size };
    if new.malformed(buf_len as usize) {
        return EINVAL;
    }
    *head = new;
    OK
}

#[no_mangle]
pub unsafe extern "C" fn wq_msgq_put(
    head: &mut Queue,
    buf: *mut u8,
    buf_len: u64,
    msg: *const u8,
    msg_len: u64,
) -> i32 {
    head.put(slice_mut(buf, buf_len), slice(msg, msg_len))
}

#[no_mangle]
pub unsafe extern "C" fn wq_msgq_get(
    head: &mut Queue,
    buf: *const u8,
    buf_len: u64,
    out: *mut u8,
    out_len: u64,
) -> i32 {
    head.get(slice(buf, buf_len), slice_mut(out, out_len))
}

// ---- Stack ----------------------------------------------------------------------------------------

#[repr(C)]
pub struct Stack {
    capacity: u32,
    count: u32,
}

impl Stack {
    #[inline]
    fn malformed(&self, len: usize) -> bool {
        self.capacity == 0 || self.count > self.capacity || len < self.capacity as usize
    }
}

#[no_mangle]
pub extern "C" fn wq_stack_init(head: &mut Stack, _word: *const u64, word_len: u64, capacity: u32) -> i32 {
    let new = Stack { capacity, count: 0 };
    if new.malformed(word_len as usize) {
        return EINVAL;
    }
    *head = new;
    OK
}

#[no_mangle]
pub unsafe extern "C" fn wq_stack_push(head: &mut Stack, word: *mut u64, word_len: u64, data: u64) -> i32 {
    let word = slice_mut(word, word_len);
    if head.malformed(word.len()) {
        return EINVAL;
    }
    if head.count == head.capacity {
        return ENOMEM;
    }
    word[head.count as usize] = data;
    head.count += 1;
    OK
}

#[no_mangle]
pub unsafe extern "C" fn wq_stack_pop(head: &mut Stack, word: *const u64, word_len: u64, data: &mut u64) -> i32 {
    let word = slice(word, word_len);
    if head.malformed(word.len()) {
        return EINVAL;
    }
    if head.count == 0 {
        return EBUSY;
    }
    head.count -= 1;
    *data = word[head.count as usize];
    OK
}

// ---- Memory slab ----------------------------------------------------------------------------------

#[repr(C)]
pub struct Slab {
    num_blocks: u32,
    block_size: u32,
    num_used: u32,
    first: u32,
}

impl Slab {
    #[inline]
    fn malformed(&self, link: &[u32]) -> bool {
        self.num_blocks == 0
            || self.block_size == 0
            || self.num_used > self.num_blocks
            || self.first >= self.num_blocks
            || link.len() < self.num_blocks as usize
            || (self.num_used < self.num_blocks
                && (link[self.first as usize] == 0 || link[self.first as usize] > self.num_blocks))
    }
}

#[no_mangle]
pub unsafe extern "C" fn wq_mem_slab_init(
    head: &mut Slab,
    link: *mut u32,
    link_len: u64,
    block_size: u32,
    num_blocks: u32,
) -> i32 {
    let link = slice_mut(link, link_len);
    if block_size == 0 || num_blocks == 0 || link.len() < num_blocks as usize {
        return EINVAL;
    }
    for (i, next) in link[..num_blocks as usize].iter_mut().enumerate() {
        *next = if i + 1 < num_blocks as usize { i as u32 + 2 } else { 1 };
    }
    *head = Slab { num_blocks, block_size, num_used: 0, first: 0 };
    OK
}

#[no_mangle]
pub unsafe extern "C" fn wq_mem_slab_alloc(head: &mut Slab, link: *mut u32, link_len: u64) -> i64 {
    let link = slice_mut(link, link_len);
    if head.malformed(link) {
        return EINVAL as i64;
    }
    if head.num_used == head.num_blocks {
        return ENOMEM as i64;
    }
    let block = head.first;
    head.first = link[block as usize] - 1;
    link[block as usize] = 0;
    head.num_used += 1;
    block as i64
}

#[no_mangle]
pub unsafe extern "C" fn wq_mem_slab_free(head: &mut Slab, link: *mut u32, link_len: u64, block: u32) -> i32 {
    let link = slice_mut(link, link_len);
    if head.malformed(link) || block >= head.num_blocks || link[block as usize] != 0 || head.num_used == 0 {
        return EINVAL;
    }
    link[block as usize] = head.first + 1;
    head.first = block;
    head.num_used -= 1;
    OK
}
