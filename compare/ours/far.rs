//! Memory of more than 2^32 elements, of which few are ever reached.

use super::lent::{Cell, Memory, Parts};
use std::sync::OnceLock;

extern "C" {
    fn mmap(at: *mut u8, len: usize, allowed: i32, flags: i32, file: i32, offset: i64) -> *mut u8;
    fn mprotect(at: *mut u8, len: usize, allowed: i32) -> i32;
}

/// Addresses of more than 2^32 elements, of which some can be read and written: whoever reaches for another is stopped.
pub struct Far(*mut u8);

unsafe impl Send for Far {}
unsafe impl Sync for Far {}

/// A multiple of the size of a page, on every machine.
const PAGE: usize = 1 << 16;

impl Far {
    fn new(bytes: usize) -> Self {
        let (none, private_anonymous_unreserved) = (0, 0x4022);
        let at = unsafe { mmap(std::ptr::null_mut(), bytes + PAGE, none, private_anonymous_unreserved, -1, 0) };
        assert!(at as isize != -1, "there are no {bytes} bytes of addresses");
        Far((at as usize).next_multiple_of(PAGE) as *mut u8)
    }

    /// Lets the page of this byte be read and written.
    fn open(&self, byte: usize) {
        let read_and_write = 3;
        let code = unsafe { mprotect(self.0.add(byte / PAGE * PAGE), PAGE, read_and_write) };
        assert!(code == 0, "a page cannot be opened");
    }

    pub fn at<C>(&self) -> *mut C {
        self.0.cast()
    }
}

/// What a caller hands over, or wants filled, may be longer than 2^32. The first page can be reached.
pub fn lengthy() -> &'static Far {
    static AT: OnceLock<Far> = OnceLock::new();
    AT.get_or_init(|| {
        let far = Far::new(1 << 36);
        far.open(0);
        far
    })
}

/// The first of each run of elements that can be reached, and how many they are. Objects have up to 2^32 - 1.
const RUNS: [(u64, usize); 3] = [(0, 80), ((1 << 31) - 16, 32), ((1 << 32) - 16, 24)];

/// An object over more elements than there is memory for. What is beside the runs cannot be read or written.
#[derive(Clone, PartialEq, Debug)]
pub struct Wide<C, const N: usize> {
    head: [u32; N],
    len: u64,
    runs: [Vec<C>; RUNS.len()],
}

impl<C: Cell, const N: usize> Wide<C, N> {
    pub fn new(head: [u32; N], len: u64, mut cell: impl FnMut() -> C) -> Self {
        Wide { head, len, runs: RUNS.map(|(_, count)| (0..count).map(|_| cell()).collect()) }
    }

    fn place(&self, i: u64) -> (usize, usize) {
        let run = RUNS.iter().position(|&(first, count)| (first..first + count as u64).contains(&i)).unwrap();
        (run, (i - RUNS[run].0) as usize)
    }
}

/// The elements of all such objects, one at a time.
fn elements<C>() -> *mut C {
    static AT: OnceLock<Far> = OnceLock::new();
    let far = AT.get_or_init(|| Far::new(1 << 36));
    for (first, count) in RUNS {
        far.open(first as usize * size_of::<C>());
        far.open((first as usize + count) * size_of::<C>() - 1);
    }
    far.at()
}

impl<C: Cell, const N: usize> Memory<C, N> for Wide<C, N> {
    fn head(&self) -> [u32; N] {
        self.head
    }

    fn set_head(&mut self, head: [u32; N]) {
        self.head = head;
    }

    fn len(&self) -> u64 {
        self.len
    }

    fn cell(&self, i: u64) -> C {
        let (run, place) = self.place(i);
        self.runs[run][place]
    }

    fn set_cell(&mut self, i: u64, cell: C) {
        let (run, place) = self.place(i);
        self.runs[run][place] = cell;
    }

    fn lend<T>(&mut self, call: impl FnOnce(Parts<C>) -> T) -> T {
        let cells = elements::<C>();
        let place = |run: usize| unsafe { cells.add(RUNS[run].0 as usize) };
        for (run, elements) in self.runs.iter().enumerate() {
            unsafe { place(run).copy_from_nonoverlapping(elements.as_ptr(), elements.len()) };
        }
        let answer = call(Parts { head: self.head.as_mut_ptr(), cells, len: self.len });
        for (run, elements) in self.runs.iter_mut().enumerate() {
            unsafe { place(run).copy_to_nonoverlapping(elements.as_mut_ptr(), elements.len()) };
        }
        answer
    }
}
