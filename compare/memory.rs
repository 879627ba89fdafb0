//! Objects over any memory contents. Upstream has nothing here, so ours is held against the rules of the header:
//! a malformed header is -22, refusals come in their fixed order and change no word, and a well-formed header
//! over any entries does what it says.

use crate::answer::{Answer, Caller};
use crate::ours::{entry_of, Library, Memory, BLOCKED, EBUSY, EINVAL, ENOMEM, RUNNING, WAITERS, WAITS};
use crate::report::{Kind, Report, Tally};
use crate::rng::Rng;
use std::fmt::Debug;

pub const MALFORMED: &str = "a malformed header: -22";
const REFUSED: &str = "a well-formed header, a refusal in its order";
const DONE: &str = "a well-formed header, done";

pub const MEMORIES: usize = 20_000;
const NUMBERS: [u32; 14] = [0, 0, 0, 0, 1, 2, 3, 5, 63, 64, 65, 1 << 31, u32::MAX - 1, u32::MAX];
const LENGTHS: [u32; 12] = [0, 0, 1, 2, 3, 4, 17, 63, 64, 65, 1 << 31, u32::MAX];

/// What a call is to do to an object of N header words.
pub enum Change<const N: usize> {
    Nothing,
    /// These header words; the entries stay.
    Head([u32; N]),
    Joined(Caller),
    /// Every entry of this thread is out; a queue as it should be has one.
    Removed(u32),
}

pub struct Expected<const N: usize> {
    pub answer: Answer,
    pub change: Change<N>,
}

impl<const N: usize> Expected<N> {
    pub fn refusal(code: i32) -> Self {
        Expected { answer: Answer::code(code), change: Change::Nothing }
    }

    pub fn done(code: i32, change: Change<N>) -> Self {
        Expected { answer: Answer::code(code), change }
    }
}

/// The rules of an object of N header words, the last of which is the number of those that wait.
pub trait Rules<const N: usize>: Library<N> {
    fn is_malformed(head: &[u32; N]) -> bool;
    /// Whether the call looks at the header before all else; one that makes the object does not look at all.
    fn looks(call: Self::Call) -> bool;
    fn calls(memory: &Memory<N>, rng: &mut Rng) -> Vec<Self::Call>;
    /// What a call does that finds the header well formed, or does not look at it before all else.
    fn expected(memory: &Memory<N>, call: Self::Call) -> Expected<N>;
    /// What the functions that only read are to answer for a well-formed header.
    fn expected_numbers(head: &[u32; N]) -> Self::Numbers;

    /// The header, with one word for all words that mean the same.
    fn meaning(head: [u32; N]) -> [u32; N] {
        head
    }

    /// Whether a well-formed header and its entries go together.
    fn is_whole(memory: &Memory<N>) -> bool {
        is_whole(memory.waiting())
    }
}

fn priority_of(entry: u64) -> u32 {
    (entry >> 32) as u32
}

pub fn id_of(entry: u64) -> u32 {
    entry as u32
}

fn is_sorted(entries: &[u64]) -> bool {
    entries.windows(2).all(|pair| priority_of(pair[0]) >= priority_of(pair[1]))
}

pub fn is_whole(entries: &[u64]) -> bool {
    let repeats = |i: usize| entries[..i].iter().any(|&other| id_of(other) == id_of(entries[i]));
    let in_range = entries.iter().all(|&entry| priority_of(entry) < 32);
    in_range && is_sorted(entries) && !(0..entries.len()).any(repeats)
}

pub fn caller_refusal(caller: Caller, state: u32) -> Option<i32> {
    if caller.priority > 31 {
        Some(EINVAL)
    } else if state == BLOCKED {
        Some(EBUSY)
    } else if state != RUNNING {
        Some(EINVAL)
    } else {
        None
    }
}

/// What a wait does that nothing else refuses.
pub fn joins<const N: usize>(memory: &Memory<N>, caller: Caller) -> Expected<N> {
    let entries = memory.waiting();
    if entries.iter().any(|&entry| id_of(entry) == caller.id) {
        Expected::refusal(EBUSY)
    } else if entries.len() == WAITERS {
        Expected::refusal(ENOMEM)
    } else {
        Expected::done(WAITS, Change::Joined(caller))
    }
}

/// Wakes so many, first to last; the other header words stay.
fn wakes<const N: usize>(memory: &Memory<N>, code: i32, count: usize, result: i32) -> Expected<N> {
    let woken = memory.waiting().iter().rev().take(count).map(|&entry| (id_of(entry), result)).collect();
    let mut head = memory.head;
    head[N - 1] -= count as u32;
    Expected { answer: Answer { code, woken }, change: Change::Head(head) }
}

/// Answers the code and wakes the first, or answers 0 where nobody waits.
pub fn wakes_first<const N: usize>(memory: &Memory<N>, code: i32, result: i32) -> Expected<N> {
    if memory.len() == 0 {
        return Expected::done(0, Change::Nothing);
    }
    wakes(memory, code, 1, result)
}

/// Wakes so many and answers the number, if there is room for all of them.
pub fn wakes_many<const N: usize>(memory: &Memory<N>, count: usize, result: i32, room: usize) -> Expected<N> {
    if room < count {
        return Expected::refusal(EINVAL);
    }
    wakes(memory, count as i32, count, result)
}

/// Whether `longer` is `shorter` with one such entry put in somewhere.
fn has_one_more(longer: &[u64], shorter: &[u64], such: impl Fn(u64) -> bool) -> bool {
    longer.len() == shorter.len() + 1
        && (0..longer.len())
            .any(|at| such(longer[at]) && longer[..at] == shorter[..at] && longer[at + 1..] == shorter[at..])
}

/// Where the entries are sorted, the new one is to stand behind all of equal or higher priority.
fn stands_well(before: &[u64], after: &[u64], caller: Caller) -> bool {
    let place = before.iter().filter(|&&entry| priority_of(entry) > caller.priority).count();
    !is_sorted(before) || id_of(after[place]) == caller.id
}

/// What of the memory is not as the change says.
pub fn wrong_part<R: Rules<N>, const N: usize>(
    before: &Memory<N>,
    after: &Memory<N>,
    change: &Change<N>,
) -> Option<&'static str> {
    let (old, new) = (before.waiting(), after.waiting());
    let behind = old.len().max(new.len());
    let numbers_stay = before.head[..N - 1] == after.head[..N - 1];
    let right = match *change {
        Change::Nothing => before == after,
        Change::Head(head) => R::meaning(after.head) == R::meaning(head) && after.entry == before.entry,
        Change::Joined(caller) => {
            let grown = has_one_more(new, old, |entry| entry == entry_of(caller));
            numbers_stay && grown && stands_well(old, new, caller)
        }
        Change::Removed(id) => numbers_stay && old.iter().filter(|&&entry| id_of(entry) != id).eq(new),
    };
    if !after.guards_stand() {
        Some("words beside the object")
    } else if before.entry[behind..] != after.entry[behind..] {
        Some("words behind the queue")
    } else {
        (!right).then_some("numbers or a queue")
    }
}

pub fn any_number(rng: &mut Rng) -> u32 {
    rng.pick(&NUMBERS)
}

pub fn any_id(rng: &mut Rng) -> u32 {
    let any = rng.number();
    rng.pick(&[0, 1, 2, 3, 1 << 16, 1 << 31, u32::MAX, any])
}

pub fn any_caller(rng: &mut Rng) -> Caller {
    let any = rng.below(32);
    Caller { id: any_id(rng), priority: rng.pick(&[0, 1, 2, 31, 31, 32, u32::MAX, any]) }
}

pub fn any_state(rng: &mut Rng) -> u32 {
    let any = rng.number();
    rng.pick(&[1, 1, 1, 1, 0, 2, 3, 4, u32::MAX, any])
}

pub fn any_room(rng: &mut Rng) -> usize {
    let any = rng.below(70);
    rng.pick(&[0, 1, 2, 3, 16, 17, 63, 64, 65, any]) as usize
}

fn any_entries(rng: &mut Rng) -> [u64; WAITERS] {
    let mut entries = [0; WAITERS];
    let kind = rng.below(3);
    for (i, entry) in entries.iter_mut().enumerate() {
        *entry = match kind {
            0 => rng.word(),
            1 => u64::from(rng.below(34)) << 32 | u64::from(any_id(rng)),
            _ => u64::from(rng.below(32)) << 32 | (i as u64 * 3),
        };
    }
    if rng.below(2) == 0 {
        entries.sort_unstable_by_key(|&entry| std::cmp::Reverse(priority_of(entry)));
    }
    entries
}

pub fn any_memory<const N: usize>(rng: &mut Rng) -> Memory<N> {
    let mut head = [0; N];
    head.fill_with(|| any_number(rng));
    head[N - 1] = rng.pick(&LENGTHS);
    Memory::new(head, any_entries(rng))
}

fn check_call<R: Rules<N>, const N: usize>(memory: &Memory<N>, call: R::Call) -> Result<Kind, String> {
    let malformed = R::looks(call) && R::is_malformed(&memory.head);
    let expected = if malformed { Expected::refusal(EINVAL) } else { R::expected(memory, call) };
    let mut after = *memory;
    let answer = R::ask(&mut after, call)?;
    if answer != expected.answer {
        return Err(format!("expected {:?}, ours {answer:?}", expected.answer));
    }
    if let Some(part) = wrong_part::<R, N>(memory, &after, &expected.change) {
        return Err(format!("answers {} as it should, and leaves wrong {part}:\n  {after:?}", answer.code));
    }
    Ok(Kind::Outside(match answer.code {
        _ if malformed => MALFORMED,
        code if code < 0 => REFUSED,
        _ => DONE,
    }))
}

fn check_numbers<R: Rules<N>, const N: usize>(memory: &Memory<N>) -> Result<Kind, String> {
    let malformed = R::is_malformed(&memory.head);
    let mut expected = R::expected_numbers(&memory.head);
    if malformed {
        expected.as_mut().fill(EINVAL.into());
    }
    let whole = !malformed && R::is_whole(memory);
    let (numbers, audit) = (R::numbers(memory), R::audit(memory));
    if numbers != expected || audit != whole {
        return Err(format!("expected {expected:?}, audit {whole}; ours {numbers:?}, audit {audit}"));
    }
    Ok(Kind::Outside(if malformed { MALFORMED } else { DONE }))
}

/// What was asked, and what came of it.
pub type Checks = Vec<(String, Result<Kind, String>)>;

fn checks<R: Rules<N>, const N: usize>(memory: &Memory<N>, rng: &mut Rng) -> Checks {
    let calls = R::calls(memory, rng).into_iter();
    let mut all: Vec<_> = calls.map(|call| (format!("{call:?}"), check_call::<R, N>(memory, call))).collect();
    all.push(("numbers and audit".to_string(), check_numbers::<R, N>(memory)));
    all
}

/// Memories, each with what came of the calls on it. Goes on after a deviation, so that the one is named that is told
/// in the fewest words.
pub fn compare_all<M: Debug>(all: impl Iterator<Item = (M, Checks)>, tally: &mut Tally) -> Result<(), String> {
    let mut shortest: Option<String> = None;
    for (memory, checks) in all {
        for (what, outcome) in checks {
            match outcome {
                Ok(kind) => tally.count(kind),
                Err(why) => {
                    let told = format!("  {memory:?}\n    {what}\n  {why}");
                    if shortest.as_ref().is_none_or(|known| told.len() < known.len()) {
                        shortest = Some(told);
                    }
                }
            }
        }
    }
    shortest.map_or(Ok(()), Err)
}

pub fn compare<R: Rules<N>, const N: usize>(report: &mut Report, name: &'static str, seed: u64) {
    let mut rng = Rng::new(seed);
    let all = (0..MEMORIES).map(|_| {
        let memory = any_memory::<N>(&mut rng);
        let checks = checks::<R, N>(&memory, &mut rng);
        (memory, checks)
    });
    report.run(name, &[MALFORMED, REFUSED, DONE], |tally| compare_all(all, tally));
}
