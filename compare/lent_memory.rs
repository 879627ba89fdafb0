//! Objects over lent elements, over any memory contents. Ours is held against the rules of the header, and where these
//! are fulfilled against Gale's object of the same numbers too.

use crate::lent::{same_numbers, values, Expected, Object};
use crate::memory::{any_number, compare_all, Checks, MEMORIES};
use crate::ours::far::Wide;
use crate::ours::lent::{Cell, Lent, Memory, ROOM};
use crate::ours::EINVAL;
use crate::report::{Kind, Report};
use crate::rng::Rng;
use crate::upstream::Counts;

pub const MALFORMED: &str = "a malformed object: -22";

/// The rules of an object of N header words.
pub trait Rules<const N: usize>: Object<N> {
    fn is_malformed(memory: &impl Memory<Self::Cell, N>) -> bool;
    /// Whether the call makes the object, and so does not look at it.
    fn makes(call: Self::Call) -> bool;
    /// What a call does that finds the object well formed, or makes it.
    fn expected(
        memory: &impl Memory<Self::Cell, N>,
        call: Self::Call,
        brought: &[Self::Cell],
    ) -> Expected<Self::Cell, N>;

    /// A header over so many elements, well formed or not.
    fn any_head(len: u32, rng: &mut Rng) -> [u32; N];
    fn any_calls(head: [u32; N], rng: &mut Rng) -> Vec<Self::Call>;
    fn any_cell(_: [u32; N], rng: &mut Rng) -> Self::Cell {
        Self::Cell::of(rng.word())
    }

    /// Headers at the limits of their numbers, each with the number of elements that it needs.
    fn limits() -> Vec<([u32; N], u64)>;
    /// Calls on one of these that reach only elements which can be reached.
    fn limit_calls(head: [u32; N]) -> Vec<Self::Call>;
}

/// Mostly a number up to the bound.
pub fn up_to(bound: u32, rng: &mut Rng) -> u32 {
    let within = rng.below(bound.saturating_add(1));
    let any = any_number(rng);
    rng.pick(&[within, within, within, within, bound, bound, bound.wrapping_sub(1), bound.wrapping_add(1), any])
}

/// Asks Gale's object of the same numbers.
fn compare_with_gale<R: Rules<N>, const N: usize>(
    before: &impl Memory<R::Cell, N>,
    after: &mut impl Memory<R::Cell, N>,
    call: R::Call,
    code: i64,
) -> Result<(), String> {
    let mut gale = R::gale(before.head());
    let answer = gale.call(call);
    if R::code(call, answer).is_some_and(|theirs| theirs != code) {
        return Err(format!("Gale answers {answer}, ours {code}"));
    }
    // A refused init leaves a malformed object, and a slab's next block need not be free where its links are any.
    if R::is_malformed(after) {
        return Ok(());
    }
    same_numbers::<R, N>(&gale, after)
}

fn check_call<R: Rules<N>, const N: usize>(memory: &impl Memory<R::Cell, N>, call: R::Call) -> Result<Kind, String> {
    let brought = values(0, R::brings(call));
    let mut after = memory.clone();
    let reply = after.lend(|at| R::ask(at, call, &brought))?;
    if !R::makes(call) && R::is_malformed(memory) {
        Expected::refusal(EINVAL.into()).hold(memory, &after, &reply)?;
        return Ok(Kind::Outside(MALFORMED));
    }
    R::expected(memory, call, &brought).hold(memory, &after, &reply)?;
    let (kind, own_code) = R::apart(memory, call).unwrap_or((Kind::Same, None));
    if own_code.is_none() {
        compare_with_gale::<R, N>(memory, &mut after, call, reply.code)?;
    }
    Ok(kind)
}

fn check_numbers<R: Rules<N>, const N: usize>(memory: &impl Memory<R::Cell, N>) -> Result<Kind, String> {
    let mut memory = memory.clone();
    if !R::is_malformed(&memory) {
        return same_numbers::<R, N>(&R::gale(memory.head()), &mut memory).map(|()| Kind::Same);
    }
    let numbers = memory.lend(R::numbers);
    if numbers.iter().all(|&number| number == EINVAL.into()) {
        return Ok(Kind::Outside(MALFORMED));
    }
    Err(format!("malformed, and ours answers {numbers:?}"))
}

fn checks<R: Rules<N>, const N: usize>(memory: &impl Memory<R::Cell, N>, calls: Vec<R::Call>) -> Checks {
    let calls = calls.into_iter();
    let mut all: Vec<_> = calls.map(|call| (format!("{call:?}"), check_call::<R, N>(memory, call))).collect();
    all.push(("numbers".to_string(), check_numbers::<R, N>(memory)));
    all
}

pub fn compare_any<R: Rules<N>, const N: usize>(
    report: &mut Report,
    name: &'static str,
    rows: &[&'static str],
    seed: u64,
) {
    let mut rng = Rng::new(seed);
    let all = (0..MEMORIES).map(|_| {
        let len = rng.below(ROOM as u32 + 1);
        let head = R::any_head(len, &mut rng);
        let cells: Vec<_> = (0..len).map(|_| R::any_cell(head, &mut rng)).collect();
        let memory = Lent::new(head, &cells);
        (memory, checks::<R, N>(&memory, R::any_calls(head, &mut rng)))
    });
    report.run(name, &[&[MALFORMED], rows].concat(), |tally| compare_all(all, tally));
}

/// Capacities about 2^31 and 2^32, over just as many elements and over more.
pub fn compare_limits<R: Rules<N>, const N: usize>(
    report: &mut Report,
    name: &'static str,
    rows: &[&'static str],
    seed: u64,
) {
    let mut rng = Rng::new(seed);
    let limits = R::limits().into_iter().flat_map(|(head, len)| [(head, len), (head, len + 4)]);
    let all = limits.map(|(head, len)| {
        let memory = Wide::new(head, len, || R::any_cell(head, &mut rng));
        let checks = checks::<R, N>(&memory, R::limit_calls(head));
        (memory, checks)
    });
    report.run(name, rows, |tally| compare_all(all, tally));
}
