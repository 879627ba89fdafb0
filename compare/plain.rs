//! What objects share that are a few words, and nothing else: walks, and any words.

use crate::decide::Decision;
use crate::lent_memory::MALFORMED;
use crate::memory::{compare_all, Checks, MEMORIES};
use crate::ours::plain::{Library, Words};
use crate::ours::EINVAL;
use crate::report::{Kind, Report};
use crate::rng::Rng;
use crate::upstream::Plain;
use crate::walk::Pair;

/// A kind of object, on both sides.
pub trait Object<const N: usize>: Library<N> {
    type Gale: Plain<Word = Self::Word, Call = Self::Call>;

    /// Gale's object of these words, well formed or not.
    fn gale(head: [Self::Word; N]) -> Self::Gale;
    /// The words of Gale's object. A flag is 0 or 1.
    fn head(gale: &Self::Gale) -> [Self::Word; N];
    /// The calls of the walks over all sequences, from this start.
    fn calls(start: &Self::Gale) -> Vec<Self::Call>;
    fn draw(gale: &Self::Gale, rng: &mut Rng) -> Self::Call;
}

fn equal<T: PartialEq + std::fmt::Debug>(what: &str, expected: T, ours: T) -> Result<(), String> {
    if expected == ours {
        return Ok(());
    }
    Err(format!("{what}: expected {expected:?}, ours {ours:?}"))
}

/// A call of ours: the words before and after it, and the answer.
struct Step<T: Library<N>, const N: usize> {
    call: T::Call,
    before: Words<T::Word, N>,
    after: Words<T::Word, N>,
    answer: Decision<T::Word>,
}

impl<T: Object<N>, const N: usize> Step<T, N> {
    fn of(before: Words<T::Word, N>, call: T::Call) -> Result<Self, String> {
        let mut after = before;
        let answer = T::ask(after.head.as_mut_ptr(), call)?;
        Ok(Step { call, before, after, answer })
    }

    /// Whether ours answered so, and left these words.
    fn holds(&self, answer: &Decision<T::Word>, head: [T::Word; N]) -> Result<(), String> {
        equal("answer", answer, &self.answer)?;
        equal("then", &Words::new(head), &self.after)
    }

    fn refused(&self, code: i32) -> Result<(), String> {
        self.holds(&Decision::refusal(code), self.before.head)
    }

    /// Asks Gale too. Of a flag, ours may have another word that means the same.
    fn as_gale(&self, gale: &mut T::Gale) -> Result<Kind, String> {
        if let Some((row, code)) = gale.outside(self.call) {
            return self.refused(code).map(|()| Kind::Outside(row));
        }
        let answer = gale.call(self.call);
        if answer.code < 0 {
            return self.holds(&answer, self.before.head).map(|()| Kind::Same);
        }
        equal("answer", &answer, &self.answer)?;
        equal("then", T::head(gale), T::head(&T::gale(self.after.head)))?;
        equal("guards", true, self.after.guards_stand())?;
        for &read in T::Gale::READS {
            let look = Step::<T, N>::of(self.after, read)?;
            look.holds(&gale.call(read), self.after.head).map_err(|why| format!("{read:?}: {why}"))?;
        }
        Ok(T::Gale::differs(self.call).map_or(Kind::Same, Kind::Differs))
    }
}

/// An object on both sides.
pub struct Both<T: Object<N>, const N: usize> {
    gale: T::Gale,
    ours: Words<T::Word, N>,
}

impl<T: Object<N>, const N: usize> Clone for Both<T, N> {
    fn clone(&self) -> Self {
        Both { ..*self }
    }
}

impl<T: Object<N>, const N: usize> Both<T, N> {
    pub fn new(head: [T::Word; N]) -> Self {
        Both { gale: T::gale(head), ours: Words::new(head) }
    }
}

impl<T: Object<N>, const N: usize> Pair for Both<T, N> {
    type Op = T::Call;

    fn ops(&self) -> Vec<T::Call> {
        T::calls(&self.gale)
    }

    fn step(&mut self, call: T::Call) -> Result<Kind, String> {
        let step = Step::<T, N>::of(self.ours, call)?;
        self.ours = step.after;
        step.as_gale(&mut self.gale)
    }

    fn audit(&self) -> bool {
        true
    }

    fn draw(&self, rng: &mut Rng) -> T::Call {
        T::draw(&self.gale, rng)
    }

    fn show(&self) -> String {
        format!("{:?}", self.ours)
    }
}

/// The rules of an object, for any words.
pub trait Rules<const N: usize>: Object<N> {
    fn is_malformed(head: [Self::Word; N]) -> bool;
    /// Whether the call makes the object, and so does not look at it.
    fn makes(call: Self::Call) -> bool;
    /// What a call answers and leaves that finds the object well formed, or makes it.
    fn expected(head: [Self::Word; N], call: Self::Call) -> (Decision<Self::Word>, [Self::Word; N]);

    fn any_head(rng: &mut Rng) -> [Self::Word; N];
    fn any_calls(head: [Self::Word; N], rng: &mut Rng) -> Vec<Self::Call>;
    /// All words of numbers at the limits.
    fn limits() -> Vec<[Self::Word; N]>;
    /// All calls with numbers at the limits.
    fn limit_calls() -> Vec<Self::Call>;
}

fn check_call<R: Rules<N>, const N: usize>(head: [R::Word; N], call: R::Call) -> Result<Kind, String> {
    let step = Step::<R, N>::of(Words::new(head), call)?;
    if !R::makes(call) && R::is_malformed(head) {
        return step.refused(EINVAL).map(|()| Kind::Outside(MALFORMED));
    }
    let (answer, then) = R::expected(head, call);
    step.holds(&answer, then)?;
    step.as_gale(&mut R::gale(head))
}

/// Those that only read, too.
fn checks<R: Rules<N>, const N: usize>(head: [R::Word; N], calls: Vec<R::Call>) -> Checks {
    let all = calls.iter().chain(R::Gale::READS);
    all.map(|&call| (format!("{call:?}"), check_call::<R, N>(head, call))).collect()
}

pub fn compare_any<R: Rules<N>, const N: usize>(
    report: &mut Report,
    name: &'static str,
    rows: &[&'static str],
    seed: u64,
) {
    let mut rng = Rng::new(seed);
    let all = (0..MEMORIES).map(|_| {
        let head = R::any_head(&mut rng);
        (Words::new(head), checks::<R, N>(head, R::any_calls(head, &mut rng)))
    });
    report.run(name, rows, |tally| compare_all(all, tally));
}

pub fn compare_limits<R: Rules<N>, const N: usize>(report: &mut Report, name: &'static str, rows: &[&'static str]) {
    let all = R::limits().into_iter().map(|head| (Words::new(head), checks::<R, N>(head, R::limit_calls())));
    report.run(name, rows, |tally| compare_all(all, tally));
}
