//! Asks both of a pair on every input, and finds each kind of disagreement with its smallest input.

use crate::numbers::{self, edges, waiters};
use std::any::Any;
use std::cell::Cell;
use std::cmp::Ordering;
use std::collections::BTreeMap;
use std::panic::{catch_unwind, set_hook, take_hook, AssertUnwindSafe};

/// What a function said, and the numbers that it leaves.
#[derive(Clone, PartialEq, Eq, PartialOrd, Ord)]
pub struct Said {
    what: String,
    numbers: Vec<(&'static str, u64)>,
}

impl Said {
    pub fn new(what: &str, numbers: &[(&'static str, u32)]) -> Self {
        Said::long(what, &numbers.iter().map(|&(name, number)| (name, number.into())).collect::<Vec<_>>())
    }

    pub fn long(what: &str, numbers: &[(&'static str, u64)]) -> Self {
        Said { what: what.to_string(), numbers: numbers.to_vec() }
    }

    pub fn code(what: &str, code: i32) -> Self {
        Said::new(&format!("{what}, {code}"), &[])
    }

    fn show(&self) -> String {
        let numbers = self.numbers.iter().map(|(name, number)| format!(", {name} {}", show_number(*number)));
        self.what.clone() + &numbers.collect::<String>()
    }
}

fn show_number(number: u64) -> String {
    match number {
        u64::MAX => "2^64 - 1".to_string(),
        _ if number == u64::MAX - 1 => "2^64 - 2".to_string(),
        _ if number == u64::from(u32::MAX) => "2^32 - 1".to_string(),
        _ if number == u64::from(u32::MAX) - 1 => "2^32 - 2".to_string(),
        _ => number.to_string(),
    }
}

pub struct Arg {
    name: &'static str,
    values: Vec<u64>,
    is_flag: bool,
}

pub fn number(name: &'static str) -> Arg {
    Arg { name, values: edges().map(u64::from).collect(), is_flag: false }
}

/// How many wait.
pub fn waiting(name: &'static str) -> Arg {
    Arg { name, values: waiters().map(u64::from).collect(), is_flag: false }
}

pub fn ticks(name: &'static str) -> Arg {
    Arg { name, values: numbers::ticks().collect(), is_flag: false }
}

pub fn one_of(name: &'static str, values: &[u64]) -> Arg {
    Arg { name, values: values.to_vec(), is_flag: false }
}

pub fn flag(name: &'static str) -> Arg {
    Arg { name, values: vec![0, 1], is_flag: true }
}

/// A flag that is never set, because the object has no method for that.
pub fn unset(name: &'static str) -> Arg {
    Arg { name, values: vec![0], is_flag: true }
}

/// A decide function, and the methods that do the same.
pub struct Pair {
    pub function: &'static str,
    pub args: Vec<Arg>,
    /// Whether the preconditions of both sides hold.
    pub allowed: fn(&[u64]) -> bool,
    pub decide: fn(&[u64]) -> Said,
    pub object: fn(&[u64]) -> Said,
}

impl Pair {
    pub fn inputs(&self) -> Vec<Vec<u64>> {
        self.args.iter().fold(vec![Vec::new()], |inputs, arg| {
            inputs.iter().flat_map(|input| arg.values.iter().map(|&v| [input.as_slice(), &[v]].concat())).collect()
        })
    }

    fn show(&self, input: &[u64]) -> String {
        let shown = self.args.iter().zip(input).map(|(arg, &value)| match (arg.is_flag, value) {
            (true, 0) => format!("not {}", arg.name),
            (true, _) => arg.name.to_string(),
            (false, value) => format!("{} {}", arg.name, show_number(value)),
        });
        shown.collect::<Vec<_>>().join(", ")
    }
}

/// The arguments as u32. All but ticks fit.
pub fn words<const N: usize>(input: &[u64]) -> [u32; N] {
    std::array::from_fn(|i| input[i] as u32)
}

thread_local! {
    static ASKING: Cell<bool> = const { Cell::new(false) };
}

/// In words that do not depend on the compiler.
fn why(panic: &(dyn Any + Send)) -> &'static str {
    let message = panic.downcast_ref::<String>().map(String::as_str).or(panic.downcast_ref::<&str>().copied());
    match message.unwrap_or("") {
        message if message.contains("overflow") => "panics: overflow",
        message if message.contains("unwrap") => "panics: unwraps None",
        message if message.contains("out of bounds") => "panics: index out of bounds",
        _ => "panics",
    }
}

/// A panic of Gale's code is an answer, and prints nothing.
fn ask(side: fn(&[u64]) -> Said, input: &[u64]) -> Said {
    ASKING.set(true);
    let said = catch_unwind(AssertUnwindSafe(|| side(input)));
    ASKING.set(false);
    said.unwrap_or_else(|panic| Said::new(why(&*panic), &[]))
}

pub fn quiet_panics_of_gale() {
    let hook = take_hook();
    set_hook(Box::new(move |info| {
        if !ASKING.get() {
            hook(info);
        }
    }));
}

/// Whether outside the preconditions, and what each side says. Where both say the same, which has the larger numbers.
type Kind = (bool, String, String, Ordering);

fn kind_of(outside: bool, decided: &Said, object: &Said) -> Kind {
    let order = if decided.what == object.what { decided.numbers.cmp(&object.numbers) } else { Ordering::Equal };
    (outside, decided.what.clone(), object.what.clone(), order)
}

/// A row for each kind of disagreement, with its smallest input.
pub fn disagreements(pair: &Pair) -> Vec<String> {
    let size = |input: &[u64]| (input.iter().map(|&value| u128::from(value)).sum::<u128>(), input.to_vec());
    let mut smallest: BTreeMap<Kind, (Vec<u64>, String)> = BTreeMap::new();
    for input in pair.inputs() {
        let outside = !(pair.allowed)(&input);
        let (decided, object) = (ask(pair.decide, &input), ask(pair.object, &input));
        let kind = kind_of(outside, &decided, &object);
        if decided != object && smallest.get(&kind).is_none_or(|(known, _)| size(&input) < size(known)) {
            let place = if outside { "outside" } else { "inside" };
            let said = format!("{} | {} | {place}", decided.show(), object.show());
            let row = format!("| `{}` | {} | {said} |", pair.function, pair.show(&input));
            smallest.insert(kind, (input, row));
        }
    }
    smallest.into_values().map(|(_, row)| row).collect()
}
