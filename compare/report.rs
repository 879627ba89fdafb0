//! Counts what was compared, and prints the table.

use std::panic::{catch_unwind, AssertUnwindSafe};
use std::process::ExitCode;
use std::sync::Mutex;

/// What a step was, once both sides agreed as they should.
#[derive(Clone, Copy)]
pub enum Kind {
    /// Both sides were asked and answered the same.
    Same,
    /// Upstream's precondition forbids the call: ours alone was asked, and answered what the port promises.
    Outside(&'static str),
    /// Both sides were asked, and differ as intended.
    Differs(&'static str),
}

#[derive(Default)]
pub struct Tally {
    same: u64,
    outside: Vec<(&'static str, u64)>,
    differs: Vec<(&'static str, u64)>,
}

impl Tally {
    pub fn count(&mut self, kind: Kind) {
        match kind {
            Kind::Same => self.same += 1,
            Kind::Outside(what) => add(&mut self.outside, what),
            Kind::Differs(what) => add(&mut self.differs, what),
        }
    }

    fn saw(&self, what: &str) -> bool {
        self.outside.iter().chain(&self.differs).any(|(seen, _)| *seen == what)
    }
}

fn add(counts: &mut Vec<(&'static str, u64)>, what: &'static str) {
    match counts.iter_mut().find(|(known, _)| *known == what) {
        Some((_, count)) => *count += 1,
        None => counts.push((what, 1)),
    }
}

fn total(counts: &[(&'static str, u64)]) -> u64 {
    counts.iter().map(|(_, count)| count).sum()
}

/// The comparison that runs now.
static NOW: Mutex<&str> = Mutex::new("");

extern "C" {
    fn signal(number: i32, then: extern "C" fn(i32)) -> usize;
}

/// The library reached for what it may not reach.
extern "C" fn stopped(number: i32) {
    println!("{}: FAILED\n  stopped by signal {number}", NOW.lock().unwrap());
    std::process::exit(1);
}

struct Row {
    name: &'static str,
    tally: Tally,
    failed: bool,
}

#[derive(Default)]
pub struct Report {
    rows: Vec<Row>,
}

impl Report {
    /// One comparison. It fails on a deviation, on a panic, and if one of `must_see` never came up. A signal ends all.
    pub fn run(
        &mut self,
        name: &'static str,
        must_see: &[&'static str],
        compare: impl FnOnce(&mut Tally) -> Result<(), String>,
    ) {
        *NOW.lock().unwrap() = name;
        let (bus, floating_point, segment) = (7, 8, 11);
        for number in [bus, floating_point, segment] {
            unsafe { signal(number, stopped) };
        }
        let mut tally = Tally::default();
        let mut outcome = catch_unwind(AssertUnwindSafe(|| compare(&mut tally)))
            .unwrap_or_else(|_| Err("stopped by a panic, see above".to_string()));
        if outcome.is_ok() {
            if let Some(missed) = must_see.iter().find(|what| !tally.saw(what)) {
                outcome = Err(format!("never came up: {missed}"));
            }
        }
        if let Err(why) = &outcome {
            println!("{name}: FAILED\n{why}\n");
        }
        self.rows.push(Row { name, tally, failed: outcome.is_err() });
    }

    pub fn finish(self) -> ExitCode {
        println!("{:48}{:>12}{:>12}{:>12}  result", "comparison", "same", "outside", "intended");
        for Row { name, tally, failed } in &self.rows {
            let (same, outside, differs) = (tally.same, total(&tally.outside), total(&tally.differs));
            let result = if *failed { "FAILED" } else { "ok" };
            println!("{name:48}{same:>12}{outside:>12}{differs:>12}  {result}");
        }
        self.list("outside upstream's preconditions, where ours alone answers", |tally| &tally.outside);
        self.list("intended: both answer, and ours differs", |tally| &tally.differs);
        let failed = self.rows.iter().filter(|row| row.failed).count();
        println!("\n{} passed, {failed} failed", self.rows.len() - failed);
        ExitCode::from(u8::from(failed > 0))
    }

    fn list(&self, title: &str, counts: impl Fn(&Tally) -> &Vec<(&'static str, u64)>) {
        println!("\n{title}");
        for row in &self.rows {
            for (what, count) in counts(&row.tally) {
                println!("{count:>12}  {}: {what}", row.name);
            }
        }
    }
}
