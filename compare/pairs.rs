//! Gale against itself: each decide function, on plain numbers, against the methods of the object beside it. Nothing of
//! ours is linked here. The disagreements must be those of pairs.txt, which is compiled in.
//!
//!     pairs FOLDER     compare; FOLDER has Gale's files as they are built; the last line is "N passed, M failed"
//!     pairs --table    print the rows of pairs.txt

#[allow(dead_code)] // a part of it is needed here
mod numbers;
mod pairs {
    pub mod check;
    pub mod condvar;
    pub mod event;
    pub mod futex;
    pub mod mem_slab;
    pub mod msgq;
    pub mod mutex;
    pub mod pipe;
    pub mod ring_buf;
    pub mod sem;
    pub mod stack;
    pub mod threads;
    pub mod timeout;
    pub mod timer;
}

use pairs::check::{disagreements, quiet_panics_of_gale, Pair};
use std::process::ExitCode;

const RECORDED: &str = include_str!("pairs.txt");
/// The object beside it has nothing that does the same.
const ALONE: [&str; 1] = ["ring_buf::finish_decide"];

fn all_pairs() -> Vec<Pair> {
    [
        pairs::sem::pairs(),
        pairs::mutex::pairs(),
        pairs::condvar::pairs(),
        pairs::futex::pairs(),
        pairs::stack::pairs(),
        pairs::mem_slab::pairs(),
        pairs::msgq::pairs(),
        pairs::ring_buf::pairs(),
        pairs::pipe::pairs(),
        pairs::event::pairs(),
        pairs::timer::pairs(),
        pairs::timeout::pairs(),
    ]
    .into_iter()
    .flatten()
    .collect()
}

/// The rows of pairs.txt.
fn rows() -> impl Iterator<Item = &'static str> {
    RECORDED.lines().filter(|line| line.starts_with("| `"))
}

fn is_of(row: &str, pair: &Pair) -> bool {
    row.starts_with(&format!("| `{}` |", pair.function))
}

/// Prints how the found rows differ from those recorded, and answers whether they do not.
fn check(pair: &Pair) -> bool {
    let found = disagreements(pair);
    let known: Vec<&str> = rows().filter(|row| is_of(row, pair)).collect();
    let new: Vec<&String> = found.iter().filter(|row| !known.contains(&row.as_str())).collect();
    let missing: Vec<&&str> = known.iter().filter(|row| !found.iter().any(|other| other == **row)).collect();
    new.iter().for_each(|row| println!("not recorded:    {row}"));
    missing.iter().for_each(|row| println!("no longer found: {row}"));
    println!("{:40}{:>8} inputs{:>4} disagreements", pair.function, pair.inputs().len(), found.len());
    new.is_empty() && missing.is_empty()
}

/// The decide functions in the files of the folder.
fn functions_in(folder: &str) -> std::io::Result<Vec<String>> {
    let mut found = Vec::new();
    for file in std::fs::read_dir(folder)? {
        let path = file?.path();
        let module = path.file_stem().unwrap_or_default().to_string_lossy().to_string();
        let text = std::fs::read_to_string(&path)?;
        let names = text.lines().filter_map(|line| line.strip_prefix("pub fn ")?.split_once('('));
        found.extend(names.filter(|(name, _)| name.ends_with("_decide")).map(|(name, _)| format!("{module}::{name}")));
    }
    Ok(found)
}

/// Whether each function is compared, or is known to have nothing to be compared with, and each row is of one of them.
fn check_functions(functions: &[String], pairs: &[Pair]) -> bool {
    let names: Vec<&str> = pairs.iter().map(|pair| pair.function.split(',').next().unwrap()).collect();
    let is_known = |name: &str| names.contains(&name) || ALONE.contains(&name);
    let forgotten: Vec<&String> = functions.iter().filter(|name| !is_known(name)).collect();
    let strangers: Vec<&str> = rows().filter(|row| !pairs.iter().any(|pair| is_of(row, pair))).collect();
    forgotten.iter().for_each(|name| println!("not compared: {name}"));
    strangers.iter().for_each(|row| println!("of no function: {row}"));
    println!("{} decide functions in the sources", functions.len());
    forgotten.is_empty() && strangers.is_empty() && !functions.is_empty()
}

fn main() -> ExitCode {
    quiet_panics_of_gale();
    let pairs = all_pairs();
    let option = std::env::args().nth(1).expect("pairs FOLDER, or pairs --table");
    if option == "--table" {
        pairs.iter().flat_map(disagreements).for_each(|row| println!("{row}"));
        return ExitCode::SUCCESS;
    }
    let functions = functions_in(&option).expect("cannot read the folder");
    let mut outcomes: Vec<bool> = pairs.iter().map(check).collect();
    outcomes.push(check_functions(&functions, &pairs));
    let passed = outcomes.iter().filter(|&&outcome| outcome).count();
    println!("{passed} passed, {} failed", outcomes.len() - passed);
    ExitCode::from(u8::from(passed < outcomes.len()))
}
