//! Holds decide functions that answer more than a code against those of Gale.

use crate::decide::{Decide, Decision};
use crate::numbers::{edges, ticks};
use crate::report::{Kind, Report};
use std::fmt::Debug;

/// A number of 32 or 64 bits.
pub trait Word: Copy + PartialEq + Debug + From<bool> {
    /// The edges, and numbers about the middle.
    fn limits() -> Vec<Self>;
}

impl Word for u32 {
    fn limits() -> Vec<Self> {
        edges().chain([i32::MAX as u32, 1 << 31, (1 << 31) + 1]).collect()
    }
}

impl Word for u64 {
    fn limits() -> Vec<Self> {
        ticks().chain([u32::MAX.into(), 1 << 32, i64::MAX as u64, 1 << 63]).collect()
    }
}

/// What ours is to decide.
fn expected<W: Word>(decide: &Decide<W>, input: &[W]) -> Result<(Decision<W>, Kind), String> {
    let Some(apart) = (decide.apart)(input) else { return Ok(((decide.gale)(input), Kind::Same)) };
    let Some(codes) = apart.gale else { return Ok((Decision::refusal(apart.code), Kind::Outside(apart.row))) };
    let gale = (decide.gale)(input);
    let ours = Decision::new(apart.code, if apart.moves { &gale.numbers } else { &[] });
    if gale == ours {
        return Ok((ours, Kind::Same));
    }
    if !codes.contains(&gale.code) {
        return Err(format!("{}: Gale decides {gale:?}", apart.row));
    }
    Ok((ours, Kind::Differs(apart.row)))
}

/// Our function, of the same numbers.
pub type Ours<W = u32> = fn(&[W]) -> Result<Decision<W>, String>;

fn compare<W: Word>(decide: &Decide<W>, ours: Ours<W>, input: &[W]) -> Result<Kind, String> {
    let (expected, kind) = expected(decide, input)?;
    let ours = ours(input)?;
    if ours == expected {
        return Ok(kind);
    }
    Err(format!("expected {expected:?}, ours {ours:?}"))
}

/// Holds our functions against those of Gale: on the edges, and about the middle.
pub fn compare_decides<W: Word, const K: usize>(
    report: &mut Report,
    name: &'static str,
    rows: &[&'static str],
    decides: [(Decide<W>, Ours<W>); K],
) {
    report.run(name, rows, |tally| {
        for (decide, ours) in &decides {
            for input in decide.inputs(&W::limits()) {
                let kind = compare(decide, *ours, &input);
                tally.count(kind.map_err(|why| format!("  {}{input:?}: {why}", decide.name))?);
            }
        }
        Ok(())
    });
}
