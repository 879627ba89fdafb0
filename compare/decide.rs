//! Functions on plain numbers of 32 or 64 bits that answer more than a code: what they are asked, and what they decide.

/// A code or a number, and the numbers that are written beside it. A refusal writes none.
#[derive(Debug, PartialEq, Eq)]
pub struct Decision<W = u32> {
    pub code: i64,
    pub numbers: Vec<W>,
}

impl<W: Copy> Decision<W> {
    pub fn new(code: impl Into<i64>, numbers: &[W]) -> Self {
        Decision { code: code.into(), numbers: numbers.to_vec() }
    }

    pub fn refusal(code: i32) -> Self {
        Decision::new(code, &[])
    }
}

pub enum Arg<W: 'static = u32> {
    Number,
    Flag,
    /// One of these.
    Of(&'static [W]),
}

/// Where ours does not decide as Gale does: the row that says so, and what ours answers.
pub struct Apart {
    pub row: &'static str,
    pub code: i32,
    /// What Gale answers there, if that is not `code` too; none where its precondition forbids the call.
    pub gale: Option<&'static [i64]>,
    /// It is no refusal: the numbers are Gale's.
    pub moves: bool,
}

impl Apart {
    pub fn outside(row: &'static str, code: i32) -> Self {
        Apart { row, code, gale: None, moves: false }
    }

    pub fn differs(row: &'static str, gale: &'static [i64], code: i32) -> Self {
        Apart { row, code, gale: Some(gale), moves: false }
    }

    /// Another code, and the same numbers.
    pub fn answers(row: &'static str, gale: &'static [i64], code: i32) -> Self {
        Apart { row, code, gale: Some(gale), moves: true }
    }
}

/// A decide function of Gale.
pub struct Decide<W: 'static = u32> {
    pub name: &'static str,
    pub args: &'static [Arg<W>],
    pub apart: fn(&[W]) -> Option<Apart>,
    pub gale: fn(&[W]) -> Decision<W>,
}

impl<W: Copy + From<bool>> Decide<W> {
    /// All inputs in which each number is one of these.
    pub fn inputs(&self, numbers: &[W]) -> Vec<Vec<W>> {
        let flags = [false, true].map(W::from);
        self.args.iter().fold(vec![Vec::new()], |inputs, arg| {
            let values = match arg {
                Arg::Number => numbers,
                Arg::Flag => &flags,
                Arg::Of(values) => values,
            };
            inputs.iter().flat_map(|input| values.iter().map(|&value| [input.as_slice(), &[value]].concat())).collect()
        })
    }
}

pub fn words<W: Copy, const N: usize>(input: &[W]) -> [W; N] {
    input.try_into().unwrap()
}
