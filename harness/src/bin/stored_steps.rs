//! Prints what the program of the step call's stored cases has to print, by the plain rendering: for each case of the file its name, the
//! answer with the words of the state that is left, and the number for the trace. Fails if the fast rendering says another thing.
//!
//! stored_steps FILE
//!
//! A case has a line `case NAME` (letters, digits and `-`, at most 60 bytes) and five lines more, `state`, `needed`, `forbidden`, `added` and
//! `deleted`, each with a blank and eight plain numbers parted by commas.

use harness::compare::PLAIN_STEP;
use harness::worded::{self, SETS};
use harness::{fast, gen::steps::Step};
use std::io::{Result, Write};

fn main() -> Result<()> {
    let file = std::env::args_os().nth(1).expect("a file");
    let text = std::fs::read_to_string(file)?;
    let lines: Vec<&str> = text.split_terminator('\n').collect();
    let mut out = std::io::stdout().lock();
    for case in lines.chunks(1 + SETS.len()) {
        let (name, step) = read(case);
        let told = worded::told_by(PLAIN_STEP, step);
        assert_eq!(told, worded::told_by(fast::step, step), "{name}");
        write!(out, "case {name}\n{told}")?;
    }
    Ok(())
}

/// A case from its lines.
fn read<'a>(lines: &[&'a str]) -> (&'a str, Step) {
    let fields = |at: usize, word: &str| {
        let line = lines.get(at).and_then(|line| line.strip_prefix(word)?.strip_prefix(' '));
        line.unwrap_or_else(|| panic!("{word}, in {lines:?}"))
    };
    let name = fields(0, "case");
    let plain = |byte: u8| byte.is_ascii_alphanumeric() || byte == b'-';
    assert!((1..=60).contains(&name.len()) && name.bytes().all(plain), "a name: {name}");
    (name, worded::step_of(std::array::from_fn(|set| fields(1 + set, SETS[set]))))
}
