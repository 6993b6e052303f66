//! The step call as files of cases have it.

use crate::compare::StepCall;
use crate::gen::steps::Step;
use cuecheck::Set;

/// The names that its sets go by, in order.
pub const SETS: [&str; 5] = ["state", "needed", "forbidden", "added", "deleted"];

/// A step of these sets, each given as its words, plain numbers parted by commas.
pub fn step_of(sets: [&str; 5]) -> Step {
    let [state, sets @ ..] = sets.map(set_of);
    Step { state, sets }
}

fn set_of(words: &str) -> Set {
    let words: Vec<u64> = words.split(',').map(|word| word.parse().expect("a word of a set")).collect();
    words.try_into().expect("the words of a set")
}

/// What a rendering tells of a step: a line with the answer and the state that is left, and one with the number for the trace.
pub fn told_by(call: StepCall, Step { mut state, sets }: Step) -> String {
    let stepped = call(&mut state, &sets);
    let words: String = state.iter().map(|word| format!(",{word}")).collect();
    format!("{}{words}\nmask {}\n", if stepped.applies() { 'Y' } else { 'N' }, stepped.computed)
}
