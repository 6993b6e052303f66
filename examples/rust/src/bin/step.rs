//! The step call, with one action twice: it needs proposition 511, forbids 256, adds 256 and deletes 0. Prints the answer, the number for the trace and
//! the words of the state: yes with the next one, words 0 and 4 computed, then, since 256 is true now, no with the state as it came and none computed.
//!
//!     step

use cuecheck::{Set, WORDS};

fn set(propositions: &[usize]) -> Set {
    let mut words = [0; WORDS];
    propositions.iter().for_each(|p| words[p / 64] |= 1 << (p % 64));
    words
}

fn main() {
    let mut state = set(&[0, 511]);
    for _ in 0..2 {
        let stepped = cuecheck::step(&mut state, &set(&[511]), &set(&[256]), &set(&[256]), &set(&[0]));
        let words: String = state.iter().map(|word| format!(",{word}")).collect();
        println!("{},computed {}{words}", if stepped.applies() { "yes" } else { "no" }, stepped.computed);
    }
}
