//! Inputs of the step call: a state and the four sets of an action, any words at all.

use super::Rng;
use cuecheck::{Set, WORDS};

/// A state, and the sets needed, forbidden, added and deleted.
#[derive(Clone, Copy, Debug, PartialEq)]
#[repr(C)]
pub struct Step {
    pub state: Set,
    pub sets: [Set; 4],
}

/// Mostly an action that applies, or would but for one bit; more than half add and delete in few words only.
pub fn any(rng: &mut Rng) -> Step {
    let mut step = Step { state: draw_set(rng), sets: std::array::from_fn(|_| draw_set(rng)) };
    if rng.percent(60) {
        thin(rng, &mut step);
    } else if rng.percent(25) {
        // Much is deleted and added at once.
        let some = draw_set(rng);
        step.sets[3] = joined(&step.sets[2], &some, |added, some| added & some);
    }
    if rng.percent(85) {
        allow(&mut step);
        if rng.percent(50) {
            let word = rng.below(WORDS);
            prevent(&mut step, word, draw_bit(rng));
        }
    }
    step
}

/// Dense sets of an action that applies.
pub fn dense(rng: &mut Rng) -> Step {
    let mut step = Step { state: any_words(rng), sets: std::array::from_fn(|_| any_words(rng)) };
    allow(&mut step);
    step
}

/// The same with nothing in any word but the first.
pub fn one_word(rng: &mut Rng) -> Step {
    let mut step = dense(rng);
    for set in [&mut step.state].into_iter().chain(&mut step.sets) {
        set[1..].fill(0);
    }
    step
}

/// Dense sets of an action that applies, but added and deleted ones in one word only.
pub fn one_touched(rng: &mut Rng) -> Step {
    let mut step = dense(rng);
    touch_only(&mut step, 1 << rng.below(WORDS));
    step
}

/// The same in some words.
pub fn some_touched(rng: &mut Rng) -> Step {
    let mut step = dense(rng);
    touch_only(&mut step, rng.word());
    step
}

/// Dense sets of an action that would apply but for a bit of the last word.
pub fn refused_at_the_end(rng: &mut Rng) -> Step {
    let mut step = dense(rng);
    prevent(&mut step, WORDS - 1, draw_bit(rng));
    step
}

fn any_words(rng: &mut Rng) -> Set {
    std::array::from_fn(|_| rng.word())
}

/// Word by word.
fn joined(one: &Set, other: &Set, join: fn(u64, u64) -> u64) -> Set {
    std::array::from_fn(|w| join(one[w], other[w]))
}

/// A set with no member, all, one, some of one word, few, many, some of some words, or any.
fn draw_set(rng: &mut Rng) -> Set {
    let (any, other) = (any_words(rng), any_words(rng));
    let word = rng.below(WORDS);
    let mut one = [0; WORDS];
    match rng.below(8) {
        0 => one,
        1 => [u64::MAX; WORDS],
        2 => {
            one[word] = draw_bit(rng);
            one
        }
        3 => {
            one[word] = any[word];
            one
        }
        4 => joined(&any, &other, |any, other| any & other & any.rotate_left(9) & other.rotate_left(9)),
        5 => joined(&any, &other, |any, other| any | other | any.rotate_left(9)),
        6 => any.map(|word| *rng.pick(&[0, u64::MAX, word])),
        _ => any,
    }
}

/// Leaves nothing added or deleted but in these words, each a bit.
fn touch_only(step: &mut Step, words: u64) {
    for set in &mut step.sets[2..] {
        (0..WORDS).filter(|w| words >> w & 1 == 0).for_each(|w| set[w] = 0);
    }
}

/// Adds and deletes anew: mostly in one word, or in two, in none, in some.
fn thin(rng: &mut Rng, step: &mut Step) {
    for w in 0..WORDS {
        [step.sets[2][w], step.sets[3][w]] = draw_effect(rng, step.state[w]);
    }
    let (one, other, some) = (1 << rng.below(WORDS), 1 << rng.below(WORDS), rng.word());
    touch_only(step, *rng.pick(&[one, one, one, one, one | other, one | other, 0, some]));
}

/// What is added to a word and deleted from it: one of them or both, the same, or what leaves the word as it was.
fn draw_effect(rng: &mut Rng, state: u64) -> [u64; 2] {
    let (one, other) = (draw_word(rng), draw_word(rng));
    match rng.below(7) {
        0 => [one, 0],
        1 => [0, one],
        2 => [one, other],
        3 => [one, one],
        4 => [one & state, 0],
        5 => [0, one & !state],
        _ => [one & state, other & !state],
    }
}

/// A word that isn't zero: one bit, all, or any.
fn draw_word(rng: &mut Rng) -> u64 {
    let (bit, any) = (draw_bit(rng), rng.word() | 1);
    *rng.pick(&[bit, bit, u64::MAX, any])
}

/// A bit of a word, often one at its edges.
fn draw_bit(rng: &mut Rng) -> u64 {
    let any = rng.below(64);
    1 << *rng.pick(&[0, 1, 31, 32, 62, 63, any, any])
}

/// Leaves needed only what is so, and forbidden only what isn't.
fn allow(step: &mut Step) {
    let Step { state, sets: [needed, forbidden, ..] } = step;
    *needed = joined(needed, state, |needed, state| needed & state);
    *forbidden = joined(forbidden, state, |forbidden, state| forbidden & !state);
}

/// Needs this bit if it isn't so, or forbids it if it is.
fn prevent(step: &mut Step, word: usize, bit: u64) {
    let Step { state, sets: [needed, forbidden, ..] } = step;
    let set = if state[word] & bit == 0 { needed } else { forbidden };
    set[word] |= bit;
}
