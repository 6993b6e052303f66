//! What the inputs of the step call promise: words computed and passed through, each often, and answers of both sorts.

use harness::compare::PLAIN_STEP;
use harness::fast;
use harness::gen::steps::{self, Step};
use harness::gen::Rng;

const COUNT: usize = 100_000;

/// One in so many inputs is often.
const OFTEN: usize = COUNT / 40;

/// The words of a set that aren't zero, as bits.
fn words(set: &[u64; 8]) -> u32 {
    (0..8).filter(|&w| set[w] != 0).map(|w| 1 << w).sum()
}

fn drawn() -> Vec<Step> {
    let rng = &mut Rng::new(5);
    (0..COUNT).map(|_| steps::any(rng)).collect()
}

/// How many of the steps that apply are so, by the step, the words computed and the next state.
fn applying(steps: &[Step], so: impl Fn(&Step, u32, &[u64; 8]) -> bool) -> usize {
    let counts = |step: &&Step| {
        let mut next = step.state;
        let stepped = PLAIN_STEP(&mut next, &step.sets);
        stepped.applies() && so(step, stepped.computed, &next)
    };
    steps.iter().filter(counts).count()
}

#[test]
fn every_bit_both_ways() {
    let steps = drawn();
    for w in 0..8 {
        assert!(applying(&steps, |_, computed, _| computed >> w & 1 == 1) > OFTEN, "{w}");
        assert!(applying(&steps, |_, computed, _| computed == 1 << w) > OFTEN / 2, "{w} alone");
        assert!(applying(&steps, |_, computed, _| computed >> w & 1 == 0) > OFTEN, "{w}");
        // The word is computed and comes out as it was, or passes through though it is asked for.
        let same = |step: &Step, computed: u32, next: &[u64; 8]| computed >> w & 1 == 1 && next[w] == step.state[w];
        assert!(applying(&steps, same) > OFTEN, "{w}");
        for asked in 0..2 {
            let quiet = |step: &Step, computed: u32, _: &[u64; 8]| computed >> w & 1 == 0 && step.sets[asked][w] != 0;
            assert!(applying(&steps, quiet) > OFTEN, "{w}");
        }
        // Added only, deleted only, both.
        for effect in 1..4 {
            let only = |step: &Step, _: u32, _: &[u64; 8]| {
                u32::from(step.sets[2][w] != 0) + 2 * u32::from(step.sets[3][w] != 0) == effect
            };
            assert!(applying(&steps, only) > OFTEN, "{w}");
        }
    }
}

#[test]
fn sparse_and_dense_ones() {
    let steps = drawn();
    for words in [0..=0, 1..=1, 2..=2, 3..=6, 7..=8] {
        let so_many = |_: &Step, computed: u32, _: &[u64; 8]| words.contains(&computed.count_ones());
        assert!(applying(&steps, so_many) > OFTEN, "{words:?}");
    }
    let no = |step: &&Step| !PLAIN_STEP(&mut { step.state }, &step.sets).applies();
    let would_compute = |step: &&Step| words(&step.sets[2]) | words(&step.sets[3]) != 0;
    assert!(steps.iter().filter(no).filter(would_compute).count() > COUNT / 4);
}

/// Those that are timed: all of them apply, in both renderings, and touch what they say.
#[test]
fn timed_ones() {
    let rng = &mut Rng::new(6);
    let mut seen = [0; 9];
    for _ in 0..1_000 {
        for (step, sizes) in [(steps::one_touched(rng), 1..=1), (steps::some_touched(rng), 0..=8)] {
            assert_eq!((words(&step.sets[0]), words(&step.sets[1])), (0xff, 0xff));
            let (mut ours, mut theirs) = (step.state, step.state);
            let stepped = PLAIN_STEP(&mut ours, &step.sets);
            assert_eq!((stepped, ours), (fast::step(&mut theirs, &step.sets), theirs));
            assert!(stepped.applies() && sizes.contains(&stepped.computed.count_ones()));
            seen[stepped.computed.count_ones() as usize] += 1;
        }
    }
    assert!(seen.iter().all(|&times| times > 0));
}
