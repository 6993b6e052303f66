//! Median times of the two plain renderings' calls, the clear one's (plain) and the fast one's, and, with the feature
//! linked (see compare_check.rs for the command), of the linked ones in the same run. First the check and replay calls, then
//! the write call, beside the check call of the last rendering on the same input, then the call that finds the gaps, of the fast
//! rendering and the linked one, which go by the same method (the clear one tries every choice), then the import call of these two, beside
//! the check call of the case made, and last the step call.
//!
//! bench [ROUNDS [CASE]]

#[cfg(feature = "linked")]
use harness::compare::LINKED_STEP;
use harness::compare::{StepCall, PLAIN_STEP};
use harness::gen::forms::{self, Texts, Timed};
use harness::gen::steps::{self, Step};
use harness::gen::tangles::{self, Standing};
use harness::gen::{extremes, gaps, Rng, Weave};
use harness::lists::{Lengths, Lists};
use harness::{fast, plain};
use std::hint::black_box;
use std::time::{Duration, Instant};

/// A call on a text with lists of the length asked for, and an output as long as the text.
type Call = fn(&[u8], &mut Lists) -> u32;

/// The same of the import call, with an output of this length.
type Import = fn(&Texts, &mut Lists, usize) -> u32;

/// The check, replay, write or import call of one rendering, or the one that finds the gaps; its answer's number.
macro_rules! call {
    ($rendering:ident check) => {
        |text, lists| {
            let (states, nodes, work) = lists.lend(Lengths::EXACT);
            $rendering::check(text, states, nodes, work).number
        }
    };
    ($rendering:ident replay) => {
        |text, lists| {
            let (states, _, work) = lists.lend(Lengths::EXACT);
            $rendering::replay(text, states, work).number
        }
    };
    ($rendering:ident find_gaps) => {
        |text, lists| {
            let (states, nodes, work) = lists.lend(Lengths::EXACT);
            $rendering::find_gaps(text, states, nodes, work).number
        }
    };
    ($rendering:ident import) => {
        |Texts { case, names, form }, lists, output| {
            let (states, nodes, work, output) = lists.lend_all(Lengths::EXACT, output);
            $rendering::import(case, names, form, states, nodes, work, output).number
        }
    };
    ($rendering:ident write) => {
        |text, lists| {
            let (states, nodes, work, output) = lists.lend_all(Lengths::EXACT, text.len());
            $rendering::write(text, states, nodes, work, output).number
        }
    };
}

#[cfg(feature = "linked")]
const RENDERINGS: &[&str] = &["plain", "fast", "linked"];
#[cfg(feature = "linked")]
const CALLS: [&[Call]; 2] = [
    &[call!(plain check), call!(fast check), call!(cuecheck check)],
    &[call!(plain replay), call!(fast replay), call!(cuecheck replay)],
];
#[cfg(feature = "linked")]
const WRITES: &[Call] = &[call!(plain write), call!(fast write), call!(cuecheck write), call!(cuecheck check)];

#[cfg(feature = "linked")]
const FINDS: &[Call] = &[call!(fast find_gaps), call!(cuecheck find_gaps)];
#[cfg(feature = "linked")]
const IMPORTS: &[Import] = &[call!(fast import), call!(cuecheck import)];

#[cfg(not(feature = "linked"))]
const RENDERINGS: &[&str] = &["plain", "fast"];
#[cfg(not(feature = "linked"))]
const CALLS: [&[Call]; 2] = [&[call!(plain check), call!(fast check)], &[call!(plain replay), call!(fast replay)]];
#[cfg(not(feature = "linked"))]
const WRITES: &[Call] = &[call!(plain write), call!(fast write), call!(fast check)];
#[cfg(not(feature = "linked"))]
const FINDS: &[Call] = &[call!(fast find_gaps)];
#[cfg(not(feature = "linked"))]
const IMPORTS: &[Import] = &[call!(fast import)];

#[cfg(feature = "linked")]
const STEP_CALLS: &[StepCall] = &[PLAIN_STEP, fast::step, LINKED_STEP];
#[cfg(not(feature = "linked"))]
const STEP_CALLS: &[StepCall] = &[PLAIN_STEP, fast::step];

/// How many step calls are timed together.
const STEPS: usize = 1_000;

/// Name, how many inputs in turn, and their maker. Where the words touched vary, no input comes twice: a hundred would be learnt by heart, branch by branch.
const STEP_CASES: [(&str, usize, fn(&mut Rng) -> Step); 5] = [
    ("step that applies, dense sets", 100, steps::dense),
    ("step that applies, one word in use", 100, steps::one_word),
    ("step that applies, one word touched", STEPS, steps::one_touched),
    ("step that applies, some words touched", STEPS, steps::some_touched),
    ("step that is refused in the last word", 100, steps::refused_at_the_end),
];

const LINKED: bool = cfg!(feature = "linked");
const RATIO: &str = "; ratio is linked / the faster of plain and fast";

fn main() {
    let rounds = std::env::args().nth(1).map_or(201, |n| n.parse().expect("a number of rounds"));
    let wanted = std::env::args().nth(2).unwrap_or_default();
    println!("medians of {rounds} rounds in microseconds{}", if LINKED { RATIO } else { "" });
    let columns = columns(RENDERINGS.iter().map(|name| name.to_string()), "ratio".into());
    show_judging(&columns, rounds, &wanted);
    println!();
    show_writing(&columns, rounds, &wanted);
    println!();
    show_finding(rounds, &wanted);
    println!();
    show_importing(rounds, &wanted);
    println!();
    show_steps(&columns, rounds, &wanted);
}

/// The check and replay calls.
fn show_judging(columns: &str, rounds: usize, wanted: &str) {
    println!("{:<29}{:>6} {:>6} | {:<width$} | replay", "", "", "", "check", width = columns.len());
    println!("{:<29}{:>6} {:>6} | {columns} | {columns}", "case", "bytes", "answer");
    for (name, text) in cases().into_iter().filter(|(name, _)| name.starts_with(wanted)) {
        let answer = CALLS[0][0](&text, &mut Lists::default());
        let [checks, replays] = CALLS.map(|calls| row(&medians_of_text(&text, calls, rounds)));
        println!("{name:<29}{:>6} {answer:>6} | {checks} | {replays}", text.len());
    }
}

/// The write call, and the check call of the last rendering.
fn show_writing(columns: &str, rounds: usize, wanted: &str) {
    let of_it = "check, and what writing is of it";
    println!("{:<28}{:>6} {:>6} | {:<width$} | {of_it}", "", "", "", "write", width = columns.len());
    let last = RENDERINGS[RENDERINGS.len() - 1];
    println!("{:<28}{:>6} {:>6} | {columns} | {last:>9}{:>7}", "case", "bytes", "answer", "ratio");
    for (name, text) in cases_to_write().into_iter().filter(|(name, _)| name.starts_with(wanted)) {
        let answer = WRITES[0](&text, &mut Lists::with_output());
        let times = medians_of_text(&text, WRITES, rounds);
        let [writes @ .., check] = &times[..] else { unreachable!("a time for each call") };
        let ratio = writes[writes.len() - 1] / check;
        println!("{name:<28}{:>6} {answer:>6} | {} | {check:>9.1}{ratio:>7.2}", text.len(), row(writes));
    }
}

/// The call that finds the gaps. A case that takes long has fewer rounds: all of them together take about as long as `PATIENCE`, three at the least.
fn show_finding(rounds: usize, wanted: &str) {
    let columns = columns(RENDERINGS[1..].iter().map(|name| name.to_string()), "ratio".into());
    println!("{:<34}{:>6} {:>6} {:>7} | gaps, in milliseconds; ratio is linked / fast", "", "", "", "");
    println!("{:<34}{:>6} {:>6} {:>7} | {columns}", "case", "bytes", "answer", "rounds");
    let mut cases = cases_to_find();
    // Takes minutes: only if it is asked for.
    if wanted == LEVELS {
        cases.push((LEVELS.to_string(), gaps::dear_levels().text()));
    }
    for (name, text) in cases.into_iter().filter(|(name, _)| name.starts_with(wanted)) {
        let mut lists = Lists::default();
        let begin = Instant::now();
        let answer = FINDS[0](&text, &mut lists);
        let least = if wanted == LEVELS { 1 } else { 3 };
        let rounds = rounds.min(PATIENCE.div_duration_f64(begin.elapsed()) as usize).max(least);
        let times: Vec<f64> = medians_of_text(&text, FINDS, rounds).iter().map(|micros| micros / 1e3).collect();
        let ratio = times.last().expect("a time") / times[0];
        let cells = self::columns(times.iter().map(|time| format!("{time:.3}")), format!("{ratio:.2}"));
        println!("{name:<34}{:>6} {answer:>6} {rounds:>7} | {cells}", text.len());
    }
}

const PATIENCE: Duration = Duration::from_secs(2);

const LEVELS: &str = "62 levels of 64 constraints";

/// About a million choices, and no constraint that speaks of fewer tasks than all: every one of them is tried, where none is accepted, or only the last.
fn cases_to_find() -> Vec<(String, Vec<u8>)> {
    let mut cases = vec![
        ("four nodes".to_string(), extremes::four_nodes().text()),
        ("1000 cues, ordered (15)".to_string(), extremes::typical(1_000, 1_000, Weave::Ordered).text()),
        ("1000 cues, one gap".to_string(), gaps::thousand().text()),
    ];
    for (constraints, sixty_four) in [("", false), (", 64 constraints", true)] {
        for (cues, empty) in gaps::DEAR {
            for (accepted, only_last) in [("none", false), ("last", true)] {
                let text = gaps::dear(cues, empty, only_last, sixty_four).text();
                cases.push((format!("k {cues}, e {empty}, {accepted}{constraints}"), text));
            }
        }
    }
    cases
}

/// The import call, and the check call of the last rendering on the case made.
fn show_importing(rounds: usize, wanted: &str) {
    let columns = columns(RENDERINGS[1..].iter().map(|name| name.to_string()), "ratio".into());
    let of_it = "check of the case made, and what importing is of it";
    println!("{:<33}{:>6} {:>6} | {:<width$} | {of_it}", "", "", "", "import; linked / fast", width = columns.len());
    let last = RENDERINGS[RENDERINGS.len() - 1];
    println!("{:<33}{:>6} {:>6} | {columns} | {last:>9}{:>7}", "form", "bytes", "answer", "ratio");
    for Timed { name, texts, made } in forms::timed().into_iter().filter(|timed| timed.name.starts_with(wanted)) {
        let bytes = [&texts.case, &texts.names, &texts.form].map(Vec::len).iter().sum::<usize>();
        let answer = IMPORTS[0](&texts, &mut Lists::with_output(), made.len());
        let times = medians_of_form(&texts, &made, rounds);
        let [imports @ .., check] = &times[..] else { unreachable!("a time for each call") };
        let import = imports[imports.len() - 1];
        let ratio = format!("{:.2}", import / imports[0]);
        let cells = self::columns(imports.iter().map(|time| format!("{time:.1}")), ratio);
        println!("{name:<33}{bytes:>6} {answer:>6} | {cells} | {check:>9.1}{:>7.2}", import / check);
    }
}

/// The step call, a thousand times on some inputs in turn.
fn show_steps(columns: &str, rounds: usize, wanted: &str) {
    println!("{:<40} | {columns}", format!("step, {STEPS} calls"));
    for (name, count, draw) in STEP_CASES.into_iter().filter(|(name, ..)| name.starts_with(wanted)) {
        let rng = &mut Rng::new(STEPS as u64);
        let inputs: Vec<Step> = (0..count).map(|_| draw(rng)).collect();
        let times = medians(STEP_CALLS, rounds, |call| time_steps(&inputs, *call));
        println!("{name:<40} | {}", row(&times));
    }
}

fn cases_to_write() -> Vec<(&'static str, Vec<u8>)> {
    vec![
        ("four nodes", extremes::four_nodes().text()),
        ("1000 cues, ordered", extremes::typical(1_000, 1_000, Weave::Ordered).text()),
        ("64 methods of 64, tidy", tangles::sixty_four(Standing::Tidy).text()),
        ("64 methods of 64, reversed", tangles::sixty_four(Standing::Reversed).text()),
        ("64 methods of 64, shuffled", tangles::sixty_four(Standing::Shuffled).text()),
        ("32000 fields", extremes::fields_32000().text()),
    ]
}

fn cases() -> Vec<(&'static str, Vec<u8>)> {
    vec![
        ("four nodes", extremes::four_nodes().text()),
        ("60 cues, ordered", extremes::typical(60, 60, Weave::Ordered).text()),
        ("60 cues, woven", extremes::typical(61, 60, Weave::Woven).text()),
        ("60 cues, mixed", extremes::mixed(60).text()),
        ("1000 cues, ordered", extremes::typical(1_000, 1_000, Weave::Ordered).text()),
        ("1000 cues, woven", extremes::typical(1_001, 1_000, Weave::Woven).text()),
        ("1000 cues, mixed", extremes::mixed(1_000).text()),
        ("1000 cues, one word touched", extremes::one_word_touched().text()),
        ("1000 cues, every word touched", extremes::every_word_touched().text()),
        ("betweens", extremes::betweens().text()),
        ("signed betweens", extremes::signed_betweens().text()),
        ("wide betweens", extremes::wide_betweens().text()),
        ("long betweens", extremes::long_betweens().text()),
        ("befores and afters", extremes::befores_afters().text()),
        ("sets of 32", extremes::sets_of_32().text()),
        ("64 levels", extremes::levels_64().text()),
        ("32000 fields", extremes::fields_32000().text()),
        ("900 actions", extremes::actions_900().text()),
        ("sets of 256 propositions", extremes::large_sets(256).text()),
        ("sets of 512 propositions", extremes::large_sets(512).text()),
    ]
}

/// The renderings' columns of a call and, if one is linked, the ratio's.
fn columns(renderings: impl Iterator<Item = String>, ratio: String) -> String {
    let cells: String = renderings.map(|cell| format!("{cell:>9}")).collect();
    if LINKED {
        format!("{cells}{ratio:>7}")
    } else {
        cells
    }
}

fn row(medians: &[f64]) -> String {
    let ratio = medians.get(2).map_or(0.0, |linked| linked / medians[0].min(medians[1]));
    columns(medians.iter().map(|median| format!("{median:.1}")), format!("{ratio:.2}"))
}

fn medians_of_text(text: &[u8], calls: &[Call], rounds: usize) -> Vec<f64> {
    let mut lists = Lists::with_output();
    medians(calls, rounds, |call| {
        let begin = Instant::now();
        black_box(call(black_box(text), &mut lists));
        begin.elapsed()
    })
}

/// The medians of the import calls, and last that of the check call.
fn medians_of_form(texts: &Texts, made: &[u8], rounds: usize) -> Vec<f64> {
    let mut lists = Lists::with_output();
    let check = CALLS[0][RENDERINGS.len() - 1];
    // None stands for the check.
    let sides: Vec<Option<&Import>> = IMPORTS.iter().map(Some).chain([None]).collect();
    medians(&sides, rounds, |side| {
        let begin = Instant::now();
        black_box(match side {
            Some(import) => import(black_box(texts), &mut lists, made.len()),
            None => check(black_box(made), &mut lists),
        });
        begin.elapsed()
    })
}

/// The median of each side. Rounds alternate, so that all sides meet the same weather.
fn medians<C>(calls: &[C], rounds: usize, mut time: impl FnMut(&C) -> Duration) -> Vec<f64> {
    let mut taken = vec![Vec::new(); calls.len()];
    for _ in 0..rounds {
        for (call, times) in calls.iter().zip(&mut taken) {
            times.push(time(call));
        }
    }
    taken.iter_mut().map(|times| median(times)).collect()
}

fn time_steps(inputs: &[Step], call: StepCall) -> Duration {
    let begin = Instant::now();
    for step in inputs.iter().cycle().take(STEPS) {
        let mut state = step.state;
        black_box(call(black_box(&mut state), black_box(&step.sets)));
    }
    begin.elapsed()
}

fn median(times: &mut [Duration]) -> f64 {
    times.sort();
    times[times.len() / 2].as_secs_f64() * 1e6
}
