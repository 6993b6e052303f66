//! The plain reading never contradicts the proved calls: on all stored cases, and on generated ones, it finds the rule that the call names at the spot that
//! it names, and words for it, or it says that it has none.

use cues::calls::Lists;
use cues::explain;
use cues::judge::{judge, Spot};
use cues::labels::Labels;
use cues::words::Words;
use harness::gen::Inputs;
use std::collections::BTreeMap;
use std::fs;
use std::path::{Path, PathBuf};

/// How often each number was explained.
type Tally = BTreeMap<u32, u64>;

/// Every answer of the check call explained, or every accepted text read as the call read it.
fn check(text: &[u8], lists: &mut Lists, tally: &mut Tally) {
    let reply = lists.check(text);
    let judged = judge(text);
    if reply.number == 0 {
        assert!(explain::agrees(&judged, &lists.states, &lists.nodes), "accepted, but read otherwise:\n{}", shown(text));
        *tally.entry(0).or_default() += 1;
        return;
    }
    let spot = (reply.number, reply.line, reply.item);
    explained(spot, explain::checked(spot, &judged, &Labels::new(&judged.case, None)), text, tally);
}

fn explained(spot: Spot, words: Words, text: &[u8], tally: &mut Tally) {
    let lines = words.lines(spot.0);
    assert!(words.details.is_some_and(|details| !details.is_empty()), "{spot:?} has no words: {lines:?}\n{}", shown(text));
    assert!(lines.iter().all(|line| line.bytes().all(|byte| (32..127).contains(&byte))), "{lines:?}");
    *tally.entry(spot.0).or_default() += 1;
}

fn shown(text: &[u8]) -> String {
    String::from_utf8_lossy(text).into_owned()
}

fn stored(crate_name: &str) -> PathBuf {
    Path::new(env!("CARGO_MANIFEST_DIR")).join("../../crates").join(crate_name).join("data")
}

/// The stored cases of a program, by name.
fn cases(crate_name: &str) -> Vec<(PathBuf, Vec<u8>)> {
    let entries = fs::read_dir(stored(crate_name)).expect("stored cases");
    let paths = entries.map(|entry| entry.expect("a stored case").path());
    let mut cases: Vec<_> = paths
        .filter(|path| path.extension().is_some_and(|extension| extension == "case"))
        .map(|path| (path.clone(), fs::read(path).expect("a stored case")))
        .collect();
    cases.sort();
    cases
}

#[test]
fn stored_cases_of_every_program() {
    let (mut lists, mut tally) = (Lists::default(), Tally::new());
    for program in ["vectors", "writevectors", "statevectors", "gapsvectors", "importvectors"] {
        for (_, text) in cases(program) {
            check(&text, &mut lists, &mut tally);
        }
    }
    println!("stored: {tally:?}");
    for number in [0, 2, 3, 4, 5, 6, 7, 8, 9, 10, 11, 12, 13, 20, 21, 22] {
        assert!(tally.contains_key(&number), "no stored case answers {number}");
    }
}

#[test]
fn generated_refusals() {
    let inputs = Inputs::new(19_001);
    let (mut lists, mut tally) = (Lists::default(), Tally::new());
    let mut refused = 0;
    for number in 0.. {
        let text = inputs.text(&mut inputs.rng(number));
        check(&text, &mut lists, &mut tally);
        refused = tally.iter().filter(|(&number, _)| number != 0).map(|(_, count)| count).sum();
        if refused == 100_000 {
            break;
        }
    }
    println!("generated: {tally:?}");
    assert_eq!(refused, 100_000);
    for number in [3, 4, 5, 6, 7, 8, 9, 10, 11, 12, 13, 20, 21, 22] {
        assert!(tally.get(&number).is_some_and(|&count| count > 100), "{number} came up too seldom");
    }
}

#[test]
fn generated_refusals_of_replay_write_and_gaps() {
    let inputs = Inputs::new(19_002);
    let (mut lists, mut tally) = (Lists::default(), Tally::new());
    let mut unexplained = 0;
    for number in 0..10_000 {
        let text = inputs.text_to_find(&mut inputs.rng(number));
        let judged = judge(&text);
        let labels = Labels::new(&judged.case, None);
        let reply = lists.replay(&text);
        let spot = (reply.number, reply.line, reply.item);
        if spot.0 != 0 {
            explained(spot, explain::replayed(spot, &judged, &labels), &text, &mut tally);
        }
        let reply = lists.write(&text);
        let spot = (reply.number, reply.line, reply.item);
        if spot.0 != 0 {
            explained(spot, explain::checked(spot, &judged, &labels), &text, &mut tally);
        }
        let reply = lists.find_gaps(&text);
        let spot = (reply.number, reply.line, reply.item);
        if spot.0 != 0 {
            let words = explain::found(spot, judged, text.len(), &labels);
            // Where trying all choices plainly would take too long, there is no explanation.
            match words.details.is_none() && spot.0 == 16 {
                true => unexplained += 1,
                false => explained(spot, words, &text, &mut tally),
            }
        }
    }
    println!("generated: {tally:?}, {unexplained} of 16 without an explanation");
    for number in [15, 16] {
        assert!(tally.get(&number).is_some_and(|&count| count > 10), "{number} came up too seldom");
    }
    assert!(unexplained * 10 < tally[&16], "too many of 16 have no explanation");
}

#[test]
fn generated_refusals_of_the_import_call() {
    let inputs = Inputs::new(19_003);
    let (mut lists, mut tally) = (Lists::default(), Tally::new());
    for number in 0..10_000 {
        let texts = inputs.form(&mut inputs.rng(number));
        let reply = lists.import(&texts.case, &texts.names, &texts.form);
        let spot = (reply.number, reply.line, reply.item);
        if spot.0 == 0 {
            *tally.entry(0).or_default() += 1;
            continue;
        }
        let words = explain::imported(spot, &texts.case, &texts.names, &texts.form);
        if words.details.is_none() && spot.0 == 16 {
            continue;
        }
        explained(spot, words, &texts.shown(), &mut tally);
    }
    println!("generated: {tally:?}");
    for number in [3, 5, 6, 16, 17, 18, 19] {
        assert!(tally.get(&number).is_some_and(|&count| count > 10), "{number} came up too seldom");
    }
}

/// The words go with an answer that the plain reading finds too, and with no other: another number, line or item has no explanation.
#[test]
fn no_words_for_another_spot() {
    let mut lists = Lists::default();
    for (path, text) in cases("vectors") {
        let reply = lists.check(&text);
        if reply.number == 0 {
            continue;
        }
        let judged = judge(&text);
        let labels = Labels::new(&judged.case, None);
        let (number, line, item) = (reply.number, reply.line, reply.item);
        for other in [(number % 22 + 1, line, item), (number, line + 1, item), (number, line, item + 1)] {
            let words = explain::checked(other, &judged, &labels);
            assert!(words.details.is_none(), "{}: words for {other:?}", path.display());
            assert!(words.lines(other.0)[1].starts_with("no explanation"));
        }
    }
}
