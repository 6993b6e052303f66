//! What the spoiled trees promise: each fault has its number, at the edge of the levels too; of all inputs of the check call each answer of the
//! walk comes up often, and so does what a wrong order of its tests would take otherwise.

use harness::compare::PLAIN_CHECK;
use harness::gen::extremes::chain;
use harness::gen::trees::{self, Fault, FAULTS};
use harness::gen::{sound, Draft, Inputs, Rng};
use harness::lists::{Lengths, Lists};
use harness::plain::Reply;
use std::collections::BTreeMap;

/// The answers of the walk.
const WALK: [u32; 7] = [6, 7, 8, 9, 20, 21, 22];

/// How often each number is answered to so many drafts.
fn answers(count: u64, draw: impl Fn(&mut Rng) -> Draft) -> BTreeMap<u32, u64> {
    let mut lists = Lists::default();
    let mut answers = BTreeMap::new();
    for number in 0..count {
        let text = draw(&mut Rng::new(number)).text();
        *answers.entry(PLAIN_CHECK(&text, &mut lists, Lengths::EXACT).number).or_default() += 1;
    }
    answers
}

fn times(answers: &BTreeMap<u32, u64>, number: u32) -> u64 {
    answers.get(&number).copied().unwrap_or(0)
}

#[test]
fn each_fault_has_its_number() {
    for fault in FAULTS {
        let answers = answers(300, |rng| {
            let mut draft = sound(rng);
            trees::apply(rng, &mut draft, fault);
            draft
        });
        println!("{}: {answers:?} of 300, due is {}", fault.name, fault.number);
        assert!(times(&answers, fault.number) >= 90, "{}: {answers:?}", fault.name);
        assert!(WALK.iter().filter(|&&number| number != fault.number).all(|&other| times(&answers, other) == 0));
    }
}

/// The answers to chains of so many levels with a fault in the first node of one of them.
fn on_level(level: usize, levels: &[usize], fault: &Fault) -> BTreeMap<u32, u64> {
    answers(300, |rng| {
        let levels = *rng.pick(levels);
        let (mut draft, _) = chain(rng, levels);
        trees::apply_on_level(rng, &mut draft, level, fault);
        draft
    })
}

/// Level 65 comes behind the node's task and letter, and behind the lack of a node; all else comes later.
#[test]
fn faults_on_level_65() {
    let (mut with, mut any) = (BTreeMap::new(), 0);
    for fault in FAULTS {
        let answers = on_level(65, &[65, 66], fault);
        println!("{}: {answers:?} of 300", fault.name);
        let ahead = [6, 20, 22].contains(&fault.number) && fault.name != "a subtask more";
        let due = if ahead { fault.number } else { 7 };
        assert!(WALK.iter().filter(|&&number| number != due && number != 7).all(|&other| times(&answers, other) == 0));
        *with.entry(due).or_insert(0) += times(&answers, due);
        any += times(&answers, 0);
    }
    assert!([6, 7, 20, 22].iter().all(|due| with[due] >= 100), "{with:?}");
    assert_eq!(any, 0);
}

#[test]
fn faults_on_level_64() {
    let mut with = BTreeMap::new();
    for fault in FAULTS {
        let answers = on_level(64, &[64], fault);
        println!("{}: {answers:?} of 300", fault.name);
        let due = fault.number;
        assert!(WALK.iter().filter(|&&number| number != due).all(|&other| times(&answers, other) == 0));
        *with.entry(due).or_insert(0) += times(&answers, due);
        *with.entry(0).or_insert(0) += times(&answers, 0);
    }
    assert!([0, 6, 8, 20, 21, 22].iter().all(|due| with[due] >= 40), "{with:?}");
}

const INPUTS: u64 = 20_000;

/// Calls with the text of each of so many inputs, and its answers with the lists that a comparison lends.
fn each_answer(seed: u64, mut tell: impl FnMut(&[u8], Reply)) {
    let inputs = Inputs::new(seed);
    let mut lists = Lists::default();
    for number in 0..INPUTS {
        let mut rng = inputs.rng(number);
        let text = inputs.text(&mut rng);
        for lengths in [Lengths::EXACT, Lengths::draw(&mut rng)] {
            tell(&text, PLAIN_CHECK(&text, &mut lists, lengths));
        }
    }
}

/// Of a million checks each answer of the walk comes up 8,000 times and more.
#[test]
fn each_answer_comes_up_often() {
    for seed in [1, 7] {
        let mut answers = BTreeMap::new();
        each_answer(seed, |_, answer| *answers.entry(answer.number).or_default() += 1);
        println!("{answers:?}");
        let often = |number: u32, of_a_million: u64| times(&answers, number) * 1_000_000 >= of_a_million * 2 * INPUTS;
        assert!(WALK.iter().all(|&number| often(number, 8_000)), "{answers:?}");
        assert!([10, 11, 12, 13].iter().all(|&number| often(number, 6_000)), "{answers:?}");
        assert!(often(0, 200_000) && often(3, 80_000) && often(4, 40_000) && often(5, 8_000), "{answers:?}");
    }
}

/// Whether a line is a D line with an empty method or an E line with one that isn't, whatever is expected there.
fn has_wrong_letter(text: &[u8], line: u32) -> bool {
    let text = std::str::from_utf8(text).expect("a readable text");
    let fields: Vec<&str> = text.lines().nth(line as usize - 1).map_or(vec![], |line| line.split(',').collect());
    let (letter, Some(Ok(method))) = (fields[0], fields.get(1).map(|field| field.parse::<usize>())) else {
        return false;
    };
    let empty = |method: usize| {
        let own = text.lines().filter(|line| line.starts_with('M')).nth(method).expect("a method");
        own.split(',').nth(2) == Some("0")
    };
    letter == "D" && empty(method) || letter == "E" && !empty(method)
}

/// A surplus node and one of another task have the wrong letter, or not, each often.
#[test]
fn wrong_letters_of_any_node() {
    let mut counts = BTreeMap::new();
    each_answer(3, |text, answer| {
        if [6, 20, 21].contains(&answer.number) {
            *counts.entry((answer.number, has_wrong_letter(text, answer.line))).or_insert(0) += 1;
        }
    });
    println!("{counts:?}");
    for sort in [(6, false), (6, true), (20, true), (21, false), (21, true)] {
        assert!(counts[&sort] >= 150, "{sort:?}");
    }
    assert!(!counts.contains_key(&(20, false)));
}
