//! The inputs of chosen size: what they promise, and the fast rendering on them.

use harness::gen::{extremes, is, not, Constraint, Draft, Line, Method, Signed};
use harness::lists::{Dirt, Lengths, Lists};
use harness::{fast, plain};
use std::collections::BTreeSet;

#[test]
fn both_renderings_agree() {
    let (mut ours, mut theirs) = (Lists::default(), Lists::default());
    for (name, text) in extremes::all() {
        ours.soil(Dirt::Counting);
        theirs.soil(Dirt::Counting);
        let (states, nodes, work) = ours.lend(Lengths::EXACT);
        let checked = plain::check(&text, states, nodes, work);
        let (states, nodes, work) = theirs.lend(Lengths::EXACT);
        assert_eq!(checked, fast::check(&text, states, nodes, work), "{name}");
        assert_eq!(ours.first_difference(&theirs), None, "{name}");
        let (states, _, work) = ours.lend(Lengths::EXACT);
        let replayed = plain::replay(&text, states, work);
        let (states, _, work) = theirs.lend(Lengths::EXACT);
        assert_eq!(replayed, fast::replay(&text, states, work), "{name}");
        assert_eq!(ours.first_difference(&theirs), None, "{name}");
    }
}

/// A proposition that is not as asked in just one state, and a between that begins or ends there, or near it.
#[test]
fn columns_at_their_edges() {
    for state in [0, 1, 31, 32, 33, 63, 64, 65, 900, 928, 929] {
        for length in [1, 2, 16, 17, 18, 33, 65, 930] {
            for from in [state - length, state - length + 1, state, state + 1] {
                let (from, to) = (from.clamp(0, 930), (from + length - 1).clamp(0, 930));
                for asked in [is(0), not(0), is(256), not(511)] {
                    try_dent(state, from, to, asked);
                }
            }
        }
    }
}

fn try_dent(state: i32, from: i32, to: i32, asked: Signed) {
    let text = one_dent(state as usize, from as u32, to as u32, asked).text();
    let mut lists = Lists::default();
    let (states, nodes, work) = lists.lend(Lengths::EXACT);
    let answer = fast::check(&text, states, nodes, work);
    let broken = from <= state && state <= to;
    assert_eq!(answer.number, if broken { 13 } else { 0 }, "not {asked:?} in {state}, from {from} to {to}");
    assert_eq!(answer, plain::check(&text, states, nodes, work));
}

/// 930 cues; a proposition is not as asked in one state, and asked for from gap to gap.
fn one_dent(state: usize, from: u32, to: u32, asked: Signed) -> Draft {
    let (g, y, z) = (3, 4, 5);
    let (away, back) = if asked.positive { (1, 2) } else { (2, 1) };
    let p = vec![asked.proposition];
    let propositions = asked.proposition + 1;
    let mut draft = Draft { propositions, compound: 3, goal: g, plan: vec![0; 930], ..Draft::default() };
    draft.actions = vec![Default::default(), [vec![], vec![], vec![], p.clone()], [vec![], vec![], p.clone(), vec![]]];
    draft.plan[state] = back;
    if state > 0 {
        draft.plan[state - 1] = away;
    }
    if asked.positive == (state > 0) {
        draft.initial = p;
    }
    let constraints = vec![Constraint::Between(1, asked, 2)];
    draft.methods.push(Method { task: g, subtasks: [vec![z; 2], vec![y; 30]].concat(), constraints });
    draft.methods.push(Method { task: z, subtasks: vec![], constraints: vec![] });
    draft.lines.extend([Line::D(0), Line::E(1, from), Line::E(1, to)]);
    let mut position = 0;
    for cues in draft.plan.chunks(31) {
        draft.lines.push(Line::D(draft.methods.len() as u32));
        draft.methods.push(Method { task: y, subtasks: cues.to_vec(), constraints: vec![] });
        for &action in cues {
            position += 1;
            draft.lines.push(Line::L(action, position));
        }
    }
    draft
}

/// The methods of a draft's D and E lines, in order.
fn methods(draft: &Draft) -> Vec<usize> {
    let method = |line: &Line| match *line {
        Line::D(method) | Line::E(method, _) => Some(method as usize),
        Line::L(..) => None,
    };
    draft.lines.iter().filter_map(method).collect()
}

fn assert_accepted(draft: &Draft) {
    let mut lists = Lists::default();
    let (states, nodes, work) = lists.lend(Lengths::EXACT);
    assert_eq!(plain::check(&draft.text(), states, nodes, work).number, 0);
}

/// How many nodes have 64 constraints that are all of this sort.
fn with_64(draft: &Draft, sort: fn(&Constraint) -> bool) -> usize {
    let full = |&&method: &&usize| {
        let constraints = &draft.methods[method].constraints;
        constraints.len() == 64 && constraints.iter().all(sort)
    };
    methods(draft).iter().filter(full).count()
}

#[test]
fn dear_cases() {
    let draft = extremes::befores_afters();
    assert_accepted(&draft);
    assert_eq!(with_64(&draft, |it| matches!(it, Constraint::Before(..) | Constraint::After(..))), 2_980);
    let draft = extremes::long_betweens();
    assert_accepted(&draft);
    assert_eq!(with_64(&draft, |it| matches!(it, Constraint::Between(..))), 930);
    let draft = extremes::signed_betweens();
    assert_accepted(&draft);
    assert_eq!(with_64(&draft, |it| matches!(it, Constraint::Between(..))), 648);
    let negative = |it: &&Constraint| matches!(it, Constraint::Between(_, Signed { positive: false, .. }, _));
    assert_eq!(draft.methods[6].constraints.iter().filter(negative).count(), 32);
    let draft = extremes::wide_betweens();
    assert_accepted(&draft);
    assert_eq!(with_64(&draft, |it| matches!(it, Constraint::Between(..))), 648);
}

#[test]
fn four_nodes() {
    let draft = extremes::four_nodes();
    assert_accepted(&draft);
    assert_eq!(draft.lines.len(), 4);
}

#[test]
fn mixed_order() {
    for cues in [60, 1_000] {
        let draft = extremes::mixed(cues);
        assert_accepted(&draft);
        assert_eq!((draft.plan.len(), draft.methods.len()), (cues, 200));
        assert!(methods(&draft).windows(2).all(|pair| pair[0] != pair[1]));
        assert!(draft.methods.iter().all(|method| method.constraints.len() >= 3));
    }
}

/// A plan of 1,000 cues whose actions touch one word each, all eight of them among them, or every word.
#[test]
fn words_touched() {
    let words = |sets: &[Vec<u32>]| -> BTreeSet<u32> { sets.concat().iter().map(|p| p / 64).collect() };
    for (draft, actions, each) in [(extremes::one_word_touched(), 60, 1), (extremes::every_word_touched(), 8, 8)] {
        assert_accepted(&draft);
        assert_eq!((draft.propositions, draft.actions.len(), draft.plan.len()), (512, actions, 1_000));
        for sets in &draft.actions {
            assert_eq!(
                (words(&sets[2..3]).len(), words(&sets[3..]).len(), words(&sets[2..]).len()),
                (each, each, each)
            );
            assert!(!sets[0].is_empty() && !sets[1].is_empty());
        }
        let touched: Vec<Vec<u32>> = draft.actions.iter().map(|sets| sets[2].clone()).collect();
        assert_eq!(words(&touched).len(), 8);
        assert!((0..actions as u32).all(|action| draft.plan.contains(&action)));
    }
}

/// Of texts that are mostly sets, one has no more propositions than four words hold, and both use their last one.
#[test]
fn large_sets() {
    for propositions in [256, 512] {
        let draft = extremes::large_sets(propositions);
        assert_accepted(&draft);
        assert!((60_000..=65_535).contains(&draft.text().len()));
        for set in 0..4 {
            assert!(draft.actions.iter().any(|sets| sets[set].contains(&(propositions - 1))));
        }
    }
}
