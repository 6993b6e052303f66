//! Why the call that finds the gaps answers 15 or 16: all choices of gaps, tried plainly.

use crate::case::Claim;
use crate::judge::{first_broken, Fault, Judged, Spot};
use crate::labels::{counted, Labels};
use cuecheck::TEXT;
use std::collections::BTreeMap;

/// The most choices that are tried at all.
const CHOICES: u64 = 1_000_000;
/// The most nodes and constraints that are looked at for an explanation: beyond, there is none.
const EFFORT: u64 = 200_000_000;
/// How many of the constraints are named that stop most choices.
const NAMED: usize = 5;

/// How often a constraint was the first that a choice broke, by node and number.
type Tally = BTreeMap<(usize, usize), u64>;

/// What the call refuses of a text that the check would not refuse ahead of its constraints, and why.
pub fn explain(mut judged: Judged, length: usize, labels: &Labels) -> (Option<Spot>, Vec<String>) {
    let empties: Vec<u32> = judged.case.claims.iter().filter_map(gap_of).collect();
    let gaps = judged.case.plan.len() as u64 + 1;
    let choices = (0..empties.len()).fold(1u64, |choices, _| choices.saturating_mul(gaps));
    if choices > CHOICES {
        let words =
            format!("{}, so {gaps} gaps for each of {}", counted(gaps as usize - 1, "cue"), counted(empties.len(), "empty task"));
        return (Some((15, 0, empties.len() as u32)), vec![words]);
    }
    let constraints: usize = (0..judged.case.claims.len()).map(|node| judged.constraints(node).len()).sum();
    if choices * (judged.case.claims.len() + constraints) as u64 > EFFORT {
        return (None, Vec::new());
    }
    match try_all(&mut judged, &empties, length) {
        Some((tally, too_long)) => (Some((16, 0, choices as u32)), blocked(&judged, labels, choices, &tally, too_long)),
        None => (None, Vec::new()),
    }
}

fn gap_of(claim: &Claim) -> Option<u32> {
    match claim {
        Claim::Empty { gap, .. } => Some(*gap),
        _ => None,
    }
}

/// Tries every choice; none once one would do. How many made the text too long comes beside the tally.
fn try_all(judged: &mut Judged, claimed: &[u32], length: usize) -> Option<(Tally, u64)> {
    let most = judged.case.plan.len() as u32;
    let rest = length - digits(claimed);
    let mut choice = vec![0; claimed.len()];
    let (mut tally, mut too_long) = (Tally::new(), 0);
    loop {
        judged.tree.move_to(&judged.case, &choice);
        match first_broken(&judged.case, &judged.run, &judged.tree) {
            _ if rest + digits(&choice) > TEXT => too_long += 1,
            Some(Fault::Broken { node, constraint, .. }) => *tally.entry((node, constraint)).or_default() += 1,
            _ => return None,
        }
        if !advance(&mut choice, most) {
            return Some((tally, too_long));
        }
    }
}

/// How many bytes the gaps take.
fn digits(gaps: &[u32]) -> usize {
    gaps.iter().map(|gap| gap.checked_ilog10().unwrap_or(0) as usize + 1).sum()
}

/// The next choice in dictionary order, if there is one.
fn advance(choice: &mut [u32], most: u32) -> bool {
    for gap in choice.iter_mut().rev() {
        if *gap < most {
            *gap += 1;
            return true;
        }
        *gap = 0;
    }
    false
}

/// Which constraints stop the choices, those that stop most of them first.
fn blocked(judged: &Judged, labels: &Labels, choices: u64, tally: &Tally, too_long: u64) -> Vec<String> {
    let mut lines = vec![format!("{}, each broken; first broken:", counted(choices as usize, "choice"))];
    let mut most: Vec<_> = tally.iter().collect();
    most.sort_by_key(|&(_, &count)| std::cmp::Reverse(count));
    for (&(node, number), &count) in most.iter().take(NAMED) {
        let constraint = judged.constraint(node, number);
        let Some(method) = judged.case.method_of(judged.case.claims[node]) else { continue };
        let (line, meaning) = (judged.case.node_line(node), labels.constraint(method, constraint));
        lines.push(format!(
            "  in {count}: node on line {line}, constraint {number}, line {}: {}: {meaning}",
            constraint.line, constraint.text
        ));
    }
    if most.len() > NAMED {
        lines.push(format!("  and {} more constraints", most.len() - NAMED));
    }
    if too_long > 0 {
        lines.push(format!("  in {too_long}: the text would have more than 65,535 bytes"));
    }
    lines
}
