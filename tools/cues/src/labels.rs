//! How tasks, methods, sets, spans and lines are called in words.

use crate::case::{members, Case, Claim, Constraint, Kind, Method};
use crate::names::Names;
use crate::tree::Span;
use cuecheck::Set;

/// What tasks and methods are called: by a name list, or by their numbers.
#[derive(Default)]
pub struct Labels {
    actions: u32,
    names: Option<Names>,
}

impl Labels {
    pub fn new(case: &Case, names: Option<Names>) -> Labels {
        Labels { actions: case.header.map_or(0, |header| header.actions), names }
    }

    pub fn task(&self, task: u32) -> String {
        match self.names.as_ref().and_then(|names| names.tasks.get(task as usize)) {
            Some(name) => cut(name),
            None if task < self.actions => format!("action {task}"),
            None => format!("task {task}"),
        }
    }

    /// The name alone, or `method 0`.
    pub fn method_name(&self, method: u32) -> String {
        self.listed(method).unwrap_or_else(|| format!("method {method}"))
    }

    /// `method whole`, or `method 0`.
    pub fn method(&self, method: u32) -> String {
        format!("method {}", self.listed(method).unwrap_or_else(|| method.to_string()))
    }

    fn listed(&self, method: u32) -> Option<String> {
        self.names.as_ref()?.methods.get(method as usize).map(|name| cut(name))
    }

    /// A node line with what it means.
    pub fn claim(&self, case: &Case, claim: Claim) -> String {
        let text = claim.text();
        let task = self.task(case.own_task(claim));
        match claim {
            Claim::Decomposed { method } => {
                format!(
                    "{text}: {task}, by {} with {}",
                    self.method(method),
                    counted(case.method(method).subtasks.len(), "subtask")
                )
            }
            Claim::Empty { method, gap } if case.method(method).subtasks.is_empty() => {
                format!("{text}: {task}, by the empty {}, in gap {gap}", self.method(method))
            }
            Claim::Empty { method, gap } => {
                let count = case.method(method).subtasks.len();
                format!("{text}: {task}, by {} with {}, in gap {gap}", self.method(method), counted(count, "subtask"))
            }
            Claim::Leaf { position, .. } => format!("{text}: a leaf, {task}, at position {position}"),
        }
    }

    /// A constraint's meaning.
    pub fn constraint(&self, method: &Method, constraint: &Constraint) -> String {
        let truth = if constraint.truth { "true" } else { "false" };
        let p = constraint.proposition;
        match constraint.kind {
            Kind::Order { first, second } => {
                format!("{} before {}", self.part(method, 1 << first), self.part(method, 1 << second))
            }
            Kind::Before { set } => format!("before {}: proposition {p} is {truth}", self.part(method, set)),
            Kind::After { set } => format!("after {}: proposition {p} is {truth}", self.part(method, set)),
            Kind::Between { from, to } => format!(
                "between {} and {}: proposition {p} is {truth} in each state",
                self.part(method, from),
                self.part(method, to)
            ),
        }
    }

    /// A set of subtasks, bit j for subtask j; 0 is the whole task.
    pub fn part(&self, method: &Method, set: u32) -> String {
        let subtasks: Vec<usize> = (0..32).filter(|j| set >> j & 1 == 1).collect();
        let tasks: Vec<String> = subtasks.iter().map(|&j| self.task(method.subtasks[j])).collect();
        match subtasks[..] {
            [] => "the whole task".into(),
            [j] => format!("subtask {j} ({})", tasks[0]),
            _ => format!("subtasks {} ({})", listed(subtasks.iter().map(|&j| j as u32)), tasks.join(", ")),
        }
    }
}

/// A name, which may have any length, as it is shown.
fn cut(name: &str) -> String {
    match name.char_indices().nth(60) {
        Some((end, _)) => format!("{}..", &name[..end]),
        None => name.into(),
    }
}

/// `1 node`, `2 nodes`.
pub fn counted(count: usize, thing: &str) -> String {
    format!("{count} {thing}{}", if count == 1 { "" } else { "s" })
}

/// `none`, `proposition 1`, `propositions 0 to 63, 70`.
pub fn propositions(set: &Set) -> String {
    let members = members(set);
    match members[..] {
        [] => "none".into(),
        [p] => format!("proposition {p}"),
        _ => format!("propositions {}", listed(members.into_iter())),
    }
}

/// Ascending numbers, three or more in a row as a run.
pub fn listed(numbers: impl Iterator<Item = u32>) -> String {
    let mut runs: Vec<(u32, u32)> = Vec::new();
    for number in numbers {
        match runs.last_mut() {
            Some((_, last)) if *last + 1 == number => *last = number,
            _ => runs.push((number, number)),
        }
    }
    let words: Vec<String> = runs.into_iter().map(|(first, last)| stretch(first, last, ", ")).collect();
    words.join(", ")
}

/// `3`, `3 and 4` by the joint given, `3 to 7`.
fn stretch(first: u32, last: u32, joint: &str) -> String {
    match last - first {
        0 => first.to_string(),
        1 => format!("{first}{joint}{last}"),
        _ => format!("{first} to {last}"),
    }
}

/// `in gap 0`, `at cue 2`, `from gap 0 to cue 2`, with the doubled indexes.
pub fn span(span: Span) -> String {
    match span.start == span.end {
        true if span.start % 2 == 1 => format!("in {} (doubled {})", index(span.start), span.start),
        true => format!("at {} (doubled {})", index(span.start), span.start),
        false => format!("from {} to {} (doubled {} to {})", index(span.start), index(span.end), span.start, span.end),
    }
}

/// A doubled index: a cue or a gap.
fn index(doubled: u32) -> String {
    match doubled % 2 {
        0 => format!("cue {}", doubled / 2),
        _ => format!("gap {}", doubled / 2),
    }
}

/// `state 0 (gap 0)`, `states 0 to 2 (gaps 0 to 2)`: state g is the one in gap g.
pub fn states(first: u32, last: u32) -> String {
    match first == last {
        true => format!("state {first} (in gap {first})"),
        false => {
            let which = stretch(first, last, " and ");
            format!("states {which} (in gaps {which})")
        }
    }
}
