//! A refusal in words: the rule that is broken, and the spot as people read it.

use crate::case::{Claim, Kind, Unread};
use crate::judge::{Fault, Judged, Spot, Trial};
use crate::labels::{self, counted, propositions, Labels};
use crate::tree::{Place, Span};
use cuecheck::Set;

/// How wide a line of the text is shown around its mark.
const WIDTH: usize = 96;

/// What a number of the table means.
pub fn rule(number: u32) -> &'static str {
    match number {
        1 => "a lent list is shorter than asked",
        2 => "the text is too long",
        3 => "a line or a field cannot be read",
        4 => "a field is outside its range",
        5 => "a cue does not apply",
        6 => "a node is of another task than expected",
        7 => "a node is on level 65",
        8 => "a leaf's position has another action, or was claimed earlier",
        9 => "no leaf claims a position of the plan",
        10 => "an order is broken",
        11 => "a condition before is broken",
        12 => "a condition after is broken",
        13 => "a condition between is broken",
        14 => "the output is too short",
        15 => "there are more than 1,000,000 choices of gaps",
        16 => "with no choice of gaps would the text be accepted",
        17 => "a line of the name list or of the plan form is missing, surplus or of another shape",
        18 => "a name is not listed for that use, or listed again, or the method is another task's or has another number of subtasks",
        19 => "an id is defined or used wrongly",
        20 => "a node has the wrong letter for its method",
        21 => "there is a surplus node",
        22 => "the nodes are over too soon",
        _ => "a rule that this tool does not know",
    }
}

/// A refusal's rule, and what was found there.
pub struct Words {
    pub rule: &'static str,
    /// Below the rule; none if the plain reading did not find the same rule broken at the same spot.
    pub details: Option<Vec<String>>,
}

impl Words {
    /// The words that go with the answer of a call, if what was found plainly is the same.
    pub fn of(answer: Spot, found: Option<Spot>, details: impl FnOnce() -> Vec<String>) -> Words {
        Words { rule: rule(answer.0), details: (found == Some(answer)).then(details) }
    }

    /// As they are printed, under the answer.
    pub fn lines(&self, number: u32) -> Vec<String> {
        let mut lines = vec![format!("rule {number}: {}", self.rule)];
        match &self.details {
            Some(details) => lines.extend(details.iter().cloned()),
            None => lines.push(
                "no explanation: read again plainly, the text does not show this rule broken at this spot; the answer stands"
                    .into(),
            ),
        }
        lines
    }
}

/// What the words of a judged text say, below the rule.
pub fn details(judged: &Judged, labels: &Labels) -> Vec<String> {
    let Some(fault) = &judged.fault else { return Vec::new() };
    match fault {
        Fault::Unread(unread) => unread_lines(unread),
        Fault::Stops { cue, missing, forbidden } => {
            let action = judged.case.plan[*cue as usize - 1];
            let before = labels::states(cue - 1, cue - 1);
            vec![
                format!(
                    "cue {cue} of {}: {}, line {}",
                    judged.case.plan.len(),
                    labels.task(action),
                    judged.case.actions[action as usize].line
                ),
                format!("missing: {}", those(missing, format!("needed and false in {before}"))),
                format!("forbidden: {}", those(forbidden, format!("true in {before}"))),
            ]
        }
        Fault::OtherTask { node } => other_task(judged, labels, *node),
        Fault::OtherLetter { node } => other_letter(judged, labels, *node),
        Fault::TooDeep { node } => too_deep(judged, labels, *node),
        Fault::OtherPosition { node, earlier } => other_position(judged, labels, *node, *earlier),
        Fault::Missing { place } => missing(judged, labels, *place),
        Fault::Surplus { node } => surplus(judged, labels, *node),
        Fault::Unclaimed { position } => unclaimed(judged, labels, *position),
        Fault::Broken { node, constraint, trial } => broken(judged, labels, *node, *constraint, trial),
    }
}

/// The propositions of a set with what is wrong about them, or none.
fn those(set: &Set, wrong: String) -> String {
    match set.iter().all(|&word| word == 0) {
        true => propositions(set),
        false => format!("{}, {wrong}", propositions(set)),
    }
}

// ---------------------------------------------------------------- lines and fields

/// The line with the field marked under it.
pub fn unread_lines(unread: &Unread) -> Vec<String> {
    let mut lines = match unread.line {
        0 => vec![unread.wrong.clone()],
        line if unread.item == 0 || unread.number > 4 => vec![format!("line {line}: {}", unread.wrong)],
        line => vec![format!("line {line}, field {}: {}", unread.item, unread.wrong)],
    };
    lines.push(format!("expected: {}", unread.due));
    if unread.line > 0 {
        lines.extend(marked(unread));
    }
    lines
}

fn marked(unread: &Unread) -> [String; 2] {
    let number = unread.line.to_string();
    let mark = unread.mark.start.min(unread.text.len())..unread.mark.end;
    // A long line is cut to a stretch around the mark.
    let from = mark.start.saturating_sub(WIDTH / 2);
    let to = unread.text.len().min(from + WIDTH);
    let (head, tail) = (if from > 0 { "..." } else { "" }, if to < unread.text.len() { "..." } else { "" });
    let shown = shown(&unread.text[from..to]);
    let ahead = head.len() + self::shown(&unread.text[from..mark.start]).len();
    let inside = self::shown(&unread.text[mark.start..mark.end.min(to).max(mark.start)]).len().max(1);
    [
        format!("  {number} | {head}{shown}{tail}"),
        format!("  {} | {}{}", " ".repeat(number.len()), " ".repeat(ahead), "^".repeat(inside)),
    ]
}

/// Bytes as they can be shown on any terminal.
fn shown(bytes: &[u8]) -> String {
    bytes.iter().flat_map(|&byte| std::ascii::escape_default(byte)).map(char::from).collect()
}

// ---------------------------------------------------------------- nodes

/// From the root to the node, a line each.
fn path(judged: &Judged, labels: &Labels, node: usize) -> Vec<String> {
    let mut lines = vec!["the node's path:".to_string()];
    for node in judged.tree.path(node) {
        lines.push(step(judged, labels, node));
    }
    lines
}

/// A node of a path: its line, which subtask it is, its task and method.
fn step(judged: &Judged, labels: &Labels, number: usize) -> String {
    let node = &judged.tree.nodes[number];
    let line = judged.case.node_line(number);
    let which = match node.parent {
        Some(_) => format!("subtask {}", node.subtask),
        None => "the root".into(),
    };
    let task = node.task.map_or("no task".into(), |task| labels.task(task));
    match node.claim {
        Claim::Decomposed { method } => format!("  line {line}: {which}, {task}, by {}", labels.method(method)),
        Claim::Empty { method, .. } => format!("  line {line}: {which}, {task}, by the empty {}", labels.method(method)),
        Claim::Leaf { .. } => format!("  line {line}: {which}, {task}"),
    }
}

/// The path to a node that is wrong itself: its own line tells only which task is expected there.
fn path_to(judged: &Judged, labels: &Labels, number: usize) -> Vec<String> {
    let node = &judged.tree.nodes[number];
    let mut lines = match node.parent {
        Some(parent) => path(judged, labels, parent),
        None => vec!["the node's path:".to_string()],
    };
    let which = if node.parent.is_some() { format!("subtask {}", node.subtask) } else { "the root".into() };
    let task = node.task.map_or("no task".into(), |task| labels.task(task));
    lines.push(format!("  line {}: {which}, {task}", judged.case.node_line(number)));
    lines
}

fn stands(judged: &Judged, labels: &Labels, node: usize) -> String {
    format!("stands there: {}", labels.claim(&judged.case, judged.case.claims[node]))
}

fn other_task(judged: &Judged, labels: &Labels, node: usize) -> Vec<String> {
    let mut lines = path_to(judged, labels, node);
    let task = judged.tree.nodes[node].task.unwrap_or(0);
    let is_action = judged.case.header.is_some_and(|header| task < header.actions);
    let due = if is_action { "an L line" } else { "a D or E line with one of its methods" };
    lines.push(format!("expected: {}, {due}", labels.task(task)));
    lines.push(stands(judged, labels, node));
    lines
}

fn other_letter(judged: &Judged, labels: &Labels, node: usize) -> Vec<String> {
    let mut lines = path_to(judged, labels, node);
    lines.push(match judged.case.claims[node] {
        Claim::Decomposed { method } => {
            format!("expected: an E line with a gap, since {} has no subtasks", labels.method(method))
        }
        Claim::Empty { method, .. } | Claim::Leaf { action: method, .. } => {
            let count = judged.case.method(method).subtasks.len();
            format!("expected: a D line, since {} has {}", labels.method(method), counted(count, "subtask"))
        }
    });
    lines.push(stands(judged, labels, node));
    lines
}

fn too_deep(judged: &Judged, labels: &Labels, node: usize) -> Vec<String> {
    let mut lines = path_to(judged, labels, node);
    lines.push("expected: at most 64 levels, the root being level 1".into());
    lines.push(format!("{}, on level {}", stands(judged, labels, node), judged.tree.nodes[node].level));
    lines
}

fn other_position(judged: &Judged, labels: &Labels, node: usize, earlier: Option<usize>) -> Vec<String> {
    let mut lines = path_to(judged, labels, node);
    let Claim::Leaf { action, position } = judged.case.claims[node] else { return lines };
    lines.push(match earlier {
        Some(earlier) => {
            format!("expected: a position that no leaf claims yet; line {} claimed {position}", judged.case.node_line(earlier))
        }
        None => {
            let cue = judged.case.plan[position as usize - 1];
            format!("expected: a position of {}; cue {position} is {}", labels.task(action), labels.task(cue))
        }
    });
    lines.push(stands(judged, labels, node));
    lines.push(format!("{} is the action of {}", labels.task(action), cues_of(judged, action)));
    lines
}

/// The cues with an action.
fn cues_of(judged: &Judged, action: u32) -> String {
    let cues: Vec<u32> = (1..).zip(&judged.case.plan).filter(|(_, &cue)| cue == action).map(|(cue, _)| cue).collect();
    match cues[..] {
        [] => "no cue".into(),
        [cue] => format!("cue {cue}"),
        _ => format!("cues {}", labels::listed(cues.into_iter())),
    }
}

fn missing(judged: &Judged, labels: &Labels, place: Place) -> Vec<String> {
    let mut lines = path(judged, labels, place.parent);
    let line = judged.case.node_line(judged.case.claims.len());
    lines.push(format!("  line {line}: subtask {}, {}", place.subtask, labels.task(place.task)));
    lines.push(format!("expected: a node for {}", labels.task(place.task)));
    lines.push(format!("stands there: nothing, since the header counts {}", counted(judged.case.claims.len(), "node")));
    lines
}

fn surplus(judged: &Judged, labels: &Labels, node: usize) -> Vec<String> {
    let mut lines = vec!["the node's path:".to_string(), step(judged, labels, 0)];
    let last = judged.case.node_line(node - 1);
    lines.push(format!("  line {}: after the whole tree, which ends with line {last}", judged.case.node_line(node)));
    lines.push(format!("expected: no more nodes; the tree has {}, the header counts {}", node, judged.case.claims.len()));
    lines.push(stands(judged, labels, node));
    lines
}

fn unclaimed(judged: &Judged, labels: &Labels, position: u32) -> Vec<String> {
    let action = judged.case.plan[position as usize - 1];
    let mut lines = vec![format!("expected: a leaf at position {position}, which is {}", labels.task(action))];
    let leaves = (0..judged.case.claims.len())
        .filter(|&node| matches!(judged.case.claims[node], Claim::Leaf { action: a, .. } if a == action));
    let claims: Vec<String> = leaves
        .take(9)
        .map(|node| format!("line {} ({})", judged.case.node_line(node), judged.case.claims[node].text()))
        .collect();
    lines.push(match claims.len() {
        0 => format!("stands there: no leaf of {} at any position", labels.task(action)),
        9 => format!("stands there: none; leaves of {}: {} and more", labels.task(action), claims[..8].join(", ")),
        _ => format!("stands there: none; leaves of {}: {}", labels.task(action), claims.join(", ")),
    });
    lines
}

// ---------------------------------------------------------------- constraints

fn broken(judged: &Judged, labels: &Labels, node: usize, number: usize, trial: &Trial) -> Vec<String> {
    let mut lines = path(judged, labels, node);
    let (Some(method), constraint) = (judged.case.method_of(judged.case.claims[node]), judged.constraint(node, number)) else {
        return lines;
    };
    lines.push(format!("constraint {number} of its method, line {}: {}", constraint.line, constraint.text));
    lines.push(format!("  {}", labels.constraint(method, constraint)));
    let sets = match constraint.kind {
        Kind::Order { first, second } => vec![1 << first, 1 << second],
        Kind::Before { set } | Kind::After { set } => vec![set],
        Kind::Between { from, to } => vec![from, to],
    };
    for (which, (&set, span)) in sets.iter().zip(trial.spans).enumerate() {
        if let Some(span) = span {
            let rounded = rounding(constraint.kind, which, span);
            lines.push(format!("  {} stands {}, so {rounded}", labels.part(method, set), labels::span(span)));
        }
    }
    match (constraint.kind, trial.broken) {
        (Kind::Order { .. }, _) => lines.push(format!("tried: f < c; broken: {} < {} is not so", trial.at.start, trial.at.end)),
        (_, Some(state)) => {
            lines.push(format!("tried in {}", labels::states(trial.at.start, trial.at.end - 1)));
            let truth = if constraint.truth { "false" } else { "true" };
            lines.push(format!(
                "first broken in {}: proposition {} is {truth}",
                labels::states(state, state),
                constraint.proposition
            ));
        }
        _ => {}
    }
    lines
}

/// The rounding that a constraint goes by: of its first set and its second.
fn rounding(kind: Kind, which: usize, span: Span) -> String {
    match (kind, which) {
        (Kind::Before { .. }, _) | (_, 1) => format!("c = {}", span.first()),
        _ => format!("f = {}", span.last()),
    }
}
