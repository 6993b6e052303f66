//! A case as one page that needs nothing else: what was read, run and walked of it as JSON, in a template with its style and its script.

use crate::case::{members, Action, Claim, Kind, Method};
use crate::json::{list, numbers, object, string, strings};
use crate::judge::{has_other_letter, wrong_position, Fault, Judged, Trial};
use crate::labels::Labels;
use crate::tree::LEVELS;
use cuecheck::Set;
use std::fmt::Write;

const PAGE: &str = include_str!("../page/page.html");
const STYLE: &str = include_str!("../page/page.css");
const SCRIPT: &str = include_str!("../page/page.js");

/// The verdict that stands at the head of a page.
pub struct Head<'a> {
    pub file: &'a str,
    pub answer: &'a str,
    pub accepted: bool,
    pub rule: &'a str,
    /// What `check` prints under the answer.
    pub words: &'a [String],
    /// The refused line; whether the words explain it decides if it is marked in the picture.
    pub line: u32,
    pub explained: bool,
}

/// The page, with the picture of what was judged.
pub fn page(head: &Head, judged: &Judged, labels: &Labels) -> String {
    let data = data(head, judged, labels);
    PAGE.replacen("/*CSS*/", STYLE, 1).replacen("/*JS*/", SCRIPT, 1).replacen("{\"case\":\"here\"}", &data, 1)
}

fn data(head: &Head, judged: &Judged, labels: &Labels) -> String {
    let case = &judged.case;
    let header = case.header.unwrap_or_default();
    object(&[
        ("file", string(head.file)),
        ("answer", string(head.answer)),
        ("accepted", head.accepted.to_string()),
        ("rule", string(head.rule)),
        ("words", strings(head.words)),
        ("spot", spot(head, judged)),
        ("propositions", header.propositions.to_string()),
        ("tasks", list((0..header.tasks).map(|task| string(&labels.task(task))))),
        ("actions", list(case.actions.iter().map(action))),
        ("methods", list((0..).zip(&case.methods).map(|(number, one)| method(labels, number, one)))),
        ("cues", numbers(case.plan.iter().copied())),
        ("planLine", case.plan_line.map_or("null".into(), |line| line.to_string())),
        ("states", list(judged.run.states.iter().map(|state| string(&digits(state))))),
        ("nodes", list((0..judged.tree.nodes.len()).map(|number| node(judged, labels, number)))),
    ])
}

/// Where the refusal is marked: a node with a constraint or without, a cue, or only a line.
fn spot(head: &Head, judged: &Judged) -> String {
    if head.accepted {
        return "null".into();
    }
    let (mut node, mut constraint, mut cue) = (None, None, None);
    match judged.fault.as_ref().filter(|_| head.explained) {
        Some(&Fault::Stops { cue: stopped, .. }) => cue = Some(stopped as usize),
        Some(&Fault::Unclaimed { position }) => cue = Some(position as usize),
        Some(&Fault::Missing { place }) => node = Some(place.parent),
        Some(&Fault::Broken { node: broken, constraint: number, .. }) => (node, constraint) = (Some(broken), Some(number)),
        Some(
            &Fault::OtherTask { node: wrong }
            | &Fault::OtherLetter { node: wrong }
            | &Fault::TooDeep { node: wrong }
            | &Fault::OtherPosition { node: wrong, .. }
            | &Fault::Surplus { node: wrong },
        ) => node = Some(wrong),
        Some(Fault::Unread(_)) | None => {}
    }
    let or_null = |number: Option<usize>| number.map_or("null".into(), |number| number.to_string());
    object(&[
        ("line", head.line.to_string()),
        ("node", or_null(node)),
        ("constraint", or_null(constraint)),
        ("cue", or_null(cue)),
    ])
}

fn action(action: &Action) -> String {
    let set = |set: &Set| numbers(members(set));
    object(&[
        ("line", action.line.to_string()),
        ("needed", set(&action.needed)),
        ("forbidden", set(&action.forbidden)),
        ("added", set(&action.added)),
        ("deleted", set(&action.deleted)),
    ])
}

fn method(labels: &Labels, number: u32, method: &Method) -> String {
    let constraints = method.constraints.iter().map(|constraint| {
        object(&[
            ("line", constraint.line.to_string()),
            ("text", string(&constraint.text)),
            ("words", string(&labels.constraint(method, constraint))),
        ])
    });
    object(&[
        ("name", string(&labels.method_name(number))),
        ("line", method.line.to_string()),
        ("task", method.task.to_string()),
        ("subtasks", numbers(method.subtasks.iter().copied())),
        ("constraints", list(constraints)),
    ])
}

/// Four propositions to a hexadecimal digit, from the left; zeros at the end are left out.
fn digits(state: &Set) -> String {
    let mut digits = String::with_capacity(128);
    for word in state {
        for at in (0..64).step_by(4) {
            let _ = write!(digits, "{:x}", word >> at & 15);
        }
    }
    digits.trim_end_matches('0').into()
}

fn node(judged: &Judged, labels: &Labels, number: usize) -> String {
    let node = &judged.tree.nodes[number];
    let (letter, label, place) = match node.claim {
        Claim::Decomposed { method } => ("D", method, 0),
        Claim::Empty { method, gap } => ("E", method, gap),
        Claim::Leaf { action, position } => ("L", action, position),
    };
    let (start, end) = node.span.map_or((0, 0), |span| (span.start, span.end));
    let tried = judged.constraints(number).iter().map(|constraint| trial(constraint.kind, &judged.try_at(number, constraint)));
    object(&[
        ("letter", string(letter)),
        ("label", label.to_string()),
        ("place", place.to_string()),
        ("start", start.to_string()),
        ("end", end.to_string()),
        ("level", node.level.to_string()),
        ("parent", node.parent.map_or("-1".into(), |parent| parent.to_string())),
        ("subtask", node.subtask.to_string()),
        ("task", node.task.unwrap_or(judged.case.own_task(node.claim)).to_string()),
        ("line", judged.case.node_line(number).to_string()),
        ("fault", string(&fault(judged, labels, number))),
        ("tried", list(tried)),
    ])
}

/// `[kept, from, to, broken]`: 1, 0 or -1 for not tried; the states, or f and c of an order; the first state that broke it, or -1.
fn trial(kind: Kind, trial: &Trial) -> String {
    let kept = trial.kept.map_or(-1, i32::from);
    let to = match kind {
        Kind::Order { .. } => i64::from(trial.at.end),
        _ => i64::from(trial.at.end) - 1,
    };
    format!("[{kept},{},{to},{}]", trial.at.start, trial.broken.map_or(-1, i64::from))
}

/// What is wrong with a node by itself, wherever the refusal is.
fn fault(judged: &Judged, labels: &Labels, number: usize) -> String {
    let (case, node) = (&judged.case, &judged.tree.nodes[number]);
    match (node.claim, node.task) {
        (_, None) => "a surplus node, after the whole tree".into(),
        (claim, Some(task)) if case.own_task(claim) != task => {
            format!("of another task than expected: {} in the place of {}", labels.task(case.own_task(claim)), labels.task(task))
        }
        (claim, _) if has_other_letter(case, claim) => "the wrong letter for its method".into(),
        _ if node.level > LEVELS => format!("on level {}, past {LEVELS}", node.level),
        _ => match wrong_position(case, &judged.claimants, number) {
            Some(Fault::OtherPosition { earlier: Some(earlier), .. }) => {
                format!("at a position that line {} claimed", case.node_line(earlier))
            }
            Some(_) => "at a position that has another action".into(),
            None => String::new(),
        },
    }
}
