//! The first rule that a text breaks, found plainly: the run, the walk and the constraints. It is compared with the answer of the proved call, and
//! explains that or nothing.

use crate::case::{self, has, Case, Claim, Constraint, Kind, Unread};
use crate::tree::{self, Place, Span, Tree, LEVELS};
use cuecheck::Set;
use std::cell::RefCell;
use std::collections::HashMap;
use std::ops::Range;

/// A text as far as it can be read, run and drawn, and the first rule that it breaks.
pub struct Judged {
    pub case: Case,
    pub run: Run,
    pub tree: Tree,
    /// For each position, from 0 for none, the first leaf that claims it.
    pub claimants: Vec<Option<usize>>,
    pub fault: Option<Fault>,
}

/// The first rule broken, with what shows it.
pub enum Fault {
    /// Numbers 2, 3 and 4; of a name list or a plan form 17, 18 and 19.
    Unread(Unread),
    /// 5, the propositions that were missing and those that were forbidden.
    Stops { cue: u32, missing: Set, forbidden: Set },
    /// 6
    OtherTask { node: usize },
    /// 20
    OtherLetter { node: usize },
    /// 7
    TooDeep { node: usize },
    /// 8, the node that claimed the position earlier, if its action is right.
    OtherPosition { node: usize, earlier: Option<usize> },
    /// 22
    Missing { place: Place },
    /// 21
    Surplus { node: usize },
    /// 9
    Unclaimed { position: u32 },
    /// 10 to 13
    Broken { node: usize, constraint: usize, trial: Trial },
}

/// States 0, 1 and so on, as far as the plan runs.
#[derive(Default)]
pub struct Run {
    pub states: Vec<Set>,
    /// The cue that stops it, with what was missing and what was forbidden.
    pub stop: Option<(u32, Set, Set)>,
    /// For a proposition and a truth, where each state's next one stands in which the proposition is not so.
    otherwise: RefCell<HashMap<(u32, bool), Vec<u32>>>,
}

/// A constraint, tried at a node.
pub struct Trial {
    /// The spans of its two sets of subtasks, or of the one that it has.
    pub spans: [Option<Span>; 2],
    /// The states that a condition was tried in; of an order f of the first subtask and c of the second.
    pub at: Range<u32>,
    /// The first state that broke it.
    pub broken: Option<u32>,
    /// None where nodes or states are missing that it would be tried at.
    pub kept: Option<bool>,
}

/// The number, the line and the item of a refusal.
pub type Spot = (u32, u32, u32);

/// Reads, runs, walks and tries, as the table has it.
pub fn judge(text: &[u8]) -> Judged {
    let (case, unread) = case::read(text);
    let run = run(&case);
    let tree = tree::grow(&case);
    let claimants = claimants(&case);
    let fault = match unread {
        Some(unread) => Some(Fault::Unread(unread)),
        None => stopped(&run).or_else(|| walk(&case, &tree, &claimants)).or_else(|| first_broken(&case, &run, &tree)),
    };
    Judged { case, run, tree, claimants, fault }
}

impl Judged {
    /// Everything but the constraints: what is left when the gaps are set aside.
    pub fn without_constraints(self) -> Judged {
        let fault = self.fault.filter(|fault| !matches!(fault, Fault::Broken { .. }));
        Judged { fault, ..self }
    }

    pub fn spot(&self) -> Option<Spot> {
        let case = &self.case;
        let plan = case.plan_line.unwrap_or(0);
        Some(match *self.fault.as_ref()? {
            Fault::Unread(ref unread) => (unread.number, unread.line, unread.item),
            Fault::Stops { cue, .. } => (5, plan, cue),
            Fault::OtherTask { node } => (6, case.node_line(node), 0),
            Fault::OtherLetter { node } => (20, case.node_line(node), 0),
            Fault::TooDeep { node } => (7, case.node_line(node), 0),
            Fault::OtherPosition { node, .. } => (8, case.node_line(node), self.position(node)),
            Fault::Missing { .. } => (22, case.node_line(case.claims.len()), 0),
            Fault::Surplus { node } => (21, case.node_line(node), 0),
            Fault::Unclaimed { position } => (9, plan, position),
            Fault::Broken { node, constraint, .. } => {
                (number_of(self.constraint(node, constraint).kind), case.node_line(node), constraint as u32)
            }
        })
    }

    pub fn constraint(&self, node: usize, constraint: usize) -> &Constraint {
        &self.constraints(node)[constraint]
    }

    pub fn constraints(&self, node: usize) -> &[Constraint] {
        self.case.method_of(self.case.claims[node]).map_or(&[], |method| &method.constraints)
    }

    pub fn try_at(&self, node: usize, constraint: &Constraint) -> Trial {
        try_at(&self.run, &self.tree, node, constraint)
    }

    fn position(&self, node: usize) -> u32 {
        match self.case.claims[node] {
            Claim::Leaf { position, .. } => position,
            _ => 0,
        }
    }
}

fn number_of(kind: Kind) -> u32 {
    match kind {
        Kind::Order { .. } => 10,
        Kind::Before { .. } => 11,
        Kind::After { .. } => 12,
        Kind::Between { .. } => 13,
    }
}

// ---------------------------------------------------------------- the run

/// Runs as much of the plan as was read, up to the first cue that doesn't apply.
fn run(case: &Case) -> Run {
    let mut run = Run::default();
    let Some(mut state) = case.initial else { return run };
    run.states.push(state);
    for (before, &cue) in case.plan.iter().enumerate() {
        let Some(action) = case.actions.get(cue as usize) else { break };
        let missing = each(|w| action.needed[w] & !state[w]);
        let forbidden = each(|w| action.forbidden[w] & state[w]);
        if missing.iter().chain(&forbidden).any(|&word| word != 0) {
            run.stop = Some((before as u32 + 1, missing, forbidden));
            break;
        }
        state = each(|w| state[w] & !action.deleted[w] | action.added[w]);
        run.states.push(state);
    }
    run
}

fn each(word: impl FnMut(usize) -> u64) -> Set {
    std::array::from_fn(word)
}

fn stopped(run: &Run) -> Option<Fault> {
    run.stop.map(|(cue, missing, forbidden)| Fault::Stops { cue, missing, forbidden })
}

impl Run {
    /// The first of these states in which p is not as asked.
    fn first_otherwise(&self, p: u32, truth: bool, states: Range<u32>) -> Option<u32> {
        let mut known = self.otherwise.borrow_mut();
        let next = known.entry((p, truth)).or_insert_with(|| next_otherwise(&self.states, p, truth));
        next.get(states.start as usize).copied().filter(|&state| state < states.end)
    }
}

/// For each state the first from there on in which p is not as asked; past the last state, if there is none.
fn next_otherwise(states: &[Set], p: u32, truth: bool) -> Vec<u32> {
    let mut next = vec![u32::MAX; states.len()];
    for (state, set) in states.iter().enumerate().rev() {
        next[state] = match has(set, p) == truth {
            true => next.get(state + 1).copied().unwrap_or(u32::MAX),
            false => state as u32,
        };
    }
    next
}

// ---------------------------------------------------------------- the walk

fn claimants(case: &Case) -> Vec<Option<usize>> {
    let mut claimants = vec![None; case.plan.len() + 1];
    for (number, &claim) in case.claims.iter().enumerate() {
        if let Claim::Leaf { position, .. } = claim {
            claimants[position as usize].get_or_insert(number);
        }
    }
    claimants
}

/// Numbers 6, 20, 7 and 8, node by node, then 22 or 21, then 9.
fn walk(case: &Case, tree: &Tree, claimants: &[Option<usize>]) -> Option<Fault> {
    let in_tree = 0..tree.surplus.unwrap_or(tree.nodes.len());
    let wrong =
        in_tree.into_iter().find_map(|node| wrong_node(case, tree, node).or_else(|| wrong_position(case, claimants, node)));
    if wrong.is_some() {
        return wrong;
    }
    if let Some(place) = tree.lacking {
        return Some(Fault::Missing { place });
    }
    if let Some(node) = tree.surplus {
        return Some(Fault::Surplus { node });
    }
    let unclaimed = (1..claimants.len()).find(|&position| claimants[position].is_none())?;
    Some(Fault::Unclaimed { position: unclaimed as u32 })
}

fn wrong_node(case: &Case, tree: &Tree, number: usize) -> Option<Fault> {
    let node = &tree.nodes[number];
    if node.task != Some(case.own_task(node.claim)) {
        return Some(Fault::OtherTask { node: number });
    }
    if has_other_letter(case, node.claim) {
        return Some(Fault::OtherLetter { node: number });
    }
    (node.level > LEVELS).then_some(Fault::TooDeep { node: number })
}

/// A D line with an empty method, or an E line with one that isn't.
pub fn has_other_letter(case: &Case, claim: Claim) -> bool {
    match claim {
        Claim::Leaf { .. } => false,
        Claim::Decomposed { method } => case.method(method).subtasks.is_empty(),
        Claim::Empty { method, .. } => !case.method(method).subtasks.is_empty(),
    }
}

/// A leaf whose position has another action or was claimed earlier.
pub fn wrong_position(case: &Case, claimants: &[Option<usize>], node: usize) -> Option<Fault> {
    let Claim::Leaf { action, position } = case.claims[node] else { return None };
    if case.plan[position as usize - 1] != action {
        return Some(Fault::OtherPosition { node, earlier: None });
    }
    let earlier = claimants[position as usize].filter(|&earlier| earlier != node)?;
    Some(Fault::OtherPosition { node, earlier: Some(earlier) })
}

// ---------------------------------------------------------------- the constraints

/// Numbers 10 to 13: the nodes in order, each method's constraints in the text's order.
pub fn first_broken(case: &Case, run: &Run, tree: &Tree) -> Option<Fault> {
    for node in 0..tree.nodes.len() {
        let Some(method) = case.method_of(case.claims[node]) else { continue };
        for (number, constraint) in method.constraints.iter().enumerate() {
            let trial = try_at(run, tree, node, constraint);
            if trial.kept == Some(false) {
                return Some(Fault::Broken { node, constraint: number, trial });
            }
        }
    }
    None
}

fn try_at(run: &Run, tree: &Tree, node: usize, constraint: &Constraint) -> Trial {
    let (spans, at) = match constraint.kind {
        Kind::Order { first, second } => {
            let spans = [tree.part(node, 1 << first), tree.part(node, 1 << second)];
            return tried_order(spans);
        }
        Kind::Before { set } => {
            let span = tree.part(node, set);
            ([span, None], span.map(|span| span.first() - 1..span.first()))
        }
        Kind::After { set } => {
            let span = tree.part(node, set);
            ([span, None], span.map(|span| span.last()..span.last() + 1))
        }
        Kind::Between { from, to } => {
            let spans = [tree.part(node, from), tree.part(node, to)];
            (spans, spans[0].zip(spans[1]).map(|(from, to)| from.last()..to.first()))
        }
    };
    let Some(at) = at else { return Trial { spans, at: 0..0, broken: None, kept: None } };
    let broken = run.first_otherwise(constraint.proposition, constraint.truth, at.clone());
    let all_there = at.is_empty() || at.end as usize <= run.states.len();
    let kept = if broken.is_some() { Some(false) } else { all_there.then_some(true) };
    Trial { spans, at, broken, kept }
}

fn tried_order(spans: [Option<Span>; 2]) -> Trial {
    match spans {
        [Some(first), Some(second)] => {
            let at = first.last()..second.first();
            Trial { spans, kept: Some(at.start < at.end), at, broken: None }
        }
        _ => Trial { spans, at: 0..0, broken: None, kept: None },
    }
}
