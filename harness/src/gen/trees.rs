//! Ways to spoil a right tree, each for one number of the walk: a node of another task, the wrong letter for its method, level 65, a
//! position claimed twice or never, a surplus node, nodes over too soon. Some have two of these, and now and then two ways are taken:
//! which fault is named depends on the order of the tests.

use super::extremes::{chain, method};
use super::{damage, sound, Draft, Line, Rng};

/// A way to spoil a tree, and the number that it gives if nothing else is wrong. Some trees have nothing to apply it to, and stay as they
/// are.
pub struct Fault {
    pub name: &'static str,
    pub number: u32,
    pub way: Way,
}

pub enum Way {
    /// At a node of this sort.
    Node(Sort, At),
    Tree(fn(&mut Rng, &mut Draft)),
}

type Sort = fn(&Draft, Spot) -> bool;
type At = fn(&mut Rng, &mut Draft, Spot);

const fn node(name: &'static str, number: u32, sort: Sort, apply: At) -> Fault {
    Fault { name, number, way: Way::Node(sort, apply) }
}

const fn tree(name: &'static str, number: u32, apply: fn(&mut Rng, &mut Draft)) -> Fault {
    Fault { name, number, way: Way::Tree(apply) }
}

/// Every fault.
pub const FAULTS: &[Fault] = &[
    // A node of another task, whatever its letter.
    node("a leaf for a compound task", 6, is_compound, leaf_for_compound),
    node("another action", 6, is_leaf, another_action),
    node("another task, D", 6, is_any, |rng, draft, spot| another_task(rng, draft, spot, D_WITH_SUBTASKS)),
    node("another task, D and empty", 6, is_any, |rng, draft, spot| another_task(rng, draft, spot, D_EMPTY)),
    node("another task, E", 6, is_any, |rng, draft, spot| another_task(rng, draft, spot, E_EMPTY)),
    node("another task, E and not empty", 6, is_any, |rng, draft, spot| {
        another_task(rng, draft, spot, E_WITH_SUBTASKS)
    }),
    // A method of the right task with the wrong letter.
    node("D and empty", 20, is_compound, |rng, draft, spot| wrong_letter(rng, draft, spot, D_EMPTY)),
    node("E and not empty", 20, is_compound, |rng, draft, spot| wrong_letter(rng, draft, spot, E_WITH_SUBTASKS)),
    // Positions.
    node("another position", 8, is_movable, another_position),
    node("another position, and a surplus node", 8, is_movable, |rng, draft, spot| {
        another_position(rng, draft, spot);
        push_any(rng, draft);
    }),
    node("another position, and the last node gone", 8, is_movable_not_last, another_position_cut_off),
    node("a task without its leaves", 9, has_leaves, without_leaves),
    // Surplus nodes.
    tree("a surplus leaf", 21, push_leaf),
    tree("a surplus D or E", 21, |rng, draft| {
        let kind = *rng.pick(&[D_WITH_SUBTASKS, E_EMPTY]);
        push(rng, draft, kind);
    }),
    tree("a surplus D, empty", 21, |rng, draft| push(rng, draft, D_EMPTY)),
    tree("a surplus E, not empty", 21, |rng, draft| push(rng, draft, E_WITH_SUBTASKS)),
    node("a subtree again", 21, is_any, |_, draft, spot| draft.lines.extend_from_within(spot.at..spot.end)),
    node("the last task empty", 21, is_last_decomposed, empty_task),
    node("a task without its leaves, and a surplus node", 21, has_leaves, |rng, draft, spot| {
        without_leaves(rng, draft, spot);
        push_any(rng, draft);
    }),
    // Nodes over too soon.
    node("cut off", 22, |_, spot| spot.at > 0, |_, draft, spot| draft.lines.truncate(spot.at)),
    node("the last node gone", 22, is_last_node, |_, draft, spot| draft.lines.truncate(spot.at)),
    node("a subtask more", 22, is_last_compound, subtask_more),
];

// ---------------------------------------------------------------- spoiled trees

/// A sound case whose tree is spoiled.
pub fn spoiled(rng: &mut Rng) -> Draft {
    let mut draft = sound(rng);
    spoil(rng, &mut draft);
    draft
}

/// Puts a fault into a tree, or two.
pub fn spoil(rng: &mut Rng, draft: &mut Draft) {
    spoil_once(rng, draft);
    if rng.percent(20) {
        spoil_once(rng, draft);
    }
}

/// Puts just one fault into a tree.
pub fn spoil_once(rng: &mut Rng, draft: &mut Draft) {
    let fault = draw_fault(rng, &[6, 6, 8, 9, 9, 20, 20, 21, 21, 21, 22, 22]);
    apply(rng, draft, fault);
}

/// A fault, by its number first: most ways have 6 or 21.
fn draw_fault(rng: &mut Rng, numbers: &[u32]) -> &'static Fault {
    let number = *rng.pick(numbers);
    let those: Vec<&'static Fault> = FAULTS.iter().filter(|fault| fault.number == number).collect();
    those[rng.below(those.len())]
}

/// Applies a fault, at any node that suits it.
pub fn apply(rng: &mut Rng, draft: &mut Draft, fault: &Fault) {
    match fault.way {
        Way::Tree(apply) => apply(rng, draft),
        Way::Node(sort, apply) => {
            let suited: Vec<Spot> = spots(draft).into_iter().filter(|&spot| sort(draft, spot)).collect();
            if !suited.is_empty() {
                let spot = *rng.pick(&suited);
                apply(rng, draft, spot);
            }
        }
    }
}

/// A chain about as deep as it may be, often with a fault at its deepest node or on the first level that is too deep.
pub fn deep(rng: &mut Rng) -> Draft {
    let levels = *rng.pick(&[60, 63, 64, 64, 65, 65, 65, 65, 66]);
    let (mut draft, deepest) = chain(rng, levels);
    match rng.below(8) {
        0 => damage::draft(rng, &mut draft),
        1 => damage::node(rng, &mut draft, deepest),
        2..=4 => {
            let fault = draw_fault(rng, &[6, 6, 8, 20, 20, 22]);
            apply_on_level(rng, &mut draft, levels.min(65), fault);
        }
        _ => {}
    }
    draft
}

/// Applies a fault to the first node of a level, if it suits it.
pub fn apply_on_level(rng: &mut Rng, draft: &mut Draft, level: usize, fault: &Fault) {
    let first = spots(draft).into_iter().find(|spot| spot.level == level);
    if let (Way::Node(sort, apply), Some(spot)) = (&fault.way, first) {
        if sort(draft, spot) {
            apply(rng, draft, spot);
        }
    }
}

// ---------------------------------------------------------------- nodes

/// A node of a tree: its line, the task expected there, its level, and the line behind its subtree.
#[derive(Clone, Copy)]
pub struct Spot {
    at: usize,
    task: u32,
    level: usize,
    end: usize,
}

/// The nodes of a right tree, in order; of one that is spoiled, those that its D lines lead to.
fn spots(draft: &Draft) -> Vec<Spot> {
    let mut spots = Vec::new();
    visit(draft, draft.goal, 1, &mut spots);
    spots
}

fn visit(draft: &Draft, task: u32, level: usize, spots: &mut Vec<Spot>) {
    let at = spots.len();
    let Some(line) = draft.lines.get(at) else { return };
    spots.push(Spot { at, task, level, end: at });
    if let Line::D(method) = *line {
        for &subtask in &draft.methods[method as usize].subtasks {
            visit(draft, subtask, level + 1, spots);
        }
    }
    spots[at].end = spots.len();
}

fn is_any(_: &Draft, _: Spot) -> bool {
    true
}

fn is_leaf(draft: &Draft, spot: Spot) -> bool {
    matches!(draft.lines[spot.at], Line::L(..))
}

/// A leaf, and there is another position.
fn is_movable(draft: &Draft, spot: Spot) -> bool {
    is_leaf(draft, spot) && draft.plan.len() > 1
}

fn is_movable_not_last(draft: &Draft, spot: Spot) -> bool {
    is_movable(draft, spot) && !is_last(draft, spot)
}

fn is_compound(draft: &Draft, spot: Spot) -> bool {
    spot.task as usize >= draft.actions.len()
}

fn is_last_compound(draft: &Draft, spot: Spot) -> bool {
    is_compound(draft, spot) && is_last(draft, spot)
}

fn is_decomposed(draft: &Draft, spot: Spot) -> bool {
    matches!(draft.lines[spot.at], Line::D(_))
}

fn is_last_decomposed(draft: &Draft, spot: Spot) -> bool {
    is_decomposed(draft, spot) && is_last(draft, spot)
}

fn has_leaves(draft: &Draft, spot: Spot) -> bool {
    let leaf = |line: &Line| matches!(line, Line::L(..));
    is_decomposed(draft, spot) && draft.lines[spot.at..spot.end].iter().any(leaf)
}

/// No node follows its subtree.
fn is_last(draft: &Draft, spot: Spot) -> bool {
    spot.end == draft.lines.len()
}

/// No node follows it, and it isn't the only one.
fn is_last_node(draft: &Draft, spot: Spot) -> bool {
    spot.at > 0 && spot.at + 1 == draft.lines.len()
}

// ---------------------------------------------------------------- lines

/// A letter, and whether its method is empty.
#[derive(Clone, Copy)]
struct Kind {
    letter: char,
    empty: bool,
}

const D_WITH_SUBTASKS: Kind = Kind { letter: 'D', empty: false };
const E_EMPTY: Kind = Kind { letter: 'E', empty: true };
const D_EMPTY: Kind = Kind { letter: 'D', empty: true };
const E_WITH_SUBTASKS: Kind = Kind { letter: 'E', empty: false };

impl Kind {
    /// A line of this kind with a method of this task.
    fn line(self, rng: &mut Rng, draft: &mut Draft, task: u32) -> Line {
        let method = method_of(rng, draft, task, self.empty);
        self.with(rng, draft, method)
    }

    /// The line with this method, in any gap.
    fn with(self, rng: &mut Rng, draft: &Draft, method: u32) -> Line {
        match self.letter {
            'D' => Line::D(method),
            _ => Line::E(method, rng.below(draft.plan.len() + 1) as u32),
        }
    }
}

/// A method of this task, empty or with subtasks; now and then a new one, and always if there is none.
fn method_of(rng: &mut Rng, draft: &mut Draft, task: u32, empty: bool) -> u32 {
    let suits = |&m: &u32| {
        let method = &draft.methods[m as usize];
        method.task == task && method.subtasks.is_empty() == empty
    };
    let own: Vec<u32> = (0..draft.methods.len() as u32).filter(suits).collect();
    if !own.is_empty() && rng.percent(80) {
        return *rng.pick(&own);
    }
    let tasks = draft.actions.len() + draft.compound as usize;
    let count = if empty { 0 } else { rng.between(1, 3) };
    draft.methods.push(method(task, (0..count).map(|_| rng.below(tasks) as u32).collect()));
    draft.methods.len() as u32 - 1
}

/// A compound task other than this one; a new one if there is none.
fn other_compound(rng: &mut Rng, draft: &mut Draft, task: u32) -> u32 {
    let first = draft.actions.len() as u32;
    let others: Vec<u32> = (first..first + draft.compound).filter(|&other| other != task).collect();
    if others.is_empty() {
        draft.compound += 1;
        return first + draft.compound - 1;
    }
    *rng.pick(&others)
}

/// A leaf for any cue, mostly of its action; none if there is no cue.
fn any_leaf(rng: &mut Rng, draft: &Draft) -> Option<Line> {
    let before = rng.below(draft.plan.len());
    let own = *draft.plan.get(before)?;
    let action = if rng.percent(70) { own } else { rng.below(draft.actions.len()) as u32 };
    Some(Line::L(action, before as u32 + 1))
}

// ---------------------------------------------------------------- faults

fn leaf_for_compound(rng: &mut Rng, draft: &mut Draft, spot: Spot) {
    if let Some(leaf) = any_leaf(rng, draft) {
        draft.lines[spot.at] = leaf;
    }
}

/// Another action at the leaf's position, or at one that has that action.
fn another_action(rng: &mut Rng, draft: &mut Draft, spot: Spot) {
    let others: Vec<u32> = (0..draft.actions.len() as u32).filter(|&action| action != spot.task).collect();
    let Line::L(_, own) = draft.lines[spot.at] else { return };
    if !others.is_empty() {
        let action = *rng.pick(&others);
        let its = draft.plan.iter().position(|&cue| cue == action).filter(|_| rng.percent(50));
        draft.lines[spot.at] = Line::L(action, its.map_or(own, |before| before as u32 + 1));
    }
}

fn another_task(rng: &mut Rng, draft: &mut Draft, spot: Spot, kind: Kind) {
    let task = other_compound(rng, draft, spot.task);
    draft.lines[spot.at] = kind.line(rng, draft, task);
}

/// The method that is there, or another one of its task, under the other letter; what is below it goes or stays.
fn wrong_letter(rng: &mut Rng, draft: &mut Draft, spot: Spot, kind: Kind) {
    draft.lines[spot.at] = match (draft.lines[spot.at], kind.letter) {
        (Line::D(method), 'E') | (Line::E(method, _), 'D') if rng.percent(70) => kind.with(rng, draft, method),
        _ => kind.line(rng, draft, spot.task),
    };
    if rng.percent(50) {
        draft.lines.drain(spot.at + 1..spot.end);
    }
}

fn another_position(rng: &mut Rng, draft: &mut Draft, spot: Spot) {
    let cues = draft.plan.len();
    if let Line::L(action, position) = draft.lines[spot.at] {
        let other = (position as usize + rng.below(cues - 1)) % cues + 1;
        draft.lines[spot.at] = Line::L(action, other as u32);
    }
}

/// The same, and the last node goes, unless that is the leaf whose position is claimed twice now.
fn another_position_cut_off(rng: &mut Rng, draft: &mut Draft, spot: Spot) {
    another_position(rng, draft, spot);
    if let Line::L(_, other) = draft.lines[spot.at] {
        draft.lines.pop_if(|last| !matches!(last, Line::L(_, position) if *position == other));
    }
}

/// An empty method in place of one with subtasks; what is below it stays.
fn empty_task(rng: &mut Rng, draft: &mut Draft, spot: Spot) {
    draft.lines[spot.at] = E_EMPTY.line(rng, draft, spot.task);
}

/// The same, and what is below it goes: its leaves' positions are claimed by none.
fn without_leaves(rng: &mut Rng, draft: &mut Draft, spot: Spot) {
    empty_task(rng, draft, spot);
    draft.lines.drain(spot.at + 1..spot.end);
}

/// A new method with one subtask more than the one that is there.
fn subtask_more(rng: &mut Rng, draft: &mut Draft, spot: Spot) {
    let tasks = draft.actions.len() + draft.compound as usize;
    let mut more = method(spot.task, vec![]);
    if let Line::D(method) = draft.lines[spot.at] {
        more.subtasks = draft.methods[method as usize].subtasks.clone();
    }
    more.subtasks.push(rng.below(tasks) as u32);
    draft.lines[spot.at] = Line::D(draft.methods.len() as u32);
    draft.methods.push(more);
}

fn push_leaf(rng: &mut Rng, draft: &mut Draft) {
    let leaf = any_leaf(rng, draft);
    draft.lines.extend(leaf);
}

/// A surplus line of this kind, with a method of any task.
fn push(rng: &mut Rng, draft: &mut Draft, kind: Kind) {
    let task = draft.actions.len() + rng.below(draft.compound as usize);
    let line = kind.line(rng, draft, task as u32);
    draft.lines.push(line);
}

/// Any surplus line.
fn push_any(rng: &mut Rng, draft: &mut Draft) {
    match rng.below(5) {
        0 => push(rng, draft, D_WITH_SUBTASKS),
        1 => push(rng, draft, D_EMPTY),
        2 => push(rng, draft, E_EMPTY),
        3 => push(rng, draft, E_WITH_SUBTASKS),
        _ => push_leaf(rng, draft),
    }
}
