//! The claimed tree, node by node as the lines have it, right or not: what a page draws and what a path is told by.

use crate::case::{Case, Claim};

/// The root is level 1.
pub const LEVELS: u32 = 64;

/// Doubled indexes: cue i is 2i, gap g is 2g + 1.
#[derive(Clone, Copy, Debug, PartialEq, Eq)]
pub struct Span {
    pub start: u32,
    pub end: u32,
}

impl Span {
    fn at(doubled: u32) -> Span {
        Span { start: doubled, end: doubled }
    }

    fn joined(self, other: Span) -> Span {
        Span { start: self.start.min(other.start), end: self.end.max(other.end) }
    }

    /// c: the start rounded up.
    pub fn first(self) -> u32 {
        self.start.div_ceil(2)
    }

    /// f: the end rounded down.
    pub fn last(self) -> u32 {
        self.end / 2
    }
}

#[derive(Debug)]
pub struct Node {
    pub claim: Claim,
    pub level: u32,
    /// None of the root and of surplus nodes.
    pub parent: Option<usize>,
    /// Which subtask of the parent's method.
    pub subtask: usize,
    /// The task expected there; none of a surplus node.
    pub task: Option<u32>,
    /// The nodes of the subtasks, as many as there are.
    pub below: Vec<usize>,
    /// Over what is there; none if that is nothing.
    pub span: Option<Span>,
    /// Whether no node is missing below.
    pub whole: bool,
}

/// A place of the tree that no line fills: the next one when the lines are over.
#[derive(Clone, Copy, Debug)]
pub struct Place {
    pub parent: usize,
    pub subtask: usize,
    pub task: u32,
}

#[derive(Debug, Default)]
pub struct Tree {
    pub nodes: Vec<Node>,
    pub lacking: Option<Place>,
    /// The first node after the whole tree.
    pub surplus: Option<usize>,
}

/// Puts every line in its place. A line that doesn't fit stays where it stands: a D line takes as many subtasks as its own method has, an E or L line
/// none.
pub fn grow(case: &Case) -> Tree {
    let mut tree = Tree::default();
    // The nodes whose subtasks are not all there yet, the deepest last.
    let mut open: Vec<usize> = Vec::new();
    for (number, &claim) in case.claims.iter().enumerate() {
        let place = next_place(case, &tree.nodes, &mut open);
        if place.is_none() && number > 0 {
            tree.surplus.get_or_insert(number);
        }
        tree.nodes.push(node_at(case, &tree.nodes, claim, place, number == 0));
        if let Some(place) = place {
            tree.nodes[place.parent].below.push(number);
        }
        if matches!(claim, Claim::Decomposed { .. }) && tree.surplus.is_none() {
            open.push(number);
        }
    }
    tree.lacking = next_place(case, &tree.nodes, &mut open);
    measure(case, &mut tree.nodes);
    tree
}

/// The first place that isn't filled yet, below the deepest open node that has one.
fn next_place(case: &Case, nodes: &[Node], open: &mut Vec<usize>) -> Option<Place> {
    while let Some(&parent) = open.last() {
        let (subtask, method) = (nodes[parent].below.len(), case.method_of(nodes[parent].claim)?);
        if let Some(&task) = method.subtasks.get(subtask) {
            return Some(Place { parent, subtask, task });
        }
        open.pop();
    }
    None
}

fn node_at(case: &Case, nodes: &[Node], claim: Claim, place: Option<Place>, is_root: bool) -> Node {
    let goal = case.header.map(|header| header.goal).filter(|_| is_root);
    Node {
        claim,
        level: place.map_or(1, |place| nodes[place.parent].level + 1),
        parent: place.map(|place| place.parent),
        subtask: place.map_or(0, |place| place.subtask),
        task: place.map(|place| place.task).or(goal),
        below: Vec::new(),
        span: None,
        whole: true,
    }
}

/// Spans and wholeness, from the last node to the root.
fn measure(case: &Case, nodes: &mut [Node]) {
    for node in nodes.iter_mut() {
        (node.span, node.whole) = (None, true);
    }
    for number in (0..nodes.len()).rev() {
        let node = &nodes[number];
        let (mut span, mut whole) = (node.span, node.whole);
        match node.claim {
            Claim::Leaf { position, .. } => span = Some(Span::at(2 * position)),
            Claim::Empty { gap, .. } => span = Some(Span::at(2 * gap + 1)),
            Claim::Decomposed { method } => whole &= node.below.len() == case.method(method).subtasks.len(),
        }
        // A D line with an empty method has no place at all.
        whole &= span.is_some();
        (nodes[number].span, nodes[number].whole) = (span, whole);
        if let Some(parent) = nodes[number].parent {
            let parent = &mut nodes[parent];
            parent.whole &= whole;
            parent.span = match (parent.span, span) {
                (Some(one), Some(other)) => Some(one.joined(other)),
                (one, other) => one.or(other),
            };
        }
    }
}

impl Tree {
    /// Puts the empty tasks in other gaps, a gap for each in the tree's order.
    pub fn move_to(&mut self, case: &Case, gaps: &[u32]) {
        let mut gaps = gaps.iter();
        for node in &mut self.nodes {
            if let Claim::Empty { gap, .. } = &mut node.claim {
                *gap = gaps.next().copied().unwrap_or(*gap);
            }
        }
        measure(case, &mut self.nodes);
    }

    /// The nodes from the root to this one.
    pub fn path(&self, node: usize) -> Vec<usize> {
        let mut path: Vec<usize> = std::iter::successors(Some(node), |&node| self.nodes[node].parent).collect();
        path.reverse();
        path
    }

    /// The span of a set of the node's subtasks, bit j for subtask j; 0 is the whole task. None if a node is missing in it.
    pub fn part(&self, node: usize, set: u32) -> Option<Span> {
        let node = &self.nodes[node];
        if set == 0 {
            return node.span.filter(|_| node.whole);
        }
        (0..32)
            .filter(|j| set >> j & 1 == 1)
            .map(|j| node.below.get(j).map(|&below| &self.nodes[below]).and_then(|below| below.span.filter(|_| below.whole)))
            .reduce(|one, other| Some(one?.joined(other?)))
            .flatten()
    }
}
