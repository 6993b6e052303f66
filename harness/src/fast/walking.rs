//! The walk over the records: numbers 6 to 9 and 20 to 22.

use super::case::{stretch, Case, Method};
use super::{refuse, Checked, Node, CUES};

/// Doubled start and end.
#[derive(Clone, Copy)]
pub struct Span {
    pub start: u32,
    pub end: u32,
}

impl Span {
    /// Of no task: joined with any span, it gives that one.
    pub const NONE: Span = Span { start: u32::MAX, end: 0 };

    pub fn of(node: &Node) -> Span {
        Span { start: node.start, end: node.end }
    }

    pub fn joined(self, other: Span) -> Span {
        Span { start: self.start.min(other.start), end: self.end.max(other.end) }
    }

    /// The start rounded up: c.
    pub fn first(self) -> u32 {
        (self.start + 1) >> 1
    }

    /// The end rounded down: f.
    pub fn last(self) -> u32 {
        self.end >> 1
    }

    /// As one number of the work space.
    fn packed(self) -> u32 {
        self.start << 16 | self.end
    }

    pub fn unpacked(packed: u32) -> Span {
        Span { start: packed >> 16, end: packed & 0xffff }
    }
}

struct Walk<'a> {
    methods: &'a [Method],
    subtasks: &'a [u16],
    plan: &'a [u16],
    claimed: [bool; CUES],
    nodes: &'a mut [Node],
    spans: &'a mut [u32],
    first_line: usize,
    next: usize,
    next_span: usize,
}

/// Walks the tree and completes the records: numbers 6 to 9 and 20 to 22. The spans of each node's subtasks are kept node by node;
/// those walked are fewer than 3,000, those still due at most 32 on each of 64 levels.
pub fn walk(case: &Case, nodes: &mut [Node], spans: &mut [u32]) -> Checked<()> {
    let Case { methods, subtasks, plan, .. } = case;
    let (claimed, first_line) = ([false; CUES], case.node_line(0));
    let mut walk = Walk { methods, subtasks, plan, claimed, nodes, spans, first_line, next: 0, next_span: 0 };
    walk.node(case.goal, 1)?;
    if walk.next < walk.nodes.len() {
        return refuse(21, case.node_line(walk.next), 0);
    }
    if let Some(before) = walk.claimed[..plan.len()].iter().position(|claimed| !claimed) {
        return refuse(9, case.plan_line(), before + 1);
    }
    Ok(())
}

impl Walk<'_> {
    /// Walks the next node, where `task` is expected on this level, and its subtasks.
    #[inline(always)]
    fn node(&mut self, task: u16, level: usize) -> Checked<Span> {
        let (at, line) = (self.next, self.first_line + self.next);
        let Some(&node) = self.nodes.get(at).filter(|node| self.fits(node, task)) else {
            return self.misfit(task, line);
        };
        if level > 64 {
            return refuse(7, line, 0);
        }
        self.next += 1;
        match node.letter {
            1 => self.decomposed(at, level),
            2 => Ok(Span::of(&node)),
            _ => {
                let before = node.place as usize - 1;
                if self.plan[before] != task || self.claimed[before] {
                    return refuse(8, line, node.place as usize);
                }
                self.claimed[before] = true;
                Ok(Span::of(&node))
            }
        }
    }

    /// Whether a node may stand where this task is expected.
    fn fits(&self, node: &Node, task: u16) -> bool {
        if node.letter == 3 {
            return node.label == u32::from(task);
        }
        let method = &self.methods[node.label as usize];
        method.task == task && method.subtasks.is_empty() == (node.letter == 2)
    }

    /// Refuses the next node, which doesn't fit: there is none (22), it has the task that is expected, but the wrong letter for its method
    /// (20), or it is of another task (6).
    #[cold]
    #[inline(never)]
    fn misfit(&self, task: u16, line: usize) -> Checked<Span> {
        let number = match self.nodes.get(self.next) {
            None => 22,
            Some(node) if node.letter != 3 && self.methods[node.label as usize].task == task => 20,
            Some(_) => 6,
        };
        refuse(number, line, 0)
    }

    /// Walks the subtasks of a D node, on the next level; completes its record.
    #[inline(never)]
    fn decomposed(&mut self, at: usize, level: usize) -> Checked<Span> {
        let method = &self.methods[self.nodes[at].label as usize];
        let subtasks = stretch(self.subtasks, &method.subtasks);
        // Room for this node's spans first: those below it come behind them.
        let first_span = self.next_span;
        self.next_span += subtasks.len();
        let mut whole = Span::NONE;
        for (j, &task) in subtasks.iter().enumerate() {
            let span = self.node(task, level + 1)?;
            self.spans[first_span + j] = span.packed();
            whole = whole.joined(span);
        }
        self.nodes[at].start = whole.start;
        self.nodes[at].end = whole.end;
        Ok(whole)
    }
}
