//! The gaps of the empty tasks: numbers 15 and 16.
//!
//! Each constraint that speaks of empty tasks becomes an entry: where its parts end and start by their cues alone, and which
//! empty tasks they have. A choice is tested entry by entry, and one that fails says because of which empty tasks; what fails
//! because of the same gaps of the same tasks is passed over. How many choices were passed over doesn't show: the number
//! tried is the place of the choice found.

use super::case::{stretch, Case, Signed};
use super::constraints::{first_broken, Columns};
use super::walking::Span;
use super::{refuse, Checked, Node, Set, NODES, TEXT};

/// The most choices that are tried.
const CHOICES: u32 = 1_000_000;

/// The most empty tasks with that few choices, where there is a cue: each has a bit in a set, by its place in the tree's order.
const EMPTY: usize = 19;

/// Finds the first choice with which a text of so many bytes is accepted, completes the records by it, and gives back its
/// number, from 1. The tree was walked with the gaps claimed.
pub fn find(text: usize, case: &Case, rows: &[Set], nodes: &mut [Node], work: &mut [u32]) -> Checked<u32> {
    let empty = nodes.iter().filter(|node| node.letter == 2).count();
    let last_gap = case.plan.len() as u32;
    let choices = count_choices(last_gap, empty);
    if choices > CHOICES {
        return refuse(15, 0, empty);
    }
    if choices == 1 {
        // No empty task, or no cue: the gaps claimed are the only ones there are.
        return first_broken(case, rows, nodes, work).map(|()| 1).or_else(|_| refuse(16, 0, 1));
    }
    let mut search = Search::new(rows, empty, last_gap, text, nodes);
    if !search.gather(case, nodes, work) || !search.run() {
        return refuse(16, 0, choices as usize);
    }
    complete(case, nodes, work, &search.choice);
    Ok(search.choice[..empty].iter().fold(0, |place, gap| place * (last_gap + 1) + gap) + 1)
}

/// The choices of a gap from 0 to the last for so many tasks, or any number over `CHOICES` if they are over it.
fn count_choices(last_gap: u32, empty: usize) -> u32 {
    let mut choices = 1;
    for _ in 0..if last_gap == 0 { 0 } else { empty.min(EMPTY + 1) } {
        choices = (choices * (last_gap as u64 + 1)).min(CHOICES as u64 + 1);
    }
    choices as u32
}

/// A gap for each empty task, in the tree's order.
type Choice = [u32; 32];

/// Some subtasks of a node, or the whole node: the least and the greatest of its cues, and its empty tasks.
#[derive(Clone, Copy)]
struct Part {
    first: u32,
    last: u32,
    empty: u32,
}

impl Part {
    const NONE: Part = Part { first: u32::MAX, last: 0, empty: 0 };

    fn joined(self, other: Part) -> Part {
        Part { first: self.first.min(other.first), last: self.last.max(other.last), empty: self.empty | other.empty }
    }

    /// c, with these gaps: that of gap g is g + 1.
    #[inline(always)]
    fn start(self, choice: &Choice) -> u32 {
        members(self.empty).fold(self.first, |first, at| first.min(choice[at] + 1))
    }

    /// f, with these gaps.
    #[inline(always)]
    fn end(self, choice: &Choice) -> u32 {
        members(self.empty).fold(self.last, |last, at| last.max(choice[at]))
    }
}

/// The bits of a set, from the lowest on.
pub fn members(mut set: u32) -> impl Iterator<Item = usize> {
    std::iter::from_fn(move || {
        let least = set.trailing_zeros() as usize;
        let any = set != 0;
        set &= set.wrapping_sub(1);
        any.then_some(least % 32)
    })
}

/// A constraint of one node: the part whose end it speaks of, and the one whose start; a before has no first, an after no second.
struct Entry {
    number: u32,
    asked: Signed,
    from: Part,
    to: Part,
}

impl Entry {
    fn empty(&self) -> u32 {
        self.from.empty | self.to.empty
    }

    #[inline(always)]
    fn holds(&self, choice: &Choice, columns: &mut Columns) -> bool {
        match self.number {
            10 => self.from.end(choice) < self.to.start(choice),
            11 => columns.is_so(self.to.start(choice) - 1, self.asked),
            12 => columns.is_so(self.from.end(choice), self.asked),
            _ => columns.is_so_before(self.from.end(choice), self.to.start(choice), self.asked),
        }
    }
}

struct Search<'a> {
    columns: Columns<'a>,
    /// The entries by the last of their empty tasks; in each bucket those that broke lately come first.
    buckets: [Vec<Entry>; EMPTY],
    empty: usize,
    last_gap: u32,
    choice: Choice,
    /// Why the lower gaps of each task fail: because of the gaps of these tasks ahead of it.
    why: [u32; EMPTY],
    /// The bytes of the text without its gaps, and whether some choice makes it too long.
    bare: usize,
    may_overrun: bool,
}

impl<'a> Search<'a> {
    fn new(rows: &'a [Set], empty: usize, last_gap: u32, text: usize, nodes: &[Node]) -> Search<'a> {
        let claimed: usize = nodes.iter().filter(|node| node.letter == 2).map(|node| digits(node.place)).sum();
        let bare = text - claimed;
        Search {
            columns: Columns::new(rows),
            buckets: Default::default(),
            empty,
            last_gap,
            choice: [0; 32],
            why: [0; EMPTY],
            bare,
            may_overrun: bare + empty * digits(last_gap) > TEXT,
        }
    }

    /// Makes the entries, in the tree's order. False if a constraint without empty tasks is broken.
    ///
    /// The nodes are taken from the last to the first: the parts of a node's subtasks are then on top of a stack, the first
    /// subtask's above the others.
    fn gather(&mut self, case: &Case, nodes: &[Node], work: &mut [u32]) -> bool {
        let stack = &mut work.as_chunks_mut::<3>().0[..NODES];
        let mut top = 0;
        let mut left = self.empty;
        for node in nodes.iter().rev() {
            let part = match node.letter {
                3 => Part { first: node.place, last: node.place, empty: 0 },
                2 => {
                    left -= 1;
                    Part { empty: 1 << left, ..Part::NONE }
                }
                _ => {
                    let count = case.methods[node.label as usize].subtasks.len();
                    let whole = stack[top - count..top].iter().map(unpacked).fold(Part::NONE, Part::joined);
                    top -= count;
                    whole
                }
            };
            if node.letter != 3 && !self.gather_of(case, node, part, &stack[top..]) {
                return false;
            }
            stack[top] = [part.first, part.last, part.empty];
            top += 1;
        }
        self.buckets.iter_mut().for_each(|bucket| bucket.reverse());
        true
    }

    /// Makes the entries of a node, from the last constraint to the first; its subtasks' parts come last first.
    fn gather_of(&mut self, case: &Case, node: &Node, whole: Part, subtasks: &[[u32; 3]]) -> bool {
        let method = &case.methods[node.label as usize];
        let subtask = |j: usize| unpacked(&subtasks[method.subtasks.len() - 1 - j]);
        let part = |set: u32| match set {
            0 => whole,
            _ => members(set).fold(Part::NONE, |part, j| part.joined(subtask(j))),
        };
        for constraint in stretch(&case.constraints, &method.constraints).iter().rev() {
            let (number, asked) = (constraint.number(), constraint.asked());
            let (from, to) = match number {
                10 => (subtask(constraint.from as usize), subtask(constraint.to as usize)),
                11 => (Part::NONE, part(constraint.to)),
                12 => (part(constraint.from), Part::NONE),
                _ => (part(constraint.from), part(constraint.to)),
            };
            let entry = Entry { number, asked, from, to };
            if let Some(last) = entry.empty().checked_ilog2() {
                self.buckets[last as usize].push(entry);
            } else if !entry.holds(&self.choice, &mut self.columns) {
                return false;
            }
        }
        true
    }

    /// Whether there is a choice; it is left in `choice`.
    fn run(&mut self) -> bool {
        let mut changed = 0;
        while let Some(because) = self.failing(changed) {
            match self.learn(because) {
                Some(next) => changed = next,
                None => return false,
            }
        }
        true
    }

    /// Because of which tasks the choice fails, if it does: what speaks only of tasks ahead of the one that changed is known to hold.
    #[inline(always)]
    fn failing(&mut self, changed: usize) -> Option<u32> {
        let Search { buckets, choice, columns, .. } = self;
        for bucket in buckets.iter_mut().take(self.empty).skip(changed) {
            if let Some(at) = bucket.iter().position(|entry| !entry.holds(choice, columns)) {
                bucket[..=at].rotate_right(1);
                return Some(bucket[0].empty());
            }
        }
        if self.may_overrun {
            return self.overrunning();
        }
        None
    }

    /// Those with two digits or more, if the text is too long.
    #[inline(never)]
    fn overrunning(&self) -> Option<u32> {
        let gaps = &self.choice[..self.empty];
        let length = self.bare + gaps.iter().map(|&gap| digits(gap)).sum::<usize>();
        let long = gaps.iter().rev().fold(0, |set, &gap| set << 1 | u32::from(gap > 9));
        (length > TEXT).then_some(long)
    }

    /// Goes on to the next choice that doesn't fail for a known reason, and says which task is the first that changed.
    #[inline(always)]
    fn learn(&mut self, mut because: u32) -> Option<usize> {
        while let Some(last) = because.checked_ilog2() {
            let at = last as usize;
            because &= !(1 << at);
            if self.choice[at] < self.last_gap {
                self.choice[at] += 1;
                self.why[at] |= because;
                self.choice[at + 1..self.empty].fill(0);
                self.why[at + 1..self.empty].fill(0);
                return Some(at);
            }
            because |= self.why[at];
        }
        None
    }
}

fn unpacked(&[first, last, empty]: &[u32; 3]) -> Part {
    Part { first, last, empty }
}

fn digits(gap: u32) -> usize {
    1 + usize::from(gap > 9) + usize::from(gap > 99) + usize::from(gap > 999)
}

/// Completes the records by the choice: gaps, and the starts and ends of all that has empty tasks below it.
fn complete(case: &Case, nodes: &mut [Node], work: &mut [u32], choice: &Choice) {
    let stack = &mut work.as_chunks_mut::<2>().0[..NODES];
    let mut top = 0;
    let mut left = nodes.iter().filter(|node| node.letter == 2).count();
    for node in nodes.iter_mut().rev() {
        if node.letter == 2 {
            left -= 1;
            node.place = choice[left];
            node.start = 2 * node.place + 1;
            node.end = node.start;
        } else if node.letter == 1 {
            let count = case.methods[node.label as usize].subtasks.len();
            let spans = stack[top - count..top].iter().map(|&[start, end]| Span { start, end });
            let whole = spans.fold(Span::NONE, Span::joined);
            top -= count;
            node.start = whole.start;
            node.end = whole.end;
        }
        stack[top] = [node.start, node.end];
        top += 1;
    }
}
