//! What is read of a case but for its nodes, in tables on the stack.

use super::{Set, CUES, PROPOSITIONS, TEXT, WORDS};
use std::mem::MaybeUninit;
use std::ops::{Deref, Range};

/// A list that grows in lent memory.
pub struct Table<'a, T> {
    slots: &'a mut [MaybeUninit<T>],
    count: usize,
}

impl<T: Copy> Table<'_, T> {
    /// Has these members in place of those that it had.
    pub fn replace(&mut self, members: &[T]) {
        self.slots[..members.len()].write_copy_of_slice(members);
        self.count = members.len();
    }
}

impl<T> Table<'_, T> {
    /// Appends a member and gives it back, to be filled in place.
    pub fn push(&mut self, member: T) -> &mut T {
        let slot = self.slots[self.count].write(member);
        self.count += 1;
        slot
    }

    /// Appends so many members, unless there is a fault. Where they are more than there is room for, one comes first,
    /// as the text is too short for them.
    #[inline(always)]
    pub fn extend<F>(&mut self, count: u32, mut read: impl FnMut() -> Result<T, F>) -> Result<(), F> {
        let end = self.count + count as usize;
        let room = end.min(self.slots.len());
        for slot in &mut self.slots[self.count..room] {
            slot.write(read()?);
        }
        self.count = end;
        Ok(())
    }
}

impl<T> Deref for Table<'_, T> {
    type Target = [T];

    fn deref(&self) -> &[T] {
        // SAFETY: only the three above move the count, over members that they have written.
        unsafe { self.slots[..self.count].assume_init_ref() }
    }
}

/// Needed, forbidden, added, deleted.
pub type Action = [Set; 4];

/// A method; its subtasks and constraints are ranges of the case's two flat tables.
pub struct Method {
    pub task: u16,
    pub subtasks: Range<u16>,
    pub constraints: Range<u16>,
    pub lines: Lines,
}

/// Where a method stands in the text, as bytes that are left of it: from the end of its M line, and from the end of its constraints.
#[derive(Clone, Copy)]
pub struct Lines {
    pub head: u16,
    pub end: u16,
}

/// The members of a flat table that belong to a method.
pub fn stretch<'a, T>(all: &'a [T], range: &Range<u16>) -> &'a [T] {
    &all[usize::from(range.start)..usize::from(range.end)]
}

/// A constraint. An order has two subtasks in `from` and `to`. The others have sets of them, bit j for subtask j, 0 for the
/// whole task; a before has only `to`, an after only `from`.
pub struct Constraint {
    /// The letter and, below it, the proposition; an order has none.
    kind: u16,
    /// Where its line stands in the text, as bytes that are left of it.
    pub left: u16,
    pub from: u32,
    pub to: u32,
}

impl Constraint {
    pub fn new(letter: u16, proposition: u32, left: u16, from: u32, to: u32) -> Constraint {
        Constraint { kind: letter * PROPOSITIONS as u16 + proposition as u16, left, from, to }
    }

    /// O, B, F and W are 0, 2, 4 and 6; b, f and w one more.
    pub fn letter(&self) -> u16 {
        self.kind / PROPOSITIONS as u16
    }

    pub fn proposition(&self) -> u16 {
        self.kind % PROPOSITIONS as u16
    }

    /// The refusal number if it is broken: 10 order, 11 before, 12 after, 13 between.
    pub fn number(&self) -> u32 {
        10 + u32::from(self.letter() / 2)
    }

    pub fn asked(&self) -> Signed {
        Signed { proposition: self.proposition(), negative: self.letter() % 2 == 1 }
    }
}

/// A proposition, and whether it is asked to be true (B, F, W) or false (b, f, w).
#[derive(Clone, Copy)]
pub struct Signed {
    pub proposition: u16,
    pub negative: bool,
}

/// A readable case but for its nodes.
pub struct Case<'a> {
    pub tasks: u16,
    pub goal: u16,
    pub initial: Set,
    pub actions: Table<'a, Action>,
    pub methods: Table<'a, Method>,
    pub subtasks: Table<'a, u16>,
    pub constraints: Table<'a, Constraint>,
    pub plan: Table<'a, u16>,
    /// Where the P line stands in the text, as bytes that are left of it.
    pub plan_left: u16,
}

impl Case<'_> {
    /// The P line follows N, I, and a line for each action, method and constraint.
    pub fn plan_line(&self) -> usize {
        3 + self.actions.len() + self.methods.len() + self.constraints.len()
    }

    /// The line of a node; of the one past the last node too.
    pub fn node_line(&self, node: usize) -> usize {
        self.plan_line() + 1 + node
    }
}

/// The longest text that small tables serve.
const SMALL: usize = 4_096;

/// Calls with an empty case, which has room for what a text of so many bytes holds: an action has at least 10 of them,
/// a method 8, a subtask 2, a constraint 6. A small text doesn't pay for a large frame.
pub fn with_tables<R>(text: usize, judge: impl FnOnce(&mut Case) -> R) -> R {
    if text <= SMALL {
        with::<{ SMALL / 10 + 1 }, { SMALL / 8 + 1 }, { SMALL / 2 + 1 }, { SMALL / 6 + 1 }, R>(judge)
    } else {
        with::<1_024, 2_048, { TEXT / 2 + 1 }, { TEXT / 6 + 1 }, R>(judge)
    }
}

#[inline(never)]
fn with<const A: usize, const M: usize, const S: usize, const C: usize, R>(judge: impl FnOnce(&mut Case) -> R) -> R {
    judge(&mut Case {
        tasks: 0,
        goal: 0,
        initial: [0; WORDS],
        actions: Table { slots: &mut [const { MaybeUninit::uninit() }; A], count: 0 },
        methods: Table { slots: &mut [const { MaybeUninit::uninit() }; M], count: 0 },
        subtasks: Table { slots: &mut [const { MaybeUninit::uninit() }; S], count: 0 },
        constraints: Table { slots: &mut [const { MaybeUninit::uninit() }; C], count: 0 },
        plan: Table { slots: &mut [const { MaybeUninit::uninit() }; CUES], count: 0 },
        plan_left: 0,
    })
}
