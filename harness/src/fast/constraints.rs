//! The constraints: numbers 10 to 13.

use super::case::{stretch, Case, Constraint, Signed};
use super::walking::Span;
use super::{refuse, Checked, Node, Set, CUES, PROPOSITIONS, WORDS};
use std::mem::MaybeUninit;

/// Tries every node's constraints in order: numbers 10 to 13.
pub fn first_broken(case: &Case, rows: &[Set], nodes: &[Node], spans: &[u32]) -> Checked<()> {
    let mut columns = Columns::new(rows);
    let mut next_span = 0;
    for (at, node) in nodes.iter().enumerate().filter(|(_, node)| node.letter != 3) {
        let method = &case.methods[node.label as usize];
        let scene = Scene { rows, whole: Span::of(node), subtasks: &spans[next_span..] };
        next_span += method.subtasks.len();
        let constraints = stretch(&case.constraints, &method.constraints);
        if let Some(item) = constraints.iter().position(|it| !scene.holds(it, &mut columns)) {
            return refuse(constraints[item].number(), case.node_line(at), item);
        }
    }
    Ok(())
}

/// What a node's constraints speak of.
struct Scene<'a> {
    rows: &'a [Set],
    whole: Span,
    subtasks: &'a [u32],
}

impl Scene<'_> {
    #[inline(always)]
    fn holds(&self, constraint: &Constraint, columns: &mut Columns) -> bool {
        let &Constraint { from, to, .. } = constraint;
        match constraint.number() {
            10 => self.subtask(from).last() < self.subtask(to).first(),
            11 => self.is_so(self.span_of(to).first() - 1, constraint.asked()),
            12 => self.is_so(self.span_of(from).last(), constraint.asked()),
            _ => {
                let (first, end) = (self.span_of(from).last(), self.span_of(to).first());
                columns.is_so_before(first, end, constraint.asked())
            }
        }
    }

    fn subtask(&self, number: u32) -> Span {
        Span::unpacked(self.subtasks[number as usize])
    }

    /// The span of a set of subtasks, by its members; 0 is the whole task.
    #[inline(always)]
    fn span_of(&self, mut set: u32) -> Span {
        if set == 0 {
            return self.whole;
        }
        let mut span = self.subtask(set.trailing_zeros());
        while set & (set - 1) != 0 {
            set &= set - 1;
            span = span.joined(self.subtask(set.trailing_zeros()));
        }
        span
    }

    /// Whether a state is as asked. What is asked comes last: it is read after the spans, and takes no register until then.
    fn is_so(&self, state: u32, asked: Signed) -> bool {
        asked.is_so_in(&self.rows[state as usize])
    }
}

impl Signed {
    /// Whether a state is as asked.
    fn is_so_in(self, state: &Set) -> bool {
        contains(state, self.proposition) != self.negative
    }
}

fn contains(set: &Set, proposition: u16) -> bool {
    set[usize::from(proposition / 64)] >> (proposition % 64) & 1 == 1
}

/// A range of at most so many states is tested state by state, if there is no column.
const SHORT: u32 = 16;

/// A column has a bit for each of 1,001 states, 32 to a word, and one for each of these words in the last two.
const STRETCHES: usize = (CUES + 1).div_ceil(32);
const COLUMN: usize = STRETCHES + 2;

/// For each proposition a column, made when it is first asked for, with either sign. A bit is set if the proposition is
/// false in that state; in the last two words, if it is false, or true, in any state of that word. All of them are more
/// than the lent work space holds.
pub struct Columns<'a> {
    rows: &'a [Set],
    columns: [MaybeUninit<[u32; COLUMN]>; PROPOSITIONS],
    made: Set,
}

impl<'a> Columns<'a> {
    #[inline(always)]
    pub fn new(rows: &'a [Set]) -> Columns<'a> {
        Columns { rows, columns: [const { MaybeUninit::uninit() }; PROPOSITIONS], made: [0; WORDS] }
    }

    /// Whether a state is as asked.
    #[inline(always)]
    pub fn is_so(&self, state: u32, asked: Signed) -> bool {
        asked.is_so_in(&self.rows[state as usize])
    }

    /// Whether each state from `first` on and before `end` is as asked, if there is any.
    #[inline(always)]
    pub fn is_so_before(&mut self, first: u32, end: u32, asked: Signed) -> bool {
        match end.saturating_sub(first) {
            0 => true,
            1 => self.is_so(first, asked),
            _ => self.is_so_throughout(first, end - 1, asked),
        }
    }

    /// Whether each state from `first` to `last` is as asked.
    #[inline(never)]
    fn is_so_throughout(&mut self, first: u32, last: u32, asked: Signed) -> bool {
        if !contains(&self.made, asked.proposition) {
            if last - first < SHORT {
                return self.rows[first as usize..=last as usize].iter().all(|state| asked.is_so_in(state));
            }
            self.make(asked.proposition);
        }
        // SAFETY: it was made, just now or earlier.
        let column = unsafe { self.columns[usize::from(asked.proposition)].assume_init_ref() };
        let sign = u32::from(asked.negative).wrapping_neg();
        let word = |state: u32| column[state as usize / 32] ^ sign;
        // Of the first word the states from `first` on, of the last word those up to `last`.
        let (head, tail) = (word(first) >> (first % 32), word(last) << (31 - last % 32));
        if first / 32 == last / 32 {
            return head << (31 - (last - first)) == 0;
        }
        // The words between those two.
        let between = (1 << (last / 32)) - (2 << (first / 32));
        head | tail | column[STRETCHES + usize::from(asked.negative)] & between == 0
    }

    #[inline(never)]
    fn make(&mut self, proposition: u16) {
        let (word, bit) = (usize::from(proposition / 64), proposition % 64);
        let [words @ .., some_false, some_true] = self.columns[usize::from(proposition)].write([0; COLUMN]);
        for (at, states) in self.rows.chunks(32).enumerate() {
            words[at] = states.iter().rev().fold(0, |bits, state| bits << 1 | (!state[word] >> bit & 1) as u32);
            *some_false |= u32::from(words[at] != 0) << at;
            *some_true |= u32::from(words[at] != u32::MAX) << at;
        }
        self.made[word] |= 1 << bit;
    }
}
