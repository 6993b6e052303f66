//! The tidy text: number 14.

use super::case::{stretch, Case, Constraint, Method};
use super::{refuse, Checked};

/// Writes the tidy text to the front of the output and gives back its length. What is in order is copied in stretches as
/// long as they get, the whole text if nothing is out of order.
pub fn put_out(text: &[u8], case: &Case, output: &mut [u8]) -> Checked<usize> {
    let mut sink = Sink { output, length: 0 };
    let mut copied = 0;
    for method in &case.methods[..] {
        let constraints = stretch(&case.constraints, &method.constraints);
        if !constraints.is_sorted_by(|one, next| key(one) < key(next)) {
            let head = text.len() - usize::from(method.lines.head);
            put_method(text, &text[copied..head], method, constraints, &mut sink);
            copied = text.len() - usize::from(method.lines.end);
        }
    }
    sink.put(&text[copied..]);
    if sink.length > sink.output.len() {
        return refuse(14, 0, sink.length);
    }
    Ok(sink.length)
}

/// Puts out what stands before a method's constraints, its c replaced, and the constraints, sorted.
#[inline(never)]
fn put_method(text: &[u8], before: &[u8], method: &Method, constraints: &[Constraint], sink: &mut Sink) {
    // The place of each line in the low byte of its key: the keys are sorted, the lines stay where they are.
    let mut keys = [0; 64];
    let keys = &mut keys[..constraints.len()];
    for (at, constraint) in constraints.iter().enumerate() {
        keys[at] = key(constraint) << 8 | at as u128;
    }
    keys.sort_unstable();
    let repeats = keys.windows(2).filter(|pair| pair[0] >> 8 == pair[1] >> 8).count();
    put_count(before, constraints.len(), constraints.len() - repeats, sink);
    let mut last = u128::MAX;
    for &key in &*keys {
        let at = key as usize % 64;
        if key >> 8 != last {
            let left = constraints[at].left;
            let behind = constraints.get(at + 1).map_or(method.lines.end, |next| next.left);
            sink.put_line(&text[text.len() - usize::from(left)..], usize::from(left - behind));
        }
        last = key >> 8;
    }
}

/// No constraint line is longer.
const LONGEST: usize = 32;

/// Puts out what ends in a method's c and a line feed, with another c.
fn put_count(before: &[u8], old: usize, new: usize, sink: &mut Sink) {
    let digits = if old < 10 { 1 } else { 2 };
    sink.put(&before[..before.len() - 1 - digits]);
    let count = [b'0' + new as u8 / 10, b'0' + new as u8 % 10, b'\n'];
    sink.put(&count[usize::from(new < 10)..]);
}

/// What a constraint is sorted by, as one number: its letter, then its fields from the left. No branch goes by the letter,
/// which is hard to foretell.
#[inline(always)]
fn key(constraint: &Constraint) -> u128 {
    let &Constraint { from, to, .. } = constraint;
    let (letter, proposition) = (constraint.letter(), u32::from(constraint.proposition()));
    let (order, between) = (letter == 0, letter >= 6);
    let first = if order | between { from } else { proposition };
    // A before has no `from`, an after no `to`.
    let set = if order { to } else { from | to };
    let second = if between { proposition } else { set };
    let third = if between { to } else { 0 };
    let high = u64::from(letter) << 32 | u64::from(first);
    u128::from(high) << 64 | u128::from(u64::from(second) << 32 | u64::from(third))
}

/// The output, and how much was put out: also where it doesn't reach, to tell what is needed.
pub struct Sink<'a> {
    pub output: &'a mut [u8],
    pub length: usize,
}

impl Sink<'_> {
    #[inline(always)]
    pub fn put(&mut self, bytes: &[u8]) {
        if let Some(room) = self.output.get_mut(self.length..self.length + bytes.len()) {
            room.copy_from_slice(bytes);
        }
        self.length += bytes.len();
    }

    /// Puts out a constraint line, given with what follows it: as many bytes of that as any line has are copied with it, to be
    /// written over.
    #[inline(always)]
    fn put_line(&mut self, bytes: &[u8], length: usize) {
        let room = self.output.get_mut(self.length..).and_then(|room| room.first_chunk_mut::<LONGEST>());
        match (room, bytes.first_chunk::<LONGEST>()) {
            (Some(room), Some(line)) => {
                *room = *line;
                self.length += length;
            }
            _ => self.put(&bytes[..length]),
        }
    }
}
