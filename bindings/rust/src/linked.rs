//! The calls. This is the only file with unsafe code: each passes a slice's own pointer and length, which is what the declarations ask for.

use crate::{Found, Imported, Node, Reply, Set, Stepped, Written};

// Not bundled into this crate: a new archive only needs the programs to be linked again.
#[link(name = "capi", kind = "static", modifiers = "-bundle")]
extern "C" {
    fn cuecheck_check(
        text: *const u8,
        text_len: usize,
        states: *mut u64,
        states_len: usize,
        nodes: *mut Node,
        nodes_len: usize,
        work: *mut u32,
        work_len: usize,
    ) -> Reply;
    fn cuecheck_replay(
        text: *const u8,
        text_len: usize,
        states: *mut u64,
        states_len: usize,
        work: *mut u32,
        work_len: usize,
    ) -> Reply;
    fn cuecheck_write(
        text: *const u8,
        text_len: usize,
        states: *mut u64,
        states_len: usize,
        nodes: *mut Node,
        nodes_len: usize,
        work: *mut u32,
        work_len: usize,
        output: *mut u8,
        output_len: usize,
    ) -> Written;
    fn cuecheck_find_gaps(
        text: *const u8,
        text_len: usize,
        states: *mut u64,
        states_len: usize,
        nodes: *mut Node,
        nodes_len: usize,
        work: *mut u32,
        work_len: usize,
    ) -> Found;
    fn cuecheck_import(
        text: *const u8,
        text_len: usize,
        names: *const u8,
        names_len: usize,
        form: *const u8,
        form_len: usize,
        states: *mut u64,
        states_len: usize,
        nodes: *mut Node,
        nodes_len: usize,
        work: *mut u32,
        work_len: usize,
        output: *mut u8,
        output_len: usize,
    ) -> Imported;
    fn cuecheck_step(
        state: *mut Set,
        needed: *const Set,
        forbidden: *const Set,
        added: *const Set,
        deleted: *const Set,
    ) -> Stepped;
}

/// Judges a case. Accepted, `states` has states 0 to k and `nodes` a record for each node, in the tree's order, and zero after; refused, both
/// are zero. `work` is zero after each call.
pub fn check(text: &[u8], states: &mut [u64], nodes: &mut [Node], work: &mut [u32]) -> Reply {
    // SAFETY: each slice is valid for its length, and the borrows keep them from overlapping.
    unsafe {
        cuecheck_check(
            text.as_ptr(),
            text.len(),
            states.as_mut_ptr(),
            states.len(),
            nodes.as_mut_ptr(),
            nodes.len(),
            work.as_mut_ptr(),
            work.len(),
        )
    }
}

/// Reads a case and runs its plan (numbers 1 to 5), without judging the tree or the constraints. The lists as for `check`.
pub fn replay(text: &[u8], states: &mut [u64], work: &mut [u32]) -> Reply {
    // SAFETY: as in `check`.
    unsafe {
        cuecheck_replay(text.as_ptr(), text.len(), states.as_mut_ptr(), states.len(), work.as_mut_ptr(), work.len())
    }
}

/// Judges a case and, accepted, puts it out with each method's constraints in order, without repeats, and zero after. The lists as for
/// `check`. Refused, `output` is zero; an output that is too short is the last thing refused, number 14, and its item is the bytes needed.
pub fn write(text: &[u8], states: &mut [u64], nodes: &mut [Node], work: &mut [u32], output: &mut [u8]) -> Written {
    // SAFETY: as in `check`.
    unsafe {
        cuecheck_write(
            text.as_ptr(),
            text.len(),
            states.as_mut_ptr(),
            states.len(),
            nodes.as_mut_ptr(),
            nodes.len(),
            work.as_mut_ptr(),
            work.len(),
            output.as_mut_ptr(),
            output.len(),
        )
    }
}

/// Looks for gaps: the ones that the text claims must be readable and in range, and are set aside. Numbers 1 to 9 and 20 to 22 as for `check`, then 15 if there are
/// over 1,000,000 choices (item the number of empty tasks). Else the choices are tried in dictionary order, the first empty task slowest, and the first
/// with which the text would be accepted is answered: the lists as by the check of that text, each gap in its node's record. 16 if there is none, item
/// the number of choices.
pub fn find_gaps(text: &[u8], states: &mut [u64], nodes: &mut [Node], work: &mut [u32]) -> Found {
    // SAFETY: as in `check`.
    unsafe {
        cuecheck_find_gaps(
            text.as_ptr(),
            text.len(),
            states.as_mut_ptr(),
            states.len(),
            nodes.as_mut_ptr(),
            nodes.len(),
            work.as_mut_ptr(),
            work.len(),
        )
    }
}

/// Takes a plan in the planning competition's form: the case's plan and nodes are replaced by the form's, with gaps 0, its names by the name list, and the
/// gaps of the case so made are looked for as by `find_gaps`. Numbers 1 to 4 of the case come first, then 17 and 18 of the name list (item 1), of the form
/// (item 0), and 19; then 14 for an output that is too short, its item the bytes needed; then what `find_gaps` refuses of the made text. Accepted, the lists
/// are as by `find_gaps`, and `output` has the made text with gaps 0, whatever gaps are found, and zero after. Refused, all of them are zero. Names and form
/// have no limit of length.
pub fn import(
    text: &[u8],
    names: &[u8],
    form: &[u8],
    states: &mut [u64],
    nodes: &mut [Node],
    work: &mut [u32],
    output: &mut [u8],
) -> Imported {
    // SAFETY: as in `check`; the three texts are only read, so that these may overlap.
    unsafe {
        cuecheck_import(
            text.as_ptr(),
            text.len(),
            names.as_ptr(),
            names.len(),
            form.as_ptr(),
            form.len(),
            states.as_mut_ptr(),
            states.len(),
            nodes.as_mut_ptr(),
            nodes.len(),
            work.as_mut_ptr(),
            work.len(),
            output.as_mut_ptr(),
            output.len(),
        )
    }
}

/// Applies one action. If it applies, `state` is the next state; if not, it is as it came. A word in which nothing is added or deleted passes through
/// untouched, the others are computed.
pub fn step(state: &mut Set, needed: &Set, forbidden: &Set, added: &Set, deleted: &Set) -> Stepped {
    // SAFETY: each pointer is of a live set, and the borrows keep `state` from overlapping the others.
    unsafe { cuecheck_step(state, needed, forbidden, added, deleted) }
}
