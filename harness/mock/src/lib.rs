//! The C calls of libcapi.a answered by the plain rendering, with a bug if a feature asks.

#[allow(dead_code)]
#[path = "../../src/plain.rs"]
mod plain;

use plain::{Found, Imported, Node, Reply, Set, Stepped, Written, STATES_ASKED, WORK_ASKED};
use std::slice::{from_raw_parts, from_raw_parts_mut};

/// # Safety
/// Each pointer is valid for its length, and no two lists overlap.
#[no_mangle]
pub unsafe extern "C" fn cuecheck_replay(
    text: *const u8,
    text_len: usize,
    states: *mut u64,
    states_len: usize,
    work: *mut u32,
    work_len: usize,
) -> Reply {
    let (text, states, work) =
        (from_raw_parts(text, text_len), from_raw_parts_mut(states, states_len), from_raw_parts_mut(work, work_len));
    spoiled(plain::replay(text, states, work), states, work)
}

/// # Safety
/// Each pointer is valid for its length, and no two lists overlap.
#[no_mangle]
pub unsafe extern "C" fn cuecheck_check(
    text: *const u8,
    text_len: usize,
    states: *mut u64,
    states_len: usize,
    nodes: *mut Node,
    nodes_len: usize,
    work: *mut u32,
    work_len: usize,
) -> Reply {
    let (text, states, work) =
        (from_raw_parts(text, text_len), from_raw_parts_mut(states, states_len), from_raw_parts_mut(work, work_len));
    spoiled(plain::check(text, states, from_raw_parts_mut(nodes, nodes_len), work), states, work)
}

/// # Safety
/// Each pointer is valid for its length, and no two lists overlap.
#[no_mangle]
pub unsafe extern "C" fn cuecheck_write(
    text: *const u8,
    text_len: usize,
    states: *mut u64,
    states_len: usize,
    nodes: *mut Node,
    nodes_len: usize,
    work: *mut u32,
    work_len: usize,
    output: *mut u8,
    output_len: usize,
) -> Written {
    let (text, states, work) =
        (from_raw_parts(text, text_len), from_raw_parts_mut(states, states_len), from_raw_parts_mut(work, work_len));
    let (nodes, output) = (from_raw_parts_mut(nodes, nodes_len), from_raw_parts_mut(output, output_len));
    let Written { number, line, item, cues, nodes, length } = plain::write(text, states, nodes, work, output);
    let Reply { number, line, item, cues, nodes } = spoiled(Reply { number, line, item, cues, nodes }, states, work);
    Written { number, line, item, cues, nodes, length }
}

/// # Safety
/// Each pointer is valid for its length, and no two lists overlap.
#[no_mangle]
pub unsafe extern "C" fn cuecheck_find_gaps(
    text: *const u8,
    text_len: usize,
    states: *mut u64,
    states_len: usize,
    nodes: *mut Node,
    nodes_len: usize,
    work: *mut u32,
    work_len: usize,
) -> Found {
    let (text, states, work) =
        (from_raw_parts(text, text_len), from_raw_parts_mut(states, states_len), from_raw_parts_mut(work, work_len));
    let nodes = from_raw_parts_mut(nodes, nodes_len);
    let Found { number, line, item, cues, nodes, tried } = plain::find_gaps(text, states, nodes, work);
    let Reply { number, line, item, cues, nodes } = spoiled(Reply { number, line, item, cues, nodes }, states, work);
    Found { number, line, item, cues, nodes, tried }
}

/// # Safety
/// Each pointer is valid for its length, and no list overlaps another one or a text.
#[no_mangle]
pub unsafe extern "C" fn cuecheck_import(
    text: *const u8,
    text_len: usize,
    names: *const u8,
    names_len: usize,
    form: *const u8,
    form_len: usize,
    states: *mut u64,
    states_len: usize,
    nodes: *mut Node,
    nodes_len: usize,
    work: *mut u32,
    work_len: usize,
    output: *mut u8,
    output_len: usize,
) -> Imported {
    let (text, names, form) =
        (from_raw_parts(text, text_len), from_raw_parts(names, names_len), from_raw_parts(form, form_len));
    let (states, work) = (from_raw_parts_mut(states, states_len), from_raw_parts_mut(work, work_len));
    let (nodes, output) = (from_raw_parts_mut(nodes, nodes_len), from_raw_parts_mut(output, output_len));
    let Imported { number, line, item, cues, nodes, tried, length } =
        plain::import(text, names, form, states, nodes, work, output);
    let Reply { number, line, item, cues, nodes } = spoiled(Reply { number, line, item, cues, nodes }, states, work);
    Imported { number, line, item, cues, nodes, tried, length }
}

/// # Safety
/// Each pointer is valid, and the state overlaps no other set.
#[no_mangle]
pub unsafe extern "C" fn cuecheck_step(
    state: *mut Set,
    needed: *const Set,
    forbidden: *const Set,
    added: *const Set,
    deleted: *const Set,
) -> Stepped {
    let (stepped, next) = plain::step(*state, *needed, *forbidden, *added, *deleted);
    *state = next;
    stepped
}

/// The answer and the lists as they came, or with the bug that the features ask for.
unsafe fn spoiled(mut answer: Reply, states: &mut [u64], work: &mut [u32]) -> Reply {
    if cfg!(feature = "bug-answer") && answer.number == 3 && answer.item == 8 {
        answer.item = 7;
    }
    if cfg!(feature = "bug-dirty-work") && work.len() > WORK_ASKED {
        work[WORK_ASKED] = 1;
    }
    if cfg!(feature = "bug-overrun") && states.len() == STATES_ASKED - 1 {
        *states.as_mut_ptr().add(states.len()) = 7;
    }
    answer
}
