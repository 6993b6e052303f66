//! Document 01, with Cards 1 to 7 of document 02, once more, written for speed: the step, replay, check and write calls,
//! the one that finds the gaps, and the import call.
//!
//! One pass over the text fills tables on the stack and, for the check call, the lent records (`reading`); the plan is
//! run into the lent states (`run`); the walk goes over the records once (`walking`), the constraints a second time
//! (`constraints`); the write call copies what is in order and sorts the rest (`writing`); the gaps are looked for with what is known of failed
//! choices (`finding`). The import call reads the name list (`names`) and the form (`form`) in one pass each, by tables of names and ids; the case
//! made of them is put out, but not read again. Spans of subtasks are kept in the lent work space. Nothing is allocated but what `finding` makes of
//! the constraints, the names and the form, and nothing is cleared but the lent lists and the tables of names and ids. A call needs 600 KiB of
//! stack, or 224 KiB for a text of at most 4,096 bytes.

mod case;
mod constraints;
mod finding;
mod form;
mod names;
mod reading;
mod slots;
mod walking;
mod writing;

use case::{with_tables, Action, Case};
use constraints::first_broken;
use cuecheck::{Accepted, Placed, Tidied};
pub use cuecheck::{Found, Imported, Node, Refusal, Reply, Set, Stepped, Written};
use finding::{find, members};
use form::{preorder, put_case, read_form};
use names::read_names;
use reading::read;
use walking::walk;
use writing::put_out;

/// The words of a state, and its bits: one for each proposition.
const WORDS: usize = 8;
const PROPOSITIONS: usize = 64 * WORDS;
const CUES: usize = 1_000;

/// What is asked of the lent lists, and the longest text.
const STATES: usize = WORDS * (CUES + 1);
const NODES: usize = 3_000;
const WORK: usize = 16_384;
const TEXT: usize = 65_535;

type Checked<T> = Result<T, Refusal>;

#[cold]
fn refuse<T>(number: u32, line: usize, item: usize) -> Checked<T> {
    Err(Refusal { number, line: line as u32, item: item as u32 })
}

/// The step call: yes, and the state becomes the next one, or no, and it stays; and which words were computed. These are found first
/// and gone through one by one: a branch at each word would be hard to foretell.
pub fn step(state: &mut Set, [needed, forbidden, added, deleted]: &Action) -> Stepped {
    if obstacles(state, needed, forbidden) != 0 {
        return Stepped { applied: 0, computed: 0 };
    }
    let computed = touched(added, deleted);
    if computed == EVERY {
        advance(state, added, deleted);
    } else {
        for w in members(computed).map(|w| w % WORDS) {
            state[w] = next(state[w], added[w], deleted[w]);
        }
    }
    Stepped { applied: 1, computed }
}

/// All words, word w as bit w.
const EVERY: u32 = (1 << WORDS) - 1;

/// The words in which anything is added or deleted.
#[inline(always)]
fn touched(added: &Set, deleted: &Set) -> u32 {
    (0..WORDS).fold(0, |words, w| words | u32::from(added[w] | deleted[w] != 0) << w)
}

/// The bits that stand against an action: none if it applies.
#[inline(always)]
fn obstacles(state: &Set, needed: &Set, forbidden: &Set) -> u64 {
    (0..WORDS).fold(0, |bits, w| bits | (needed[w] & !state[w]) | (forbidden[w] & state[w]))
}

/// A word of the next state.
fn next(state: u64, added: u64, deleted: u64) -> u64 {
    (state & !deleted) | added
}

/// The next state, where nobody asks which words were computed. A word in which nothing is added or deleted passes through; computed it
/// would be the same, so the compiler drops the test, and takes the words two by two.
#[inline(always)]
fn advanced(state: &Set, added: &Set, deleted: &Set) -> Set {
    let mut advanced = *state;
    for w in 0..WORDS {
        if added[w] | deleted[w] != 0 {
            advanced[w] = next(state[w], added[w], deleted[w]);
        }
    }
    advanced
}

/// The next state in place of the state. A function apart: in the step call it would make the other way slower.
#[inline(never)]
fn advance(state: &mut Set, added: &Set, deleted: &Set) {
    *state = advanced(state, added, deleted);
}

/// The check call: reads, runs, walks, and tries every constraint.
pub fn check(text: &[u8], states: &mut [u64], nodes: &mut [Node], work: &mut [u32]) -> Reply {
    let short = [states.len() < STATES, nodes.len() < NODES, work.len() < WORK];
    let checked = within_limits(text, short)
        .and_then(|()| with_tables(text.len(), |case| check_with(text, case, states, nodes, work)));
    clear(checked.ok(), states, nodes, work);
    reply(checked)
}

/// The write call: the check call's part, then the tidy text, or number 14.
pub fn write(text: &[u8], states: &mut [u64], nodes: &mut [Node], work: &mut [u32], output: &mut [u8]) -> Written {
    let short = [states.len() < STATES, nodes.len() < NODES, work.len() < WORK];
    let written = within_limits(text, short).and_then(|()| {
        with_tables(text.len(), |case| {
            let Accepted { cues, nodes } = check_with(text, case, states, nodes, work)?;
            let length = put_out(text, case, output)? as u32;
            Ok(Tidied { cues, nodes, length })
        })
    });
    clear(written.ok().map(|it| Accepted { cues: it.cues, nodes: it.nodes }), states, nodes, work);
    output[written.map_or(0, |it| it.length as usize)..].fill(0);
    match written {
        Ok(Tidied { cues, nodes, length }) => Written { number: 0, line: 0, item: 0, cues, nodes, length },
        Err(Refusal { number, line, item }) => Written { number, line, item, cues: 0, nodes: 0, length: 0 },
    }
}

/// The call that finds the gaps: the check call's part but for the constraints, then numbers 15 and 16.
pub fn find_gaps(text: &[u8], states: &mut [u64], nodes: &mut [Node], work: &mut [u32]) -> Found {
    let short = [states.len() < STATES, nodes.len() < NODES, work.len() < WORK];
    let found = within_limits(text, short).and_then(|()| {
        with_tables(text.len(), |case| {
            let Accepted { cues, nodes: count } = read(text, case, nodes)?;
            let tried = find_with(text.len(), case, states, &mut nodes[..count as usize], work)?;
            Ok(Placed { cues, nodes: count, tried })
        })
    });
    clear(found.ok().map(|it| Accepted { cues: it.cues, nodes: it.nodes }), states, nodes, work);
    match found {
        Ok(Placed { cues, nodes, tried }) => Found { number: 0, line: 0, item: 0, cues, nodes, tried },
        Err(Refusal { number, line, item }) => Found { number, line, item, cues: 0, nodes: 0, tried: 0 },
    }
}

/// Everything of the call that finds the gaps behind the reading of a text of so many bytes, but the zeroing.
fn find_with(text: usize, case: &Case, states: &mut [u64], nodes: &mut [Node], work: &mut [u32]) -> Checked<u32> {
    let rows = run(case, states)?;
    walk(case, nodes, work)?;
    find(text, case, rows, nodes, work)
}

/// The import call: the case is made of the form and put out, and its gaps are found.
pub fn import(
    text: &[u8],
    names: &[u8],
    form: &[u8],
    states: &mut [u64],
    nodes: &mut [Node],
    work: &mut [u32],
    output: &mut [u8],
) -> Imported {
    let short = [states.len() < STATES, nodes.len() < NODES, work.len() < WORK];
    let imported = within_limits(text, short).and_then(|()| {
        with_tables(text.len(), |case| {
            let (count, length) = make(text, names, form, case, nodes, output)?;
            let tried = find_with(length, case, states, &mut nodes[..count], work)?;
            Ok((Placed { cues: case.plan.len() as u32, nodes: count as u32, tried }, length))
        })
    });
    clear(imported.ok().map(|(it, _)| Accepted { cues: it.cues, nodes: it.nodes }), states, nodes, work);
    output[imported.map_or(0, |(_, length)| length)..].fill(0);
    match imported {
        Ok((Placed { cues, nodes, tried }, length)) => {
            Imported { number: 0, line: 0, item: 0, cues, nodes, tried, length: length as u32 }
        }
        Err(Refusal { number, line, item }) => Imported { number, line, item, cues: 0, nodes: 0, tried: 0, length: 0 },
    }
}

/// Reads the case and makes another one of it by the form, in the output, in the tables and in the records: its nodes and its length, or
/// numbers 3, 4, 17 to 19 and 14, and then what reading it would refuse.
fn make(
    text: &[u8],
    names: &[u8],
    form: &[u8],
    case: &mut Case,
    nodes: &mut [Node],
    output: &mut [u8],
) -> Checked<(usize, usize)> {
    read(text, case, &mut [])?;
    let names = read_names(names, case)?;
    let form = read_form(form, case, &names)?;
    let order = preorder(&form)?;
    let length = put_case(text, case, &form, &order, nodes, output)?;
    if length > TEXT {
        return refuse(2, 0, 0);
    }
    if form.plan().len() > CUES {
        return refuse(4, 1, 7);
    }
    case.plan.replace(form.plan());
    Ok((order.len(), length))
}

/// Everything of the check call behind number 2 but the zeroing.
#[inline(always)]
fn check_with(
    text: &[u8],
    case: &mut Case,
    states: &mut [u64],
    nodes: &mut [Node],
    work: &mut [u32],
) -> Checked<Accepted> {
    let accepted = read(text, case, nodes)?;
    let rows = run(case, states)?;
    let nodes = &mut nodes[..accepted.nodes as usize];
    walk(case, nodes, work)?;
    first_broken(case, rows, nodes, work)?;
    Ok(accepted)
}

/// Clears what an acceptance, or a refusal, doesn't fill.
fn clear(accepted: Option<Accepted>, states: &mut [u64], nodes: &mut [Node], work: &mut [u32]) {
    let (rows, records) = accepted.map_or((0, 0), |it| (it.cues as usize + 1, it.nodes as usize));
    states[WORDS * rows..].fill(0);
    nodes[records..].fill(Node::default());
    work.fill(0);
}

/// The replay call: reads and runs only.
pub fn replay(text: &[u8], states: &mut [u64], work: &mut [u32]) -> Reply {
    let short = [states.len() < STATES, false, work.len() < WORK];
    let checked = within_limits(text, short).and_then(|()| {
        with_tables(text.len(), |case| {
            let accepted = read(text, case, &mut [])?;
            run(case, states)?;
            Ok(accepted)
        })
    });
    let rows = checked.map_or(0, |it| it.cues as usize + 1);
    states[WORDS * rows..].fill(0);
    work.fill(0);
    reply(checked)
}

fn reply(checked: Checked<Accepted>) -> Reply {
    match checked {
        Ok(Accepted { cues, nodes }) => Reply { number: 0, line: 0, item: 0, cues, nodes },
        Err(Refusal { number, line, item }) => Reply { number, line, item, cues: 0, nodes: 0 },
    }
}

/// Numbers 1 and 2.
fn within_limits(text: &[u8], short: [bool; 3]) -> Checked<()> {
    if let Some(before) = short.iter().position(|&short| short) {
        return refuse(1, 0, before + 1);
    }
    if text.len() > TEXT {
        return refuse(2, 0, 0);
    }
    Ok(())
}

/// Writes states 0 to k, or refuses the first cue that doesn't apply: number 5.
fn run<'a>(case: &Case, states: &'a mut [u64]) -> Checked<&'a [Set]> {
    let rows = &mut states.as_chunks_mut::<WORDS>().0[..case.plan.len() + 1];
    let mut state = case.initial;
    rows[0] = state;
    for (before, (&cue, row)) in case.plan.iter().zip(&mut rows[1..]).enumerate() {
        let [needed, forbidden, added, deleted] = &case.actions[cue as usize];
        if obstacles(&state, needed, forbidden) != 0 {
            return refuse(5, case.plan_line(), before + 1);
        }
        state = advanced(&state, added, deleted);
        *row = state;
    }
    Ok(rows)
}
