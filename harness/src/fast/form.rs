//! The plan form: numbers 17 to 19, and the case that it makes.

use super::case::Case;
use super::names::{Name, Names, Words};
use super::slots::{mixed, Slots};
use super::writing::Sink;
use super::{refuse, Checked, Node, NODES};
use std::mem::replace;
use std::ops::Range;

/// The definitions of a form, action lines first, then compound lines: of each its id, its action or method, and where its subtasks
/// end among all of them.
pub struct Form {
    ids: Vec<u32>,
    labels: Vec<u16>,
    ends: Vec<u32>,
    subtasks: Vec<u32>,
    /// How many are action lines.
    actions: usize,
    root: u32,
}

/// The first line is `==>`.
const FIRST_LINE: usize = 2;

impl Form {
    /// The actions of the action lines.
    pub fn plan(&self) -> &[u16] {
        &self.labels[..self.actions]
    }

    /// Where the subtasks of a definition are among all of them.
    #[inline(always)]
    fn subtasks_of(&self, at: usize) -> Range<usize> {
        let first = at.checked_sub(1).map_or(0, |before| self.ends[before]);
        first as usize..self.ends[at] as usize
    }

    fn count(&self) -> usize {
        self.ids.len()
    }

    fn root_line(&self) -> usize {
        FIRST_LINE + self.actions
    }

    /// The line of a definition; the root line stands between the two sorts.
    fn line_of(&self, at: usize) -> usize {
        FIRST_LINE + at + usize::from(at >= self.actions)
    }

    fn add(&mut self, id: u32, label: usize) {
        self.ids.push(id);
        self.labels.push(label as u16);
        self.ends.push(self.subtasks.len() as u32);
    }
}

/// Reads the form: numbers 17 and 18.
pub fn read_form(text: &[u8], case: &Case, names: &Names) -> Checked<Form> {
    let mut words = Words(text);
    let mut form = Form {
        ids: Vec::with_capacity(NODES),
        labels: Vec::with_capacity(NODES),
        ends: Vec::with_capacity(NODES),
        subtasks: Vec::with_capacity(NODES),
        actions: 0,
        root: 0,
    };
    if words.pass(b"==>\n").is_none() {
        return refuse(17, 1, 0);
    }
    read_actions(&mut words, case, names, &mut form)?;
    form.actions = form.count();
    let Some(root) = read_root(&mut words) else {
        return refuse(17, form.root_line(), 0);
    };
    form.root = root;
    read_compounds(&mut words, case, names, &mut form)?;
    if !words.0.is_empty() {
        return refuse(17, form.line_of(form.count()) + 1, 0);
    }
    Ok(form)
}

/// Reads the action lines and the first word of the root line.
#[inline(never)]
fn read_actions(words: &mut Words, case: &Case, names: &Names, form: &mut Form) -> Checked<()> {
    while words.pass(b"root ").is_none() {
        let line = FIRST_LINE + form.count();
        let Some((id, name)) = read_action(words).filter(|_| form.count() < NODES) else {
            return refuse(17, line, 0);
        };
        let Some(action) = names.tasks.number_of(&name).filter(|&task| task < case.actions.len()) else {
            return refuse(18, line, 0);
        };
        form.add(id, action);
    }
    Ok(())
}

#[inline(always)]
fn read_action<'a>(words: &mut Words<'a>) -> Option<(u32, Name<'a>)> {
    let id = words.id()?;
    words.pass(b" ")?;
    let name = words.name()?;
    words.pass(b"\n")?;
    Some((id, name))
}

/// Reads the root's id.
fn read_root(words: &mut Words) -> Option<u32> {
    let id = words.id()?;
    words.pass(b"\n")?;
    Some(id)
}

/// Reads the compound lines and the last line.
#[inline(never)]
fn read_compounds(words: &mut Words, case: &Case, names: &Names, form: &mut Form) -> Checked<()> {
    while words.pass(b"<==\n").is_none() {
        let (line, first) = (form.line_of(form.count()), form.subtasks.len());
        let Some((id, task, name)) = read_compound(words, &mut form.subtasks).filter(|_| form.count() < NODES) else {
            return refuse(17, line, 0);
        };
        let Some(method) = names.methods.number_of(&name) else {
            return refuse(18, line, 0);
        };
        let due = &case.methods[method];
        // The name of the method's own task: no other name is that of a compound task which has this method.
        if !names.tasks.has(usize::from(due.task), &task) || due.subtasks.len() != form.subtasks.len() - first {
            return refuse(18, line, 0);
        }
        form.add(id, method);
    }
    Ok(())
}

/// Reads a compound line: id, task and method; its subtasks are put behind the others.
#[inline(always)]
fn read_compound<'a>(words: &mut Words<'a>, subtasks: &mut Vec<u32>) -> Option<(u32, Name<'a>, Name<'a>)> {
    let id = words.id()?;
    words.pass(b" ")?;
    let task = words.name()?;
    words.pass(b" -> ")?;
    let method = words.name()?;
    while words.pass(b"\n").is_none() {
        words.pass(b" ")?;
        subtasks.push(words.id()?);
    }
    Some((id, task, method))
}

// ---------------------------------------------------------------- ids

/// No definition.
const NONE: u32 = u32::MAX;

/// A form whose ids are looked up. Of the definitions of one id the first is blamed for its faults, so that no other line of it needs to
/// be marked.
struct Tree<'a> {
    form: &'a Form,
    slots: Slots,
    /// For each subtask the first definition of its id.
    subtasks: Vec<u32>,
    faulty: Vec<bool>,
    /// For each definition another one of the same id: from the first on all of them.
    again: Vec<u32>,
}

/// The definitions in preorder from the root, or number 19.
pub fn preorder(form: &Form) -> Checked<Vec<u32>> {
    let count = form.count();
    let (slots, subtasks) = (Slots::of(count), Vec::with_capacity(form.subtasks.len()));
    let mut tree = Tree { form, slots, subtasks, faulty: vec![false; count], again: vec![NONE; count] };
    tree.enter_all();
    let root = tree.look_up(form.root).ok();
    tree.look_up_subtasks(root);
    let reached = tree.walk(root);
    let first = tree.faulty.iter().position(|&faulty| faulty).map(|at| form.line_of(at));
    let no_root = root.is_none().then(|| form.root_line());
    match first.into_iter().chain(no_root).min() {
        Some(line) => refuse(19, line, 0),
        None => Ok(reached),
    }
}

impl Tree<'_> {
    /// The first definition of an id, or the free slot where it would be found.
    #[inline(always)]
    fn look_up(&self, id: u32) -> Result<usize, usize> {
        self.slots.look_up(mixed(0, id.into()), |at| self.form.ids[at] == id)
    }

    fn enter_all(&mut self) {
        for (at, &id) in self.form.ids.iter().enumerate() {
            match self.look_up(id) {
                Err(slot) => self.slots.put(slot, at),
                Ok(first) => {
                    self.faulty[first] = true;
                    self.again[at] = replace(&mut self.again[first], at as u32);
                }
            }
        }
    }

    /// Marks what is twice a subtask, the root if it is one, and what has a subtask that is never defined.
    fn look_up_subtasks(&mut self, root: Option<usize>) {
        let form = self.form;
        // The root can be a subtask no more.
        let mut taken = vec![false; form.count()];
        root.into_iter().for_each(|root| taken[root] = true);
        for at in form.actions..form.count() {
            for &id in &form.subtasks[form.subtasks_of(at)] {
                let subtask = self.look_up(id);
                match subtask {
                    Ok(subtask) => self.faulty[subtask] |= replace(&mut taken[subtask], true),
                    Err(_) => self.faulty[at] = true,
                }
                self.subtasks.push(subtask.map_or(NONE, |subtask| subtask as u32));
            }
        }
    }

    /// Goes through what is reached from the root, in preorder, and marks what isn't.
    fn walk(&mut self, root: Option<usize>) -> Vec<u32> {
        let form = self.form;
        let mut todo: Vec<u32> = Vec::with_capacity(NODES);
        todo.extend(root.map(|root| root as u32));
        let mut order = Vec::with_capacity(form.count());
        let mut reached = vec![false; form.count()];
        while let Some(at) = todo.pop() {
            // Never twice in a form without faults.
            if at == NONE || replace(&mut reached[at as usize], true) {
                continue;
            }
            order.push(at);
            todo.extend(self.subtasks[form.subtasks_of(at as usize)].iter().rev());
            todo.extend(Some(self.again[at as usize]).filter(|&again| again != NONE));
        }
        if order.len() < form.count() {
            self.faulty.iter_mut().zip(&reached).for_each(|(faulty, &reached)| *faulty |= !reached);
        }
        order
    }
}

// ---------------------------------------------------------------- the case made

/// Writes the case to the front of the output and gives back its length, or number 14; its nodes become records, as if they were read.
pub fn put_case(
    text: &[u8],
    case: &Case,
    form: &Form,
    order: &[u32],
    nodes: &mut [Node],
    output: &mut [u8],
) -> Checked<usize> {
    let mut sink = Sink { output, length: 0 };
    put_head(text, case, form, &mut sink);
    for (&at, record) in order.iter().zip(nodes) {
        *record = form.record(at as usize);
        let &mut Node { letter, label, place, .. } = record;
        let line = Stretch::EMPTY.byte(b"DEL"[letter as usize - 1]).field(label);
        sink.put_stretch(if letter == 1 { line } else { line.field(place) }.byte(b'\n'));
    }
    if sink.length > sink.output.len() {
        return refuse(14, 0, sink.length);
    }
    Ok(sink.length)
}

/// Puts out all lines ahead of the nodes.
fn put_head(text: &[u8], case: &Case, form: &Form, sink: &mut Sink) {
    let feed = text.iter().position(|&byte| byte == b'\n').expect("a header");
    let last_comma = |end: usize| text[..end].iter().rposition(|&byte| byte == b',').expect("its fields");
    sink.put(&text[..last_comma(last_comma(feed))]);
    sink.put_stretch(Stretch::EMPTY.field(form.actions as u32).field(form.count() as u32));
    sink.put(&text[feed..text.len() - usize::from(case.plan_left)]);
    sink.put(b"P");
    for &action in form.plan() {
        sink.put_stretch(Stretch::EMPTY.field(action.into()));
    }
    sink.put(b"\n");
}

impl Form {
    /// The record of a definition, without the span of its subtasks.
    #[inline(always)]
    fn record(&self, at: usize) -> Node {
        let label = self.labels[at].into();
        if at < self.actions {
            let place = at as u32 + 1;
            return Node { letter: 3, label, place, start: 2 * place, end: 2 * place };
        }
        let empty = u32::from(self.subtasks_of(at).is_empty());
        Node { letter: 1 + empty, label, place: 0, start: empty, end: empty }
    }
}

/// A short stretch of a line, at most 16 bytes, as one number: it is put out in one piece.
#[derive(Clone, Copy)]
struct Stretch {
    bytes: u128,
    length: usize,
}

impl Stretch {
    const EMPTY: Stretch = Stretch { bytes: 0, length: 0 };

    #[inline(always)]
    fn and(self, bytes: u64, length: usize) -> Stretch {
        Stretch { bytes: self.bytes | u128::from(bytes) << (8 * self.length), length: self.length + length }
    }

    #[inline(always)]
    fn byte(self, byte: u8) -> Stretch {
        self.and(byte.into(), 1)
    }

    /// A comma and a number of at most four digits; no branch goes by how many they are.
    #[inline(always)]
    fn field(self, number: u32) -> Stretch {
        let digit = |unit: u32| b'0' + (number / unit % 10) as u8;
        let digits = u32::from_le_bytes([digit(1_000), digit(100), digit(10), digit(1)]);
        let zeros = usize::from(number < 1_000) + usize::from(number < 100) + usize::from(number < 10);
        self.and(u64::from(digits >> (8 * zeros)) << 8 | u64::from(b','), 5 - zeros)
    }
}

impl Sink<'_> {
    /// Puts out a stretch with the zeros behind it, to be written over.
    #[inline(always)]
    fn put_stretch(&mut self, stretch: Stretch) {
        let bytes = stretch.bytes.to_le_bytes();
        match self.output.get_mut(self.length..).and_then(|room| room.first_chunk_mut()) {
            Some(room) => {
                *room = bytes;
                self.length += stretch.length;
            }
            None => self.put(&bytes[..stretch.length]),
        }
    }
}
