//! Card 6 of document 02: a plan in the planning competition's form becomes a case, and the gaps of that case are found.
//!
//! The name list is read into two vectors (`read_names`), the form into one of definitions (`read_form`), each line first by its
//! shape (number 17) and then by what it says (18). The ids are judged when all lines are read (`first_faulty`): 19. Then the case is
//! made (`make`), and `find_gaps` judges it. Every name and every id is looked up by going through the whole list.

use super::{find_gaps, read_with, refuse, Case, Checked, Node, Refusal, NODES_ASKED, STATES_ASKED, WORK_ASKED};
use cuecheck::{Imported, Placed};

/// The most action and compound lines, counted together.
const DEFINITIONS: usize = 3_000;

/// The import call: numbers 1 to 4 of the case, 17 and 18 of the name list, 17 to 19 of the form, 14, and then whatever is found of the
/// case made. That case is put out as it is made, with gaps 0.
pub fn import(
    text: &[u8],
    names: &[u8],
    form: &[u8],
    states: &mut [u64],
    nodes: &mut [Node],
    work: &mut [u32],
    output: &mut [u8],
) -> Imported {
    let asked = [(states.len() < STATES_ASKED, 1), (nodes.len() < NODES_ASKED, 2), (work.len() < WORK_ASKED, 3)];
    output.fill(0);
    let imported = made_case(text, names, form, &asked, output.len()).and_then(|made| {
        let placed = find_gaps(&made, states, nodes, work).result()?;
        output[..made.len()].copy_from_slice(&made);
        Ok((placed, made.len() as u32))
    });
    match imported {
        Ok((Placed { cues, nodes, tried }, length)) => {
            Imported { number: 0, line: 0, item: 0, cues, nodes, tried, length }
        }
        Err(Refusal { number, line, item }) => {
            states.fill(0);
            nodes.fill(Node::default());
            work.fill(0);
            Imported { number, line, item, cues: 0, nodes: 0, tried: 0, length: 0 }
        }
    }
}

/// The case that the form makes, if so many bytes have room for it.
fn made_case(text: &[u8], names: &[u8], form: &[u8], asked: &[(bool, u32)], room: usize) -> Checked<Vec<u8>> {
    let case = read_with(text, asked)?;
    let names = read_names(names, &case)?;
    let form = read_form(form, &case, &names)?;
    if let Some(line) = first_faulty(&form) {
        return refuse(19, line, 0);
    }
    let made = make(text, &form);
    if made.len() > room {
        return refuse(14, 0, made.len() as u32);
    }
    Ok(made)
}

// ---------------------------------------------------------------- lines and words

/// The lines of the name list or of the form, one after the other.
struct Lines<'a> {
    rest: &'a [u8],
    line: u32,
    /// The item of a refusal: 1 in the name list, 0 in the form.
    item: u32,
}

impl<'a> Lines<'a> {
    fn of(text: &'a [u8], item: u32) -> Lines<'a> {
        Lines { rest: text, line: 0, item }
    }

    /// The next line, which is due, without its line feed.
    fn due(&mut self) -> Checked<&'a [u8]> {
        self.line += 1;
        let Some(feed) = self.rest.iter().position(|&byte| byte == b'\n') else {
            return self.misshapen();
        };
        let line = &self.rest[..feed];
        self.rest = &self.rest[feed + 1..];
        Ok(line)
    }

    /// The words of the next line. A space at either end, or two together, give an empty word, which is no id and no name.
    fn due_words(&mut self) -> Checked<Vec<&'a [u8]>> {
        Ok(self.due()?.split(|&byte| byte == b' ').collect())
    }

    /// No line is due any more.
    fn end(&mut self) -> Checked<()> {
        self.line += 1;
        if !self.rest.is_empty() {
            return self.misshapen();
        }
        Ok(())
    }

    /// What is wrong with the shape of the line.
    fn misshapen<T>(&self) -> Checked<T> {
        refuse(17, self.line, self.item)
    }

    /// What is wrong with its names, or with the number of subtasks.
    fn misnamed<T>(&self) -> Checked<T> {
        refuse(18, self.line, self.item)
    }
}

/// An id, if the word is one: a plain number.
fn id_in(word: &[u8]) -> Option<u32> {
    let digits = std::str::from_utf8(word).ok().filter(|word| word.bytes().all(|byte| byte.is_ascii_digit()))?;
    // The number is none if there are no digits, or if it is over 4,294,967,295.
    let number: u32 = digits.parse().ok()?;
    (digits == "0" || !digits.starts_with('0')).then_some(number)
}

/// The ids of these words, if each is one.
fn ids_in(words: &[&[u8]]) -> Option<Vec<u32>> {
    words.iter().map(|word| id_in(word)).collect()
}

fn is_name(word: &[u8]) -> bool {
    !word.is_empty() && word.iter().all(|&byte| (33..=126).contains(&byte) && byte != b',')
}

// ---------------------------------------------------------------- the name list

/// The names of all tasks and of all methods, by their numbers.
struct Names<'a> {
    tasks: Vec<&'a [u8]>,
    methods: Vec<&'a [u8]>,
}

fn read_names<'a>(text: &'a [u8], case: &Case) -> Checked<Names<'a>> {
    let mut lines = Lines::of(text, 1);
    let tasks = read_listed(&mut lines, case.tasks as usize)?;
    let methods = read_listed(&mut lines, case.methods.len())?;
    lines.end()?;
    Ok(Names { tasks, methods })
}

/// Reads so many lines, numbered from 0; none of their names may come again.
fn read_listed<'a>(lines: &mut Lines<'a>, count: usize) -> Checked<Vec<&'a [u8]>> {
    let mut listed = Vec::new();
    for number in 0..count {
        let Some(name) = lines.due()?.strip_prefix(format!("{number},").as_bytes()).filter(|name| is_name(name)) else {
            return lines.misshapen();
        };
        if listed.contains(&name) {
            return lines.misnamed();
        }
        listed.push(name);
    }
    Ok(listed)
}

/// The number of a name.
fn number_of(name: &[u8], listed: &[&[u8]]) -> Option<u32> {
    listed.iter().position(|&other| other == name).map(|number| number as u32)
}

// ---------------------------------------------------------------- the form

/// What an action line or a compound line says of its id.
struct Definition {
    line: u32,
    id: u32,
    node: Defined,
    subtasks: Vec<u32>,
}

#[derive(Clone, Copy)]
enum Defined {
    Action(u32),
    Method(u32),
}

/// A form that was read: its definitions in the order of their lines, the action lines first.
struct Form {
    definitions: Vec<Definition>,
    /// How many of them are action lines.
    actions: usize,
    root: u32,
    root_line: u32,
}

fn read_form(text: &[u8], case: &Case, names: &Names) -> Checked<Form> {
    let mut lines = Lines::of(text, 0);
    if lines.due()? != b"==>" {
        return lines.misshapen();
    }
    let mut definitions = Vec::new();
    let root = loop {
        let words = lines.due_words()?;
        if words[0] == b"root" {
            break read_root(&lines, &words)?;
        }
        definitions.push(read_action(&lines, &words, definitions.len(), case, names)?);
    };
    let (actions, root_line) = (definitions.len(), lines.line);
    loop {
        let words = lines.due_words()?;
        if words == [b"<=="] {
            break;
        }
        definitions.push(read_compound(&lines, &words, definitions.len(), case, names)?);
    }
    lines.end()?;
    Ok(Form { definitions, actions, root, root_line })
}

fn read_root(lines: &Lines, words: &[&[u8]]) -> Checked<u32> {
    match ids_in(&words[1..]).as_deref() {
        Some(&[id]) => Ok(id),
        _ => lines.misshapen(),
    }
}

/// Reads an action line that has so many definitions ahead of it.
fn read_action(lines: &Lines, words: &[&[u8]], ahead: usize, case: &Case, names: &Names) -> Checked<Definition> {
    let &[id, name] = words else {
        return lines.misshapen();
    };
    let Some(id) = id_in(id).filter(|_| is_name(name) && ahead < DEFINITIONS) else {
        return lines.misshapen();
    };
    let Some(action) = number_of(name, &names.tasks).filter(|&task| !case.is_compound(task)) else {
        return lines.misnamed();
    };
    Ok(Definition { line: lines.line, id, node: Defined::Action(action), subtasks: Vec::new() })
}

/// Reads a compound line that has so many definitions ahead of it.
fn read_compound(lines: &Lines, words: &[&[u8]], ahead: usize, case: &Case, names: &Names) -> Checked<Definition> {
    let &[id, task, b"->", method, ref subtasks @ ..] = words else {
        return lines.misshapen();
    };
    let shaped = is_name(task) && is_name(method) && ahead < DEFINITIONS;
    let (Some(id), Some(subtasks), true) = (id_in(id), ids_in(subtasks), shaped) else {
        return lines.misshapen();
    };
    let Some(task) = number_of(task, &names.tasks).filter(|&task| case.is_compound(task)) else {
        return lines.misnamed();
    };
    let Some(method) = number_of(method, &names.methods) else {
        return lines.misnamed();
    };
    if case.methods[method as usize].task != task || case.subtasks_of(method).len() != subtasks.len() {
        return lines.misnamed();
    }
    Ok(Definition { line: lines.line, id, node: Defined::Method(method), subtasks })
}

// ---------------------------------------------------------------- ids

impl Form {
    /// How many lines define an id.
    fn times_defined(&self, id: u32) -> usize {
        self.definitions.iter().filter(|definition| definition.id == id).count()
    }

    /// How many times an id is a subtask, of whichever lines.
    fn times_subtask(&self, id: u32) -> usize {
        self.definitions.iter().flat_map(|definition| &definition.subtasks).filter(|&&subtask| subtask == id).count()
    }

    /// Which definitions are reached from the root: all of its id, and all of each id that is a subtask of one that is reached.
    fn reached(&self) -> Vec<bool> {
        let mut reached = vec![false; self.definitions.len()];
        let mut todo = vec![self.root];
        while let Some(id) = todo.pop() {
            for (at, definition) in self.definitions.iter().enumerate() {
                if definition.id == id && !reached[at] {
                    reached[at] = true;
                    todo.extend(&definition.subtasks);
                }
            }
        }
        reached
    }
}

/// The least line that has any of the faults of number 19.
fn first_faulty(form: &Form) -> Option<u32> {
    let never_defined = |&id: &u32| form.times_defined(id) == 0;
    let reached = form.reached();
    let faulty = form.definitions.iter().zip(reached).filter(|(definition, reached)| {
        let &Definition { id, ref subtasks, .. } = *definition;
        form.times_defined(id) > 1
            || form.times_subtask(id) > 1
            || id == form.root && form.times_subtask(id) > 0
            || !reached
            || subtasks.iter().any(never_defined)
    });
    let root_line = never_defined(&form.root).then_some(form.root_line);
    faulty.map(|(definition, _)| definition.line).chain(root_line).min()
}

// ---------------------------------------------------------------- the case made

/// The case's own lines up to the P line, with the form's k and node count in the header, then the form's plan and tree.
fn make(text: &[u8], form: &Form) -> Vec<u8> {
    let mut lines = text.split_inclusive(|&byte| byte == b'\n');
    let header: Vec<&[u8]> = lines.next().expect("a header").split(|&byte| byte == b',').collect();
    let mut made = header[..6].join(&b',');
    made.extend(format!(",{},{}\n", form.actions, form.definitions.len()).into_bytes());
    made.extend(lines.take_while(|line| line[0] != b'P').flatten());
    made.push(b'P');
    for definition in &form.definitions {
        if let Defined::Action(action) = definition.node {
            made.extend(format!(",{action}").into_bytes());
        }
    }
    made.push(b'\n');
    put_nodes(form, form.root, &mut made);
    made
}

/// Puts out the node line of an id, then those of its subtasks in their order. The n-th action line has position n.
fn put_nodes(form: &Form, id: u32, made: &mut Vec<u8>) {
    let at = form.definitions.iter().position(|definition| definition.id == id).expect("a line that defines the id");
    let Definition { node, ref subtasks, .. } = form.definitions[at];
    let line = match node {
        Defined::Action(action) => format!("L,{action},{}\n", at + 1),
        Defined::Method(method) if subtasks.is_empty() => format!("E,{method},0\n"),
        Defined::Method(method) => format!("D,{method}\n"),
    };
    made.extend(line.into_bytes());
    for &subtask in subtasks {
        put_nodes(form, subtask, made);
    }
}
