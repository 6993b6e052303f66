//! The competition's plan form, read plainly, and the case text that is made of it. The verdict is not made here.

use crate::case::{Case, Claim, Unread};
use crate::names::{quoted, Line, Lines, Names, PLAN_FORM};
use std::collections::{HashMap, HashSet};
use std::ops::Range;

/// How many action and compound lines there may be together.
const ENTRIES: usize = 3_000;

const FRONT: &str = "an action line, `id name`, or the root line, `root id`";
const BACK: &str = "a compound line, `id task -> method` and an id for each subtask, or `<==`";

/// The text that the import call makes of a form, with every empty task in gap 0. The case was read from the text, whole.
pub fn made(text: &[u8], case: &Case, names: &Names, form: &[u8]) -> Result<Vec<u8>, Unread> {
    let form = read(case, names, form)?;
    let ids = Ids::of(&form);
    match first_wrong(&form, &ids) {
        Some(fault) => Err(fault),
        None => Ok(written(text, case, &form, &ids)),
    }
}

struct Form<'a> {
    /// Action lines, in plan order, then compound lines.
    entries: Vec<Entry<'a>>,
    /// How many are action lines.
    cues: usize,
    root: u32,
    root_line: Line<'a>,
}

/// A line that defines an id.
struct Entry<'a> {
    line: Line<'a>,
    id: u32,
    label: Label,
    /// The ids of the subtasks; an action has none.
    subtasks: Vec<u32>,
}

#[derive(Clone, Copy)]
enum Label {
    Action(u32),
    Method(u32),
}

// ---------------------------------------------------------------- line by line

struct Reader<'a> {
    lines: Lines<'a>,
    case: &'a Case,
    tasks: HashMap<&'a [u8], u32>,
    methods: HashMap<&'a [u8], u32>,
    entries: Vec<Entry<'a>>,
}

fn read<'a>(case: &'a Case, names: &'a Names, form: &'a [u8]) -> Result<Form<'a>, Unread> {
    let lines = Lines::new(form, PLAN_FORM);
    let mut reader = Reader { lines, case, tasks: by_name(&names.tasks), methods: by_name(&names.methods), entries: Vec::new() };
    reader.read_opening()?;
    let (root, root_line) = reader.read_front()?;
    let cues = reader.entries.len();
    reader.read_back()?;
    reader.lines.end("the end of the text, after `<==`")?;
    Ok(Form { entries: reader.entries, cues, root, root_line })
}

fn by_name(names: &[String]) -> HashMap<&[u8], u32> {
    names.iter().map(|name| name.as_bytes()).zip(0..).collect()
}

impl<'a> Reader<'a> {
    fn read_opening(&mut self) -> Result<(), Unread> {
        let due = "`==>`, the first line";
        let mut line = self.lines.next(due)?;
        line.word(b"==>", due)?;
        line.end("the end of the line, after `==>`")
    }

    /// The action lines and the root line: the root's id.
    fn read_front(&mut self) -> Result<(u32, Line<'a>), Unread> {
        loop {
            let mut line = self.lines.next(FRONT)?;
            if line.is_next(b"root") {
                line.word(b"root", FRONT)?;
                let (root, _) = line.plain("the root's id")?;
                line.end("the end of the line: there is one root")?;
                return Ok((root, line));
            }
            self.read_action(line)?;
        }
    }

    /// The compound lines and the last line.
    fn read_back(&mut self) -> Result<(), Unread> {
        loop {
            let mut line = self.lines.next(BACK)?;
            if line.is_next(b"<==") {
                line.word(b"<==", BACK)?;
                return line.end("the end of the line, after `<==`");
            }
            self.read_compound(line)?;
        }
    }

    fn read_action(&mut self, mut line: Line<'a>) -> Result<(), Unread> {
        let (id, _) = line.plain(FRONT)?;
        let name = line.name("the action's name")?;
        line.end("the end of the line: ahead of the root line stand only action lines, `id name`")?;
        self.counted(&line, "the root line")?;
        let action = self.task_named(&line, name, false)?;
        self.entries.push(Entry { line, id, label: Label::Action(action), subtasks: Vec::new() });
        Ok(())
    }

    fn read_compound(&mut self, mut line: Line<'a>) -> Result<(), Unread> {
        let (id, _) = line.plain(BACK)?;
        let task = line.name("the compound task's name")?;
        line.word(b"->", "`->`: after the root line stand only compound lines, `id task -> method` and the subtasks' ids")?;
        let method = line.name("the method's name")?;
        let subtasks = read_subtasks(&mut line)?;
        self.counted(&line, "`<==`")?;
        let task = self.task_named(&line, task, true)?;
        let method = self.method_named(&line, method, task, subtasks.len())?;
        self.entries.push(Entry { line, id, label: Label::Method(method), subtasks });
        Ok(())
    }

    /// There may be one more action or compound line.
    fn counted(&self, line: &Line, due: &str) -> Result<(), Unread> {
        if self.entries.len() < ENTRIES {
            return Ok(());
        }
        let due = format!("{due}, after at most 3,000 action and compound lines");
        Err(line.fault(17, 0..line.bytes.len(), "the 3,001st action or compound line", due))
    }

    /// The action, or the compound task, of a name.
    fn task_named(&self, line: &Line, place: Range<usize>, compound: bool) -> Result<u32, Unread> {
        let actions = self.case.header.unwrap_or_default().actions;
        let (other, due) =
            if compound { ("an action", "a compound task's name") } else { ("a compound task", "an action's name") };
        let name = &line.bytes[place.clone()];
        let wrong = match self.tasks.get(name) {
            Some(&task) if (task >= actions) == compound => return Ok(task),
            Some(task) => format!("the name {} stands for task {task}, {other}", quoted(name)),
            None => format!("no task has the name {}", quoted(name)),
        };
        Err(line.fault(18, place, wrong, due))
    }

    /// The method of a name: one of the task, with as many subtasks as there are ids.
    fn method_named(&self, line: &Line, place: Range<usize>, task: u32, ids: usize) -> Result<u32, Unread> {
        let name = &line.bytes[place.clone()];
        let number = self.methods.get(name).copied().unwrap_or(u32::MAX);
        let Some(method) = self.case.methods.get(number as usize) else {
            let wrong = format!("no method has the name {}", quoted(name));
            return Err(line.fault(18, place, wrong, "a method's name"));
        };
        if method.task != task {
            let wrong = format!("the name {} stands for method {number}, which is one of task {}", quoted(name), method.task);
            return Err(line.fault(18, place, wrong, format!("the name of a method of task {task}")));
        }
        let count = method.subtasks.len();
        if count != ids {
            let wrong = format!("{ids} subtask id{}", if ids == 1 { "" } else { "s" });
            let due = format!("{count}, as many as method {number}, {}, has subtasks", quoted(name));
            return Err(line.fault(18, line.place(4 + count), wrong, due));
        }
        Ok(number)
    }
}

/// The ids at the end of a compound line.
fn read_subtasks(line: &mut Line) -> Result<Vec<u32>, Unread> {
    let mut ids = Vec::new();
    while !line.is_over() {
        let (id, _) = line.plain("a subtask's id, or the end of the line")?;
        ids.push(id);
    }
    Ok(ids)
}

// ---------------------------------------------------------------- the ids of all lines

struct Ids {
    /// The entries that define an id.
    defined: HashMap<u32, Vec<usize>>,
    /// The lines that have an id among their subtasks, as often as they have it.
    used: HashMap<u32, Vec<u32>>,
    /// The ids that the root leads to through any lines that define them.
    reached: HashSet<u32>,
}

impl Ids {
    fn of(form: &Form) -> Ids {
        let mut ids = Ids { defined: HashMap::new(), used: HashMap::new(), reached: HashSet::new() };
        for (index, entry) in form.entries.iter().enumerate() {
            ids.enter(index, entry);
        }
        ids.reach(form);
        ids
    }

    fn enter(&mut self, index: usize, entry: &Entry) {
        self.defined.entry(entry.id).or_default().push(index);
        for &id in &entry.subtasks {
            self.used.entry(id).or_default().push(entry.line.number);
        }
    }

    fn reach(&mut self, form: &Form) {
        let mut next = vec![form.root];
        while let Some(id) = next.pop() {
            if self.reached.insert(id) {
                next.extend(self.defining(id).iter().flat_map(|&index| &form.entries[index].subtasks));
            }
        }
    }

    fn defining(&self, id: u32) -> &[usize] {
        self.defined.get(&id).map_or(&[], |entries| entries)
    }

    fn using(&self, id: u32) -> &[u32] {
        self.used.get(&id).map_or(&[], |lines| lines)
    }
}

/// The fault of the first line that has one: the root line stands between the action lines and the compound lines.
fn first_wrong(form: &Form, ids: &Ids) -> Option<Unread> {
    let (cues, tasks) = form.entries.split_at(form.cues);
    let wrong = |entry: &Entry| wrong_own(form, ids, entry).or_else(|| wrong_used(ids, entry));
    let wrong_root = || {
        let fault = || undefined(&form.root_line, 1, form.root);
        ids.defining(form.root).is_empty().then(fault)
    };
    cues.iter().find_map(wrong).or_else(wrong_root).or_else(|| tasks.iter().find_map(wrong))
}

/// What is wrong with the id that a line defines.
fn wrong_own(form: &Form, ids: &Ids, entry: &Entry) -> Option<Unread> {
    let id = entry.id;
    let (wrong, due) = match (ids.defining(id), ids.using(id)) {
        (&[first, second, ..], _) => {
            let [first, second] = [first, second].map(|index| form.entries[index].line.number);
            (format!("id {id} is defined twice, on lines {first} and {second}"), "an id that one line defines")
        }
        (_, &[first, second, ..]) => {
            let lines = if first == second { format!("line {first}") } else { format!("lines {first} and {second}") };
            (format!("id {id} stands twice among the subtasks, on {lines}"), "an id that is a subtask once")
        }
        (_, &[line]) if id == form.root => {
            (format!("id {id} is the root's, and a subtask on line {line}"), "a root that is no line's subtask")
        }
        _ if !ids.reached.contains(&id) => {
            let why = unreached(form, ids, entry);
            (format!("id {id} isn't reached from the root: {why}"), "an id that the root leads to through subtasks")
        }
        _ => return None,
    };
    Some(entry.line.fault(19, entry.line.place(0), wrong, due))
}

fn unreached(form: &Form, ids: &Ids, entry: &Entry) -> String {
    match *ids.using(entry.id) {
        _ if ids.defining(form.root).is_empty() => format!("no line defines the root's id, {}", form.root),
        [] => "it is no line's subtask".into(),
        [line, ..] if line == entry.line.number => "it is a subtask of its own line".into(),
        [line, ..] => format!("it is a subtask on line {line}, which isn't reached either"),
    }
}

/// The first subtask of a line whose id no line defines.
fn wrong_used(ids: &Ids, entry: &Entry) -> Option<Unread> {
    let index = entry.subtasks.iter().position(|&id| ids.defining(id).is_empty())?;
    Some(undefined(&entry.line, 4 + index, entry.subtasks[index]))
}

fn undefined(line: &Line, word: usize, id: u32) -> Unread {
    line.fault(19, line.place(word), format!("no line defines id {id}"), "the id of an action line or of a compound line")
}

// ---------------------------------------------------------------- the text made

/// The header with other counts, the model as it stands, the form's plan and its nodes.
fn written(text: &[u8], case: &Case, form: &Form, ids: &Ids) -> Vec<u8> {
    let header = case.header.unwrap_or_default();
    let counts = [header.propositions, header.actions, header.tasks - header.actions, header.methods, header.goal];
    let counts = counts.into_iter().chain([form.cues as u32, form.entries.len() as u32]);
    let mut made = line_of('N', counts).into_bytes();
    let model = case.plan_line.unwrap_or(0).saturating_sub(2);
    made.extend(text.split_inclusive(|&byte| byte == b'\n').skip(1).take(model as usize).flatten());
    made.extend(line_of('P', form.entries.iter().filter_map(action_of)).bytes());
    made.extend(nodes(case, form, ids).iter().flat_map(|claim| format!("{}\n", claim.text()).into_bytes()));
    made
}

fn line_of(letter: char, numbers: impl Iterator<Item = u32>) -> String {
    let fields: String = numbers.map(|number| format!(",{number}")).collect();
    format!("{letter}{fields}\n")
}

fn action_of(entry: &Entry) -> Option<u32> {
    match entry.label {
        Label::Action(action) => Some(action),
        Label::Method(_) => None,
    }
}

/// The nodes in preorder: past 19 each id is defined once and used once, so that each entry comes up once.
fn nodes(case: &Case, form: &Form, ids: &Ids) -> Vec<Claim> {
    let mut nodes = Vec::new();
    let mut next = vec![form.root];
    while let Some(&index) = next.pop().and_then(|id| ids.defining(id).first()) {
        nodes.push(claim(case, form, index));
        next.extend(form.entries[index].subtasks.iter().rev());
    }
    nodes
}

/// An action line is the cue of its place among them, from 1.
fn claim(case: &Case, form: &Form, index: usize) -> Claim {
    match form.entries[index].label {
        Label::Action(action) => Claim::Leaf { action, position: index as u32 + 1 },
        Label::Method(method) if case.method(method).subtasks.is_empty() => Claim::Empty { method, gap: 0 },
        Label::Method(method) => Claim::Decomposed { method },
    }
}
