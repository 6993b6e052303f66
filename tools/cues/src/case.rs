//! A case text, read again plainly, as far as it can be read: what the words and the pages are made of. The verdict is not made here.

use cuecheck::{Set, TEXT, WORDS};
use std::ops::{Range, RangeInclusive};

const PROPOSITIONS: u32 = 512;
const TASKS: u32 = 1_024;
const METHODS: u32 = 2_048;
const CUES: u32 = 1_000;
const NODES: u32 = 3_000;
const SUBTASKS: u32 = 32;
const CONSTRAINTS: u32 = 64;

/// The header's numbers. Tasks below `actions` are actions, the others compound.
#[derive(Clone, Copy, Debug, Default)]
pub struct Header {
    pub propositions: u32,
    pub actions: u32,
    pub tasks: u32,
    pub methods: u32,
    pub goal: u32,
    pub cues: u32,
    pub nodes: u32,
}

#[derive(Debug, Default)]
pub struct Action {
    pub line: u32,
    pub needed: Set,
    pub forbidden: Set,
    pub added: Set,
    pub deleted: Set,
}

#[derive(Debug)]
pub struct Method {
    pub line: u32,
    pub task: u32,
    pub subtasks: Vec<u32>,
    pub constraints: Vec<Constraint>,
}

/// U and V are sets of subtasks, bit j for subtask j; 0 is the whole task.
#[derive(Clone, Copy, Debug)]
pub enum Kind {
    Order { first: u32, second: u32 },
    Before { set: u32 },
    After { set: u32 },
    Between { from: u32, to: u32 },
}

#[derive(Debug)]
pub struct Constraint {
    pub line: u32,
    /// The line as it stands.
    pub text: String,
    pub kind: Kind,
    /// Of a condition: the proposition, and whether it is asked to be true.
    pub proposition: u32,
    pub truth: bool,
}

/// What a node line claims.
#[derive(Clone, Copy, Debug, PartialEq, Eq)]
pub enum Claim {
    Decomposed { method: u32 },
    Empty { method: u32, gap: u32 },
    Leaf { action: u32, position: u32 },
}

/// What was read of a case: all of it, or what stands ahead of the first fault.
#[derive(Debug, Default)]
pub struct Case {
    pub header: Option<Header>,
    pub initial: Option<Set>,
    pub actions: Vec<Action>,
    pub methods: Vec<Method>,
    pub plan: Vec<u32>,
    /// The P line, once the whole of it is read.
    pub plan_line: Option<u32>,
    pub claims: Vec<Claim>,
}

/// Why a text cannot be read: number 2, 3 or 4, with the line as it stands and the bytes of it that are marked.
#[derive(Clone, Debug)]
pub struct Unread {
    pub number: u32,
    pub line: u32,
    pub item: u32,
    /// What is wrong there.
    pub wrong: String,
    /// What was due there.
    pub due: String,
    pub text: Vec<u8>,
    pub mark: Range<usize>,
}

impl Case {
    /// The line of a node; of the one past the last too.
    pub fn node_line(&self, node: usize) -> u32 {
        self.plan_line.unwrap_or(0) + 1 + node as u32
    }

    pub fn method(&self, method: u32) -> &Method {
        &self.methods[method as usize]
    }

    /// The task that a node is of: a leaf's action, or the task of its method.
    pub fn own_task(&self, claim: Claim) -> u32 {
        match claim {
            Claim::Leaf { action, .. } => action,
            Claim::Decomposed { method } | Claim::Empty { method, .. } => self.method(method).task,
        }
    }

    /// The method of a D or E line.
    pub fn method_of(&self, claim: Claim) -> Option<&Method> {
        match claim {
            Claim::Leaf { .. } => None,
            Claim::Decomposed { method } | Claim::Empty { method, .. } => Some(self.method(method)),
        }
    }
}

impl Claim {
    /// The line as it stands, but for the line feed: a claim that was read has one spelling.
    pub fn text(self) -> String {
        match self {
            Claim::Decomposed { method } => format!("D,{method}"),
            Claim::Empty { method, gap } => format!("E,{method},{gap}"),
            Claim::Leaf { action, position } => format!("L,{action},{position}"),
        }
    }
}

/// Whether p is in the set.
pub fn has(set: &Set, p: u32) -> bool {
    set[p as usize / 64] >> (p % 64) & 1 == 1
}

/// The members of a set, ascending.
pub fn members(set: &Set) -> Vec<u32> {
    (0..64 * WORDS as u32).filter(|&p| has(set, p)).collect()
}

/// Reads a text: the case, or what was read of it and why no more.
pub fn read(text: &[u8]) -> (Case, Option<Unread>) {
    let mut case = Case::default();
    if text.len() > TEXT {
        return (case, Some(too_long()));
    }
    let mut lines = Lines { text, at: 0, line: 0 };
    let fault = read_lines(&mut lines, &mut case).err();
    (case, fault)
}

fn too_long() -> Unread {
    Unread {
        number: 2,
        line: 0,
        item: 0,
        wrong: "it has more than 65,535 bytes".into(),
        due: "at most 65,535 bytes, line feeds counted".into(),
        text: Vec::new(),
        mark: 0..0,
    }
}

fn read_lines(lines: &mut Lines, case: &mut Case) -> Result<(), Unread> {
    let header = read_header(lines)?;
    case.header = Some(header);
    case.initial = Some(read_initial(lines, header)?);
    for _ in 0..header.actions {
        case.actions.push(read_action(lines, header)?);
    }
    for _ in 0..header.methods {
        case.methods.push(read_method(lines, header)?);
    }
    read_plan(lines, header, case)?;
    for _ in 0..header.nodes {
        case.claims.push(read_claim(lines, header)?);
    }
    lines.end()
}

// ---------------------------------------------------------------- lines and fields

struct Lines<'a> {
    text: &'a [u8],
    at: usize,
    line: u32,
}

impl<'a> Lines<'a> {
    /// Enters the next line, which is due.
    fn next(&mut self, due: &str) -> Result<Line<'a>, Unread> {
        let rest = &self.text[self.at..];
        self.line += 1;
        let Some(len) = rest.iter().position(|&byte| byte == b'\n') else {
            let wrong = if rest.is_empty() { "the text is over" } else { "the line has no line feed" };
            return Err(Unread {
                number: 3,
                line: self.line,
                item: 0,
                wrong: wrong.into(),
                due: due.into(),
                text: rest.to_vec(),
                mark: rest.len()..rest.len() + 1,
            });
        };
        self.at += len + 1;
        Ok(Line { bytes: &rest[..len], at: 0, number: self.line, field: 0 })
    }

    /// Nothing may follow the last line that is due.
    fn end(&self) -> Result<(), Unread> {
        let rest = &self.text[self.at..];
        if rest.is_empty() {
            return Ok(());
        }
        let len = rest.iter().position(|&byte| byte == b'\n').unwrap_or(rest.len());
        Err(Unread {
            number: 3,
            line: self.line + 1,
            item: 1,
            wrong: "a surplus line".into(),
            due: "the end of the text, after the last node that the header counts".into(),
            text: rest[..len].to_vec(),
            mark: 0..len.max(1),
        })
    }
}

/// A line, read field by field.
struct Line<'a> {
    bytes: &'a [u8],
    /// Where the next field starts; past the line once the last one is read.
    at: usize,
    number: u32,
    field: u32,
}

impl<'a> Line<'a> {
    fn fault(&self, number: u32, mark: Range<usize>, wrong: impl Into<String>, due: impl Into<String>) -> Unread {
        let mark = mark.start..mark.end.max(mark.start + 1);
        let (wrong, due) = (wrong.into(), due.into());
        Unread { number, line: self.number, item: self.field, wrong, due, text: self.bytes.to_vec(), mark }
    }

    /// The next field's place, none if the line is over.
    fn field(&mut self) -> Option<Range<usize>> {
        self.field += 1;
        let rest = self.bytes.get(self.at..)?;
        let len = rest.iter().position(|&byte| byte == b',').unwrap_or(rest.len());
        let place = self.at..self.at + len;
        self.at = place.end + 1;
        Some(place)
    }

    /// The letter, one of those due.
    fn letter(&mut self, letters: &[u8], due: &str) -> Result<u8, Unread> {
        let place = self.field().unwrap_or(0..0);
        match &self.bytes[place.clone()] {
            [letter] if letters.contains(letter) => Ok(*letter),
            [] => Err(self.fault(3, place, "no letter", due)),
            _ => Err(self.fault(3, place, "another letter than is due here", due)),
        }
    }

    /// A plain number within its range; `due` says what it is.
    fn number(&mut self, range: RangeInclusive<u32>, due: &str) -> Result<u32, Unread> {
        let value = self.plain(due)?;
        if range.contains(&value) {
            return Ok(value);
        }
        let place = self.at - 1 - digits(value)..self.at - 1;
        Err(self.fault(4, place, "outside its range", format!("{due}, {}", bounds(&range))))
    }

    /// A plain number of any size.
    fn plain(&mut self, due: &str) -> Result<u32, Unread> {
        let Some(place) = self.field() else {
            let end = self.bytes.len();
            return Err(self.fault(3, end..end + 1, "a field is missing", due));
        };
        match plain(&self.bytes[place.clone()]) {
            Ok(value) => Ok(value),
            Err(wrong) => Err(self.fault(3, place, wrong, due)),
        }
    }

    fn end(&mut self) -> Result<(), Unread> {
        match self.field() {
            None => Ok(()),
            Some(place) => Err(self.fault(3, place, "a surplus field", "the end of the line")),
        }
    }

    /// A set of propositions: its count, then members that ascend.
    fn set(&mut self, propositions: u32, name: &str) -> Result<Set, Unread> {
        let count = self.number(0..=propositions, &format!("how many propositions are {name}"))?;
        let due = format!("a proposition that is {name}");
        let mut set = [0; WORDS];
        let mut least = 0;
        for _ in 0..count {
            let member = self.plain(&due)?;
            if !(least..propositions).contains(&member) {
                let place = self.at - 1 - digits(member)..self.at - 1;
                let wrong = if member < propositions { "not above the one before it" } else { "outside its range" };
                return Err(self.fault(4, place, wrong, format!("{due}, {}", below(least, propositions))));
            }
            set[member as usize / 64] |= 1 << (member % 64);
            least = member + 1;
        }
        Ok(set)
    }

    /// A set of subtasks: no bit at or above their count.
    fn mask(&mut self, subtasks: u32, name: &str) -> Result<u32, Unread> {
        let most = ((1u64 << subtasks) - 1) as u32;
        self.number(0..=most, &format!("{name}, a set of the {subtasks} subtasks as one number"))
    }
}

/// A plain number: digits, no leading zero except 0 itself, at most 4,294,967,295.
pub fn plain(field: &[u8]) -> Result<u32, &'static str> {
    match field {
        [] => Err("an empty field, no number"),
        [b'0', _, ..] if field.iter().all(u8::is_ascii_digit) => Err("a number with a leading zero"),
        _ if !field.iter().all(u8::is_ascii_digit) => Err("not a plain number"),
        _ => {
            let value = field.iter().try_fold(0u32, |value, digit| value.checked_mul(10)?.checked_add(u32::from(digit - b'0')));
            value.ok_or("a number over 4,294,967,295")
        }
    }
}

fn digits(value: u32) -> usize {
    value.checked_ilog10().unwrap_or(0) as usize + 1
}

fn bounds(range: &RangeInclusive<u32>) -> String {
    match (range.start(), range.end()) {
        (least, most) if least > most => "but there is none".into(),
        (least, most) if least == most => format!("which is {least}"),
        (least, most) => format!("{least} to {most}"),
    }
}

/// The numbers from `least` that lie below `end`.
fn below(least: u32, end: u32) -> String {
    match end.checked_sub(1) {
        Some(most) => bounds(&(least..=most)),
        None => "but there is none".into(),
    }
}

/// The range of numbers below a count; that of no number, if there is none.
fn up_to(count: u32) -> RangeInclusive<u32> {
    match count.checked_sub(1) {
        Some(most) => 0..=most,
        None => RangeInclusive::new(1, 0),
    }
}

// ---------------------------------------------------------------- the kinds of line

fn read_header(lines: &mut Lines) -> Result<Header, Unread> {
    let mut line = lines.next("the header, a line N")?;
    line.letter(b"N", "the header's letter, N")?;
    let propositions = line.number(0..=PROPOSITIONS, "how many propositions")?;
    let actions = line.number(0..=TASKS, "how many actions")?;
    let tasks = actions + line.number(0..=TASKS, "how many compound tasks")?;
    let methods = line.number(0..=METHODS, "how many methods")?;
    let goal = line.number(compound(actions, tasks), "the goal, a compound task")?;
    let cues = line.number(0..=CUES, "how many cues")?;
    let nodes = line.number(1..=NODES, "how many nodes")?;
    line.end()?;
    Ok(Header { propositions, actions, tasks, methods, goal, cues, nodes })
}

/// The compound tasks.
fn compound(actions: u32, tasks: u32) -> RangeInclusive<u32> {
    if actions < tasks {
        actions..=tasks - 1
    } else {
        RangeInclusive::new(1, 0)
    }
}

fn read_initial(lines: &mut Lines, header: Header) -> Result<Set, Unread> {
    let mut line = lines.next("the line I, the initial state")?;
    line.letter(b"I", "I, for the initial state")?;
    let set = line.set(header.propositions, "true at the start")?;
    line.end()?;
    Ok(set)
}

fn read_action(lines: &mut Lines, header: Header) -> Result<Action, Unread> {
    let mut line = lines.next("a line A, for an action")?;
    line.letter(b"A", "A, for an action")?;
    let action = Action {
        line: line.number,
        needed: line.set(header.propositions, "needed")?,
        forbidden: line.set(header.propositions, "forbidden")?,
        added: line.set(header.propositions, "added")?,
        deleted: line.set(header.propositions, "deleted")?,
    };
    line.end()?;
    Ok(action)
}

/// An M line and the constraint lines that belong to it.
fn read_method(lines: &mut Lines, header: Header) -> Result<Method, Unread> {
    let mut line = lines.next("a line M, for a method")?;
    line.letter(b"M", "M, for a method")?;
    let task = line.number(compound(header.actions, header.tasks), "the method's task, a compound one")?;
    let count = line.number(0..=SUBTASKS, "how many subtasks")?;
    let mut method = Method { line: line.number, task, subtasks: Vec::new(), constraints: Vec::new() };
    for _ in 0..count {
        method.subtasks.push(line.number(up_to(header.tasks), "a subtask, any task")?);
    }
    let constraints = line.number(0..=CONSTRAINTS, "how many constraints")?;
    line.end()?;
    for _ in 0..constraints {
        method.constraints.push(read_constraint(lines, header, count)?);
    }
    Ok(method)
}

fn read_constraint(lines: &mut Lines, header: Header, subtasks: u32) -> Result<Constraint, Unread> {
    let mut line = lines.next("a constraint of the method: a line O, B, b, F, f, W or w")?;
    let letter = line.letter(b"OBbFfWw", "O, B, b, F, f, W or w, for a constraint of the method")?;
    let mut proposition = 0;
    let mut asked = |line: &mut Line| {
        proposition = line.number(up_to(header.propositions), "the proposition")?;
        Ok(())
    };
    let kind = match letter {
        b'O' => read_order(&mut line, subtasks)?,
        b'B' | b'b' => {
            asked(&mut line)?;
            Kind::Before { set: line.mask(subtasks, "U")? }
        }
        b'F' | b'f' => {
            asked(&mut line)?;
            Kind::After { set: line.mask(subtasks, "U")? }
        }
        _ => {
            let from = line.mask(subtasks, "U")?;
            asked(&mut line)?;
            Kind::Between { from, to: line.mask(subtasks, "V")? }
        }
    };
    line.end()?;
    let text = String::from_utf8_lossy(line.bytes).into_owned();
    Ok(Constraint { line: line.number, text, kind, proposition, truth: letter.is_ascii_uppercase() })
}

fn read_order(line: &mut Line, subtasks: u32) -> Result<Kind, Unread> {
    let first = line.number(up_to(subtasks), "i, a subtask of the method")?;
    let second = line.number(up_to(subtasks), "j, a subtask of the method")?;
    if first == second {
        let place = line.at - 1 - digits(second)..line.at - 1;
        return Err(line.fault(4, place, "the same subtask twice", "j, another subtask than i"));
    }
    Ok(Kind::Order { first, second })
}

fn read_plan(lines: &mut Lines, header: Header, case: &mut Case) -> Result<(), Unread> {
    let mut line = lines.next("the line P, the plan")?;
    line.letter(b"P", "P, for the plan")?;
    for cue in 1..=header.cues {
        case.plan.push(line.number(up_to(header.actions), &format!("the action of cue {cue}"))?);
    }
    line.end()?;
    case.plan_line = Some(line.number);
    Ok(())
}

fn read_claim(lines: &mut Lines, header: Header) -> Result<Claim, Unread> {
    let mut line = lines.next("a node: a line D, E or L")?;
    let letter = line.letter(b"DEL", "D, E or L, for a node")?;
    let claim = match letter {
        b'L' => Claim::Leaf {
            action: line.number(up_to(header.actions), "the leaf's action")?,
            position: line.number(positions(header.cues), "the leaf's position, a cue")?,
        },
        b'E' => Claim::Empty {
            method: line.number(up_to(header.methods), "the node's method")?,
            gap: line.number(0..=header.cues, "the gap that the empty task stands in")?,
        },
        _ => Claim::Decomposed { method: line.number(up_to(header.methods), "the node's method")? },
    };
    line.end()?;
    Ok(claim)
}

fn positions(cues: u32) -> RangeInclusive<u32> {
    if cues == 0 {
        RangeInclusive::new(1, 0)
    } else {
        1..=cues
    }
}
