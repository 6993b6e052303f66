//! Document 01, with Cards 1 to 7 of document 02, as a plain Rust program: the step, replay, check and write calls, the
//! one that finds the gaps, and the import call, which has a file of its own.
//!
//! The text is read once into vectors (`read`), the plan is run into the lent state list
//! (`run`), the claimed tree is walked (`Walk`), and the constraints are tried node by node
//! (`first_broken`). Replay stops after `run`. The write call goes over the lines of a text that
//! the check call accepted (`tidy`). To find the gaps every choice of them is put into the text and that
//! text is checked (`first_accepted`). Nothing here is proved; the module is the
//! yardstick of tests and benchmarks, so it is written for clarity first and speed second.

// By its path: this file is also taken in by another crate, from another folder.
#[path = "plain/import.rs"]
mod import;

pub use cuecheck::{Found, Imported, Node, Refusal, Reply, Set, Stepped, Written};
pub use import::import;
use std::ops::{Range, RangeBounds};

/// The words of a state.
const WORDS: usize = 8;
/// As many as a state has bits.
const PROPOSITIONS: u32 = u64::BITS * WORDS as u32;
const CUES: u32 = 1_000;
/// Room for states 0 to k.
pub const STATES_ASKED: usize = WORDS * (CUES as usize + 1);
pub const NODES_ASKED: usize = 3_000;
pub const WORK_ASKED: usize = 16_384;
pub const TEXT_LIMIT: usize = 65_535;
const LEVELS: u32 = 64;
/// The most choices of gaps that are tried.
pub const CHOICES: u32 = 1_000_000;

type Checked<T> = Result<T, Refusal>;

fn refuse<T>(number: u32, line: u32, item: u32) -> Checked<T> {
    Err(Refusal { number, line, item })
}

/// Applies an action: yes with the next state and the words computed for it, word w as bit w, or no with the state as it
/// came and none computed.
pub fn step(state: Set, needed: Set, forbidden: Set, added: Set, deleted: Set) -> (Stepped, Set) {
    // One OR over all words instead of a test per word: the common case has no early way out.
    let obstacles = (0..WORDS).fold(0, |bits, w| bits | (needed[w] & !state[w]) | (forbidden[w] & state[w]));
    if obstacles != 0 {
        return (Stepped { applied: 0, computed: 0 }, state);
    }
    let (mut computed, mut next) = (0, state);
    for w in 0..WORDS {
        // A word in which nothing is added or deleted passes through untouched.
        if added[w] != 0 || deleted[w] != 0 {
            next[w] = (state[w] & !deleted[w]) | added[w];
            computed |= 1 << w;
        }
    }
    (Stepped { applied: 1, computed }, next)
}

/// The check call: reads, runs, walks, and tries every constraint.
pub fn check(text: &[u8], states: &mut [u64], nodes: &mut [Node], work: &mut [u32]) -> Reply {
    let asked = [(states.len() < STATES_ASKED, 1), (nodes.len() < NODES_ASKED, 2), (work.len() < WORK_ASKED, 3)];
    work.fill(0);
    match check_with(text, &asked, states, nodes) {
        Ok(case) => {
            states[WORDS * (case.plan.len() + 1)..].fill(0);
            nodes[case.claims.len()..].fill(Node::default());
            case.accepted()
        }
        Err(refusal) => {
            states.fill(0);
            nodes.fill(Node::default());
            refused(refusal)
        }
    }
}

/// The replay call: reads and runs only.
pub fn replay(text: &[u8], states: &mut [u64], work: &mut [u32]) -> Reply {
    let asked = [(states.len() < STATES_ASKED, 1), (work.len() < WORK_ASKED, 3)];
    work.fill(0);
    match replay_with(text, &asked, states) {
        Ok(case) => {
            states[WORDS * (case.plan.len() + 1)..].fill(0);
            case.accepted()
        }
        Err(refusal) => {
            states.fill(0);
            refused(refusal)
        }
    }
}

/// The write call: the check call, then the tidy text put out, or number 14.
pub fn write(text: &[u8], states: &mut [u64], nodes: &mut [Node], work: &mut [u32], output: &mut [u8]) -> Written {
    let Reply { number, line, item, cues, nodes: count } = check(text, states, nodes, work);
    output.fill(0);
    if number != 0 {
        return Written { number, line, item, cues: 0, nodes: 0, length: 0 };
    }
    let tidy = tidy(text);
    let length = tidy.len() as u32;
    if output.len() < tidy.len() {
        states.fill(0);
        nodes.fill(Node::default());
        return Written { number: 14, line: 0, item: length, cues: 0, nodes: 0, length: 0 };
    }
    output[..tidy.len()].copy_from_slice(&tidy);
    Written { number: 0, line: 0, item: 0, cues, nodes: count, length }
}

/// The call that finds the gaps: numbers 1 to 9 and 20 to 22 of the text as it came, then 15, then the check of the text
/// with each choice of gaps in turn, and 16 if none is accepted.
pub fn find_gaps(text: &[u8], states: &mut [u64], nodes: &mut [Node], work: &mut [u32]) -> Found {
    let asked = [(states.len() < STATES_ASKED, 1), (nodes.len() < NODES_ASKED, 2), (work.len() < WORK_ASKED, 3)];
    match first_accepted(text, &asked, states, nodes) {
        Ok((text, tried)) => {
            let Reply { cues, nodes, .. } = check(&text, states, nodes, work);
            Found { number: 0, line: 0, item: 0, cues, nodes, tried }
        }
        Err(Refusal { number, line, item }) => {
            states.fill(0);
            nodes.fill(Node::default());
            work.fill(0);
            Found { number, line, item, cues: 0, nodes: 0, tried: 0 }
        }
    }
}

/// Numbers 1 to 4.
fn read_with(text: &[u8], asked: &[(bool, u32)]) -> Checked<Case> {
    if let Some(&(_, item)) = asked.iter().find(|(short, _)| *short) {
        return refuse(1, 0, item);
    }
    if text.len() > TEXT_LIMIT {
        return refuse(2, 0, 0);
    }
    read(text)
}

/// Everything of the replay call but the zeroing: numbers 1 to 5.
fn replay_with(text: &[u8], asked: &[(bool, u32)], states: &mut [u64]) -> Checked<Case> {
    let case = read_with(text, asked)?;
    run(&case, states)?;
    Ok(case)
}

/// Everything of the check call but the zeroing: the replay call's part, then numbers 6 to 13 and 20 to 22.
fn check_with(text: &[u8], asked: &[(bool, u32)], states: &mut [u64], nodes: &mut [Node]) -> Checked<Case> {
    let case = replay_with(text, asked, states)?;
    let subtask_spans = walk(&case, nodes)?;
    first_broken(&case, states, nodes, &subtask_spans)?;
    Ok(case)
}

fn refused(Refusal { number, line, item }: Refusal) -> Reply {
    Reply { number, line, item, cues: 0, nodes: 0 }
}

// ---------------------------------------------------------------- the case

struct Action {
    needed: Set,
    forbidden: Set,
    added: Set,
    deleted: Set,
}

/// A method; its subtasks and constraints are ranges of the case's two flat vectors.
struct Method {
    task: u32,
    subtasks: Range<usize>,
    constraints: Range<usize>,
}

/// A proposition with a sign: B, F and W ask that it be true (sign 0), b, f and w that it be false
/// (all ones).
#[derive(Clone, Copy)]
struct Signed {
    proposition: u32,
    sign: u64,
}

impl Signed {
    /// The word of a state that has the proposition's bit, turned about by a negative sign: the bit
    /// is set if the state is as asked.
    fn word(self, state: &Set) -> u64 {
        state[self.proposition as usize / 64] ^ self.sign
    }

    /// Whether the proposition's bit is set in such a word.
    fn is_in(self, word: u64) -> bool {
        word >> (self.proposition % 64) & 1 == 1
    }
}

/// Subtask sets are masks, bit j for subtask j; 0 is the whole task.
#[derive(Clone, Copy)]
enum Constraint {
    Order { first: u32, second: u32 },
    Before { asked: Signed, set: u32 },
    After { asked: Signed, set: u32 },
    Between { from: u32, asked: Signed, to: u32 },
}

/// What a node line claims.
#[derive(Clone, Copy)]
enum Claim {
    Decomposed { method: u32 },
    Empty { method: u32, gap: u32 },
    Leaf { action: u32, position: u32 },
}

/// A readable case text.
struct Case {
    tasks: u32,
    goal: u32,
    initial: Set,
    actions: Vec<Action>,
    methods: Vec<Method>,
    subtasks: Vec<u32>,
    constraints: Vec<Constraint>,
    plan: Vec<u32>,
    plan_line: u32,
    claims: Vec<Claim>,
}

impl Case {
    fn accepted(&self) -> Reply {
        Reply { number: 0, line: 0, item: 0, cues: self.plan.len() as u32, nodes: self.claims.len() as u32 }
    }

    /// The line of a node; of the one past the last node too. The tree follows the P line.
    fn node_line(&self, node: usize) -> u32 {
        self.plan_line + 1 + node as u32
    }

    /// Actions come first, then compound tasks.
    fn is_compound(&self, task: u32) -> bool {
        task as usize >= self.actions.len()
    }

    fn subtasks_of(&self, method: u32) -> &[u32] {
        &self.subtasks[self.methods[method as usize].subtasks.clone()]
    }

    fn constraints_of(&self, method: u32) -> &[Constraint] {
        &self.constraints[self.methods[method as usize].constraints.clone()]
    }

    /// The task that a node is of: a leaf's action, or the task of its method, whether that is empty or not.
    fn own_task(&self, claim: Claim) -> u32 {
        match claim {
            Claim::Leaf { action, .. } => action,
            Claim::Decomposed { method } | Claim::Empty { method, .. } => self.methods[method as usize].task,
        }
    }

    /// Whether this is "a D line with an empty method or an E line with one that isn't".
    fn has_wrong_letter(&self, claim: Claim) -> bool {
        match claim {
            Claim::Leaf { .. } => false,
            Claim::Decomposed { method } => self.subtasks_of(method).is_empty(),
            Claim::Empty { method, .. } => !self.subtasks_of(method).is_empty(),
        }
    }
}

// ---------------------------------------------------------------- reading

/// Stands in the text; knows the line and the field that are being read.
struct Reader<'a> {
    /// What is left, whole lines only: what follows the text's last line feed is cut off, so
    /// every scan inside a line ends, and a due line lacks its line feed just when nothing is
    /// left here.
    rest: &'a [u8],
    line: u32,
    item: u32,
}

impl<'a> Reader<'a> {
    #[cold]
    fn unreadable<T>(&self) -> Checked<T> {
        refuse(3, self.line, self.item)
    }

    #[cold]
    fn out_of_range<T>(&self) -> Checked<T> {
        refuse(4, self.line, self.item)
    }

    /// Enters the next due line and gives back its letter, one of those due here.
    #[inline]
    fn letter(&mut self, due: &[u8]) -> Checked<u8> {
        self.line += 1;
        self.item = 0;
        let [letter, rest @ ..] = self.rest else {
            return self.unreadable();
        };
        self.item = 1;
        if !due.contains(letter) {
            return self.unreadable();
        }
        self.end_field(rest)?;
        Ok(*letter)
    }

    /// Reads the next field as a plain number. The reader stands at the comma before it, or at
    /// the line feed if the field is missing.
    #[inline]
    fn number(&mut self) -> Checked<u32> {
        self.item += 1;
        let [b',', first @ b'0'..=b'9', rest @ ..] = self.rest else {
            return self.unreadable();
        };
        let mut value = u64::from(first - b'0');
        let mut rest = rest;
        // A number that begins with 0 ends there.
        if value != 0 {
            while let [digit @ b'0'..=b'9', behind @ ..] = rest {
                value = 10 * value + u64::from(digit - b'0');
                // Caught at once, so that no long run of digits can wrap around.
                if value > u64::from(u32::MAX) {
                    return self.unreadable();
                }
                rest = behind;
            }
        }
        self.end_field(rest)?;
        Ok(value as u32)
    }

    /// Leaves a field: a comma or a line feed ends it, any other byte spoils it.
    #[inline]
    fn end_field(&mut self, rest: &'a [u8]) -> Checked<()> {
        let Some(b',' | b'\n') = rest.first() else {
            return self.unreadable();
        };
        self.rest = rest;
        Ok(())
    }

    /// Reads a plain number and tests its range.
    #[inline]
    fn number_in(&mut self, range: impl RangeBounds<u32>) -> Checked<u32> {
        let value = self.number()?;
        if !range.contains(&value) {
            return self.out_of_range();
        }
        Ok(value)
    }

    /// Leaves the line; a field that is left over is surplus.
    #[inline]
    fn end_line(&mut self) -> Checked<()> {
        let [b'\n', rest @ ..] = self.rest else {
            self.item += 1;
            return self.unreadable();
        };
        self.rest = rest;
        Ok(())
    }

    /// Reads a set of propositions: its count, then strictly ascending members.
    fn set(&mut self, propositions: u32) -> Checked<Set> {
        let count = self.number_in(..=propositions)?;
        let mut set = [0; WORDS];
        let mut least = 0; // the least member still allowed
        for _ in 0..count {
            let member = self.number_in(least..propositions)?;
            set[member as usize / 64] |= 1 << (member % 64);
            least = member + 1;
        }
        Ok(set)
    }

    /// Reads a set of subtasks: a mask without bits at or above the subtask count.
    fn mask(&mut self, subtasks: u32) -> Checked<u32> {
        let mask = self.number()?;
        if u64::from(mask) >> subtasks != 0 {
            return self.out_of_range();
        }
        Ok(mask)
    }
}

/// The header's numbers.
struct Header {
    propositions: u32,
    actions: u32,
    tasks: u32,
    methods: u32,
    goal: u32,
    cues: u32,
    nodes: u32,
}

/// Reads the whole text, surplus line included: numbers 3 and 4.
fn read(text: &[u8]) -> Checked<Case> {
    let whole = text.iter().rposition(|&byte| byte == b'\n').map_or(0, |last| last + 1);
    let mut reader = Reader { rest: &text[..whole], line: 0, item: 0 };
    let header = read_header(&mut reader)?;
    let mut case = Case {
        tasks: header.tasks,
        goal: header.goal,
        initial: read_initial(&mut reader, &header)?,
        actions: Vec::with_capacity(header.actions as usize),
        methods: Vec::with_capacity(header.methods as usize),
        subtasks: Vec::new(),
        constraints: Vec::new(),
        plan: Vec::with_capacity(header.cues as usize),
        plan_line: 0,
        claims: Vec::with_capacity(header.nodes as usize),
    };
    for _ in 0..header.actions {
        case.actions.push(read_action(&mut reader, &header)?);
    }
    for _ in 0..header.methods {
        read_method(&mut reader, &header, &mut case)?;
    }
    read_plan(&mut reader, &header, &mut case)?;
    for _ in 0..header.nodes {
        case.claims.push(read_claim(&mut reader, &header)?);
    }
    if !reader.rest.is_empty() || whole < text.len() {
        return refuse(3, reader.line + 1, 1);
    }
    Ok(case)
}

fn read_header(reader: &mut Reader) -> Checked<Header> {
    reader.letter(b"N")?;
    let propositions = reader.number_in(..=PROPOSITIONS)?;
    let actions = reader.number_in(..=1_024)?;
    let compound = reader.number_in(..=1_024)?;
    let tasks = actions + compound;
    let header = Header {
        propositions,
        actions,
        tasks,
        methods: reader.number_in(..=2_048)?,
        goal: reader.number_in(actions..tasks)?,
        cues: reader.number_in(..=CUES)?,
        nodes: reader.number_in(1..=3_000)?,
    };
    reader.end_line()?;
    Ok(header)
}

fn read_initial(reader: &mut Reader, header: &Header) -> Checked<Set> {
    reader.letter(b"I")?;
    let initial = reader.set(header.propositions)?;
    reader.end_line()?;
    Ok(initial)
}

fn read_action(reader: &mut Reader, header: &Header) -> Checked<Action> {
    reader.letter(b"A")?;
    let action = Action {
        needed: reader.set(header.propositions)?,
        forbidden: reader.set(header.propositions)?,
        added: reader.set(header.propositions)?,
        deleted: reader.set(header.propositions)?,
    };
    reader.end_line()?;
    Ok(action)
}

/// Reads an M line and the constraint lines that belong to it.
fn read_method(reader: &mut Reader, header: &Header, case: &mut Case) -> Checked<()> {
    reader.letter(b"M")?;
    let task = reader.number_in(header.actions..header.tasks)?;
    let subtask_count = reader.number_in(..=32)?;
    let first_subtask = case.subtasks.len();
    for _ in 0..subtask_count {
        case.subtasks.push(reader.number_in(..header.tasks)?);
    }
    let constraint_count = reader.number_in(..=64)?;
    reader.end_line()?;
    let first_constraint = case.constraints.len();
    for _ in 0..constraint_count {
        case.constraints.push(read_constraint(reader, header, subtask_count)?);
    }
    case.methods.push(Method {
        task,
        subtasks: first_subtask..case.subtasks.len(),
        constraints: first_constraint..case.constraints.len(),
    });
    Ok(())
}

fn read_constraint(reader: &mut Reader, header: &Header, subtasks: u32) -> Checked<Constraint> {
    let letter = reader.letter(b"OBbFfWw")?;
    let sign = if letter.is_ascii_uppercase() { 0 } else { u64::MAX };
    let asked = |reader: &mut Reader| Ok(Signed { proposition: reader.number_in(..header.propositions)?, sign });
    let constraint = match letter {
        b'O' => {
            let first = reader.number_in(..subtasks)?;
            let second = reader.number_in(..subtasks)?;
            if second == first {
                return reader.out_of_range();
            }
            Constraint::Order { first, second }
        }
        b'B' | b'b' => Constraint::Before { asked: asked(reader)?, set: reader.mask(subtasks)? },
        b'F' | b'f' => Constraint::After { asked: asked(reader)?, set: reader.mask(subtasks)? },
        _ => Constraint::Between { from: reader.mask(subtasks)?, asked: asked(reader)?, to: reader.mask(subtasks)? },
    };
    reader.end_line()?;
    Ok(constraint)
}

fn read_plan(reader: &mut Reader, header: &Header, case: &mut Case) -> Checked<()> {
    reader.letter(b"P")?;
    for _ in 0..header.cues {
        case.plan.push(reader.number_in(..header.actions)?);
    }
    reader.end_line()?;
    case.plan_line = reader.line;
    Ok(())
}

fn read_claim(reader: &mut Reader, header: &Header) -> Checked<Claim> {
    let letter = reader.letter(b"DEL")?;
    let claim = match letter {
        b'D' => Claim::Decomposed { method: reader.number_in(..header.methods)? },
        b'E' => Claim::Empty { method: reader.number_in(..header.methods)?, gap: reader.number_in(..=header.cues)? },
        _ => Claim::Leaf { action: reader.number_in(..header.actions)?, position: reader.number_in(1..=header.cues)? },
    };
    reader.end_line()?;
    Ok(claim)
}

// ---------------------------------------------------------------- running

/// Writes states 0 to k, or refuses the first cue that doesn't apply: number 5.
fn run(case: &Case, states: &mut [u64]) -> Checked<()> {
    let (rows, _) = states.as_chunks_mut::<WORDS>();
    let mut state = case.initial;
    rows[0] = state;
    for (before, &cue) in case.plan.iter().enumerate() {
        let action = &case.actions[cue as usize];
        let (stepped, next) = step(state, action.needed, action.forbidden, action.added, action.deleted);
        if !stepped.applies() {
            return refuse(5, case.plan_line, before as u32 + 1);
        }
        state = next;
        rows[before + 1] = state;
    }
    Ok(())
}

// ---------------------------------------------------------------- walking

/// A doubled start and end: cue i is 2i, gap g is 2g + 1.
#[derive(Clone, Copy)]
struct Span {
    start: u32,
    end: u32,
}

impl Span {
    /// The span of no task yet; joined with any other it gives that other.
    const NONE: Span = Span { start: u32::MAX, end: 0 };

    fn at(doubled: u32) -> Span {
        Span { start: doubled, end: doubled }
    }

    fn joined(self, other: Span) -> Span {
        Span { start: self.start.min(other.start), end: self.end.max(other.end) }
    }

    /// c: the start rounded up.
    fn first(self) -> usize {
        self.start.div_ceil(2) as usize
    }

    /// f: the end rounded down.
    fn last(self) -> usize {
        (self.end / 2) as usize
    }
}

/// The spans of each node's subtasks: those of node i begin at `begin[i]` in `spans`.
struct SubtaskSpans {
    spans: Vec<Span>,
    begin: Vec<u32>,
}

struct Walk<'a> {
    case: &'a Case,
    nodes: &'a mut [Node],
    next: usize,
    claimed: Vec<bool>,
    subtask_spans: SubtaskSpans,
}

/// Walks the whole tree and fills the node records: numbers 6 to 9 and 20 to 22.
fn walk(case: &Case, nodes: &mut [Node]) -> Checked<SubtaskSpans> {
    let count = case.claims.len();
    let mut walk = Walk {
        case,
        nodes,
        next: 0,
        claimed: vec![false; case.plan.len()],
        subtask_spans: SubtaskSpans { spans: Vec::with_capacity(count), begin: Vec::with_capacity(count) },
    };
    walk.node(case.goal, 1)?;
    // 21, "a surplus node, whatever its line holds": the first line after the whole tree.
    if walk.next < count {
        return refuse(21, case.node_line(walk.next), 0);
    }
    if let Some(before) = walk.claimed.iter().position(|claimed| !claimed) {
        return refuse(9, case.plan_line, before as u32 + 1);
    }
    Ok(walk.subtask_spans)
}

impl Walk<'_> {
    /// Walks the next node, where `task` is expected on this level, and its subtasks.
    fn node(&mut self, task: u32, level: u32) -> Checked<Span> {
        let at = self.next;
        let line = self.case.node_line(at);
        // 22, "nodes over too soon", on whichever level the next one is due: one past the last line.
        let Some(&claim) = self.case.claims.get(at) else {
            return refuse(22, line, 0);
        };
        self.try_node(claim, task, level, line)?;
        self.next += 1;
        self.subtask_spans.begin.push(self.subtask_spans.spans.len() as u32);
        let (letter, label, place, span) = match claim {
            Claim::Decomposed { method } => (1, method, 0, self.subtasks(method, level)?),
            Claim::Empty { method, gap } => (2, method, gap, Span::at(2 * gap + 1)),
            Claim::Leaf { action, position } => {
                self.claim_position(action, position, line)?;
                (3, action, position, Span::at(2 * position))
            }
        };
        self.nodes[at] = Node { letter, label, place, start: span.start, end: span.end };
        Ok(span)
    }

    /// Tries what a node claims, in this order: 6, "a node of another task than expected", 20, the wrong letter for its
    /// method, 7, level 65.
    fn try_node(&self, claim: Claim, task: u32, level: u32, line: u32) -> Checked<()> {
        if self.case.own_task(claim) != task {
            return refuse(6, line, 0);
        }
        if self.case.has_wrong_letter(claim) {
            return refuse(20, line, 0);
        }
        if level > LEVELS {
            return refuse(7, line, 0);
        }
        Ok(())
    }

    /// Walks the subtasks of a node in the method's order; gives back the node's span.
    fn subtasks(&mut self, method: u32, level: u32) -> Checked<Span> {
        let case = self.case;
        let subtasks = case.subtasks_of(method);
        // Room for this node's stretch first: the subtrees append theirs behind it.
        let begin = self.subtask_spans.spans.len();
        self.subtask_spans.spans.resize(begin + subtasks.len(), Span::NONE);
        let mut whole = Span::NONE;
        for (j, &task) in subtasks.iter().enumerate() {
            let span = self.node(task, level + 1)?;
            self.subtask_spans.spans[begin + j] = span;
            whole = whole.joined(span);
        }
        Ok(whole)
    }

    /// Claims a position for a leaf: number 8 if it has another action or was claimed earlier.
    fn claim_position(&mut self, action: u32, position: u32, line: u32) -> Checked<()> {
        let before = position as usize - 1;
        if self.case.plan[before] != action || self.claimed[before] {
            return refuse(8, line, position);
        }
        self.claimed[before] = true;
        Ok(())
    }
}

// ---------------------------------------------------------------- constraints

/// What the constraints of one node speak of.
struct Scene<'a> {
    rows: &'a [Set],
    whole: Span,
    subtasks: &'a [Span],
}

/// Tries every node's constraints in order: numbers 10 to 13.
fn first_broken(case: &Case, states: &[u64], nodes: &[Node], subtask_spans: &SubtaskSpans) -> Checked<()> {
    let (rows, _) = states.as_chunks::<WORDS>();
    for (at, &claim) in case.claims.iter().enumerate() {
        let (Claim::Decomposed { method } | Claim::Empty { method, .. }) = claim else {
            continue;
        };
        let constraints = case.constraints_of(method);
        if constraints.is_empty() {
            continue;
        }
        let Node { start, end, .. } = nodes[at];
        let scene = Scene {
            rows,
            whole: Span { start, end },
            subtasks: &subtask_spans.spans[subtask_spans.begin[at] as usize..],
        };
        if let Some(item) = constraints.iter().position(|&constraint| !scene.holds(constraint)) {
            return refuse(constraints[item].number(), case.node_line(at), item as u32);
        }
    }
    Ok(())
}

impl Constraint {
    /// The refusal number of a broken constraint.
    fn number(self) -> u32 {
        match self {
            Constraint::Order { .. } => 10,
            Constraint::Before { .. } => 11,
            Constraint::After { .. } => 12,
            Constraint::Between { .. } => 13,
        }
    }
}

impl Scene<'_> {
    fn holds(&self, constraint: Constraint) -> bool {
        match constraint {
            Constraint::Order { first, second } => {
                self.subtasks[first as usize].last() < self.subtasks[second as usize].first()
            }
            Constraint::Before { asked, set } => self.is_so(asked, self.span_of(set).first() - 1),
            Constraint::After { asked, set } => self.is_so(asked, self.span_of(set).last()),
            Constraint::Between { from, asked, to } => {
                self.is_so_throughout(asked, self.span_of(from).last()..self.span_of(to).first())
            }
        }
    }

    /// The span of a set of subtasks; 0 is the whole task.
    fn span_of(&self, mut set: u32) -> Span {
        if set == 0 {
            return self.whole;
        }
        let mut span = Span::NONE;
        while set != 0 {
            span = span.joined(self.subtasks[set.trailing_zeros() as usize]);
            set &= set - 1; // without its lowest subtask
        }
        span
    }

    /// Whether a proposition is true in a state, or false there, as its sign asks.
    fn is_so(&self, asked: Signed, state: usize) -> bool {
        asked.is_in(asked.word(&self.rows[state]))
    }

    /// The same of each of these states; a range run backwards has none.
    fn is_so_throughout(&self, asked: Signed, states: Range<usize>) -> bool {
        if states.is_empty() {
            return true;
        }
        // The AND of one word over the whole range, without a branch for each state.
        asked.is_in(self.rows[states].iter().fold(u64::MAX, |bits, state| bits & asked.word(state)))
    }
}

// ---------------------------------------------------------------- writing

/// The letters of constraint lines, in the order in which they are put out.
const IN_ORDER: &[u8] = b"OBbFfWw";

/// An accepted text with each method's constraints in order, without repeats, and c following.
fn tidy(text: &[u8]) -> Vec<u8> {
    let mut tidy = Vec::with_capacity(text.len());
    let mut lines = text.split_inclusive(|&byte| byte == b'\n').peekable();
    while let Some(line) = lines.next() {
        if line[0] != b'M' {
            tidy.extend_from_slice(line);
            continue;
        }
        let mut constraints = Vec::new();
        while let Some(constraint) = lines.next_if(|line| IN_ORDER.contains(&line[0])) {
            constraints.push(constraint);
        }
        constraints.sort_by_cached_key(|line| place_of(line));
        // A number is written in one way only: equal constraints are equal lines, and stand side by side now.
        constraints.dedup();
        let c = line.iter().rposition(|&byte| byte == b',').expect("the last field of an M line") + 1;
        tidy.extend_from_slice(&line[..c]);
        tidy.extend_from_slice(format!("{}\n", constraints.len()).as_bytes());
        tidy.extend(constraints.concat());
    }
    tidy
}

/// What a constraint line is sorted by: the place of its letter, then its fields as numbers.
fn place_of(line: &[u8]) -> (usize, Vec<u32>) {
    let letter = IN_ORDER.iter().position(|&letter| letter == line[0]).expect("a constraint's letter");
    let fields = std::str::from_utf8(&line[1..]).expect("an accepted line").trim_end().split(',').skip(1);
    (letter, fields.map(|field| field.parse().expect("a plain number")).collect())
}

// ---------------------------------------------------------------- finding the gaps

/// The first text that is accepted with a choice of gaps in place of those claimed, and the choice's number, from 1.
fn first_accepted(
    text: &[u8],
    asked: &[(bool, u32)],
    states: &mut [u64],
    nodes: &mut [Node],
) -> Checked<(Vec<u8>, u32)> {
    let case = replay_with(text, asked, states)?;
    walk(&case, nodes)?;
    let empty = case.claims.iter().filter(|claim| matches!(claim, Claim::Empty { .. })).count();
    let last = case.plan.len() as u32;
    let choices = count_choices(last, empty);
    if choices > CHOICES {
        return refuse(15, 0, empty as u32);
    }
    let parts = cut_at_gaps(text);
    let mut gaps = vec![0; empty];
    for tried in 1..=choices {
        let text = with_gaps(&parts, &gaps);
        if check_with(&text, asked, states, nodes).is_ok() {
            return Ok((text, tried));
        }
        next_choice(&mut gaps, last);
    }
    refuse(16, 0, choices)
}

/// How many choices there are of a gap from 0 to the last one for so many empty tasks; one more than `CHOICES` if they
/// are over that.
fn count_choices(last: u32, empty: usize) -> u32 {
    let mut choices = 1;
    for _ in 0..empty {
        choices = (u64::from(choices) * u64::from(last + 1)).min(u64::from(CHOICES) + 1) as u32;
    }
    choices
}

/// A readable text without the gaps of its E lines: what stands before each of them, and what follows the last.
fn cut_at_gaps(text: &[u8]) -> Vec<&[u8]> {
    let mut parts = Vec::new();
    let (mut begin, mut at) = (0, 0);
    for line in text.split_inclusive(|&byte| byte == b'\n') {
        if line[0] == b'E' {
            let comma = line.iter().rposition(|&byte| byte == b',').expect("a gap");
            parts.push(&text[begin..=at + comma]);
            begin = at + line.len() - 1;
        }
        at += line.len();
    }
    parts.push(&text[begin..]);
    parts
}

/// The text with these gaps.
fn with_gaps(parts: &[&[u8]], gaps: &[u32]) -> Vec<u8> {
    let mut text = parts[0].to_vec();
    for (gap, part) in gaps.iter().zip(&parts[1..]) {
        text.extend_from_slice(gap.to_string().as_bytes());
        text.extend_from_slice(part);
    }
    text
}

/// The next choice in dictionary order, the first gap slowest; after the last choice the first.
fn next_choice(gaps: &mut [u32], last: u32) {
    for gap in gaps.iter_mut().rev() {
        if *gap < last {
            *gap += 1;
            return;
        }
        *gap = 0;
    }
}
