//! Inputs of the import call: a case, its name list, and a plan form of its tree. Names and ids are drawn to be alike, long or telling,
//! compound lines come in any order, and the case often has another plan and other nodes than the form. Some inputs are damaged
//! (`faults`), some are as large as they may be.

pub mod faults;

use super::extremes::{chain, method, pad, sets_of_32, skeleton, three_thousand};
use super::{damage, dents, gaps, grow, place, sound, tangles};
use super::{Draft, Line, Rng, Tree, Weave};
use faults::{Fault, Way, FAULTS};
use std::collections::HashSet;

/// What the import call reads.
#[derive(Clone, Debug, Default)]
pub struct Texts {
    pub case: Vec<u8>,
    pub names: Vec<u8>,
    pub form: Vec<u8>,
}

impl Texts {
    /// All three in one, to be looked at.
    pub fn shown(&self) -> Vec<u8> {
        let Texts { case, names, form } = self;
        [&b"case "[..], case, b" names ", names, b" form ", form].concat()
    }
}

pub type Name = Vec<u8>;

/// A name list and a plan form by their words; nothing keeps them within the card's rules.
#[derive(Clone, Debug)]
pub struct Sheet {
    pub tasks: Vec<Name>,
    pub methods: Vec<Name>,
    /// The action lines, in plan order: id and name.
    pub actions: Vec<(u32, Name)>,
    pub root: u32,
    pub compounds: Vec<Compound>,
    pub model: Model,
}

#[derive(Clone, Debug)]
pub struct Compound {
    pub id: u32,
    pub task: Name,
    pub method: Name,
    pub subtasks: Vec<u32>,
}

/// What is told by the case: how many tasks are actions, and each method's task and number of subtasks.
#[derive(Clone, Debug)]
pub struct Model {
    pub actions: usize,
    pub methods: Vec<(usize, usize)>,
}

impl Sheet {
    /// The form of a draft whose tree is sound.
    pub fn of(rng: &mut Rng, draft: &Draft) -> Sheet {
        let tasks = draw_names(rng, draft.actions.len() + draft.compound as usize, &[]);
        let methods = draw_names(rng, draft.methods.len(), &tasks);
        let ids = draw_ids(rng, draft);
        let mut sheet = Sheet::with(draft, tasks, methods, &ids);
        match rng.below(5) {
            0 => {}
            1 => sheet.compounds.reverse(),
            _ => rng.shuffle(&mut sheet.compounds),
        }
        sheet
    }

    /// The form with these names and ids, the compound lines in the tree's order.
    fn with(draft: &Draft, tasks: Vec<Name>, methods: Vec<Name>, ids: &[u32]) -> Sheet {
        let children = children_of(draft);
        let mut actions = vec![(0, Name::new()); draft.plan.len()];
        let mut compounds = Vec::new();
        for (at, line) in draft.lines.iter().enumerate() {
            match *line {
                Line::L(action, position) => {
                    actions[position as usize - 1] = (ids[at], tasks[action as usize].clone());
                }
                Line::D(method) | Line::E(method, _) => compounds.push(Compound {
                    id: ids[at],
                    task: tasks[draft.methods[method as usize].task as usize].clone(),
                    method: methods[method as usize].clone(),
                    subtasks: children[at].iter().map(|&child| ids[child]).collect(),
                }),
            }
        }
        let of_method = |method: &super::Method| (method.task as usize, method.subtasks.len());
        let model = Model { actions: draft.actions.len(), methods: draft.methods.iter().map(of_method).collect() };
        Sheet { tasks, methods, actions, root: ids[0], compounds, model }
    }

    /// The lines of the name list, with their line feeds.
    pub fn name_lines(&self) -> Vec<Vec<u8>> {
        let listed = |names: &[Name]| -> Vec<Vec<u8>> {
            names.iter().enumerate().map(|(n, name)| [format!("{n},").as_bytes(), name, b"\n"].concat()).collect()
        };
        [listed(&self.tasks), listed(&self.methods)].concat()
    }

    /// The lines of the form, with their line feeds.
    pub fn form_lines(&self) -> Vec<Vec<u8>> {
        let mut lines = vec![b"==>\n".to_vec()];
        for (id, name) in &self.actions {
            lines.push([format!("{id} ").as_bytes(), name, b"\n"].concat());
        }
        lines.push(format!("root {}\n", self.root).into_bytes());
        for Compound { id, task, method, subtasks } in &self.compounds {
            let ids: String = subtasks.iter().map(|id| format!(" {id}")).collect();
            lines.push([format!("{id} ").as_bytes(), task, b" -> ", method, ids.as_bytes(), b"\n"].concat());
        }
        lines.push(b"<==\n".to_vec());
        lines
    }

    fn texts(&self, case: Vec<u8>) -> Texts {
        Texts { case, names: self.name_lines().concat(), form: self.form_lines().concat() }
    }
}

/// The nodes of each node's subtasks, of a sound tree.
fn children_of(draft: &Draft) -> Vec<Vec<usize>> {
    let mut children = vec![Vec::new(); draft.lines.len()];
    // Nodes with subtasks that are still to come, and how many.
    let mut open: Vec<(usize, usize)> = Vec::new();
    for (at, line) in draft.lines.iter().enumerate() {
        if let Some((parent, left)) = open.last_mut() {
            children[*parent].push(at);
            *left -= 1;
        }
        open.pop_if(|(_, left)| *left == 0);
        if let Line::D(method) = *line {
            open.push((at, draft.methods[method as usize].subtasks.len()));
        }
    }
    children
}

// ---------------------------------------------------------------- names

/// Names that look like other words of a form, or lie at the edges of what a name may be.
const TELLING: &[&str] = &[
    "root",
    "->",
    "<==",
    "==>",
    "0",
    "1",
    "2",
    "00",
    "01",
    "4294967295",
    "4294967296",
    "!",
    "~",
    "!~",
    "+",
    "-",
    ">",
    "roo",
    "roots",
    "Root",
    "==",
    "<=",
    "load",
    "Load",
    "load-",
    "(load)",
    "a;b",
    "a.b",
    "in-km/h",
    "12345678",
    "123456789",
];

/// So many names, no two alike; some of them also stand among the others.
fn draw_names(rng: &mut Rng, count: usize, others: &[Name]) -> Vec<Name> {
    let mut names: Vec<Name> = Vec::with_capacity(count);
    let mut taken = HashSet::new();
    let plain = count > 300 || rng.percent(15);
    let word = draw_word(rng);
    for number in 0..count {
        let mut name = match rng.below(100) {
            0..=93 if plain => [&word[..], number.to_string().as_bytes()].concat(),
            _ => draw_name(rng, &names, others),
        };
        while !taken.insert(name.clone()) {
            name.push(name_byte(rng));
        }
        names.push(name);
    }
    names
}

/// A telling name, a short one, one of any bytes, a long one, one like an earlier name, or one of the others.
fn draw_name(rng: &mut Rng, earlier: &[Name], others: &[Name]) -> Name {
    match rng.below(12) {
        0 | 1 => rng.pick(TELLING).as_bytes().to_vec(),
        2 | 3 => (0..rng.between(1, 4)).map(|_| *rng.pick(b"ab")).collect(),
        4 if rng.percent(20) => vec![name_byte(rng); rng.between(200, 1_500)],
        4 | 5 => (0..*rng.pick(&[7, 8, 9, 15, 16, 17, 24, 40, 100])).map(|_| name_byte(rng)).collect(),
        6 | 7 => (0..rng.between(1, 20)).map(|_| name_byte(rng)).collect(),
        8 | 9 if !earlier.is_empty() => neighbour(rng, earlier),
        10 if !others.is_empty() => rng.pick(others).clone(),
        _ => draw_word(rng),
    }
}

/// Small letters, like a word.
fn draw_word(rng: &mut Rng) -> Name {
    (0..rng.between(2, 12)).map(|_| *rng.pick(b"abcdefghijklmnopqrstuvwxyz-")).collect()
}

/// A byte that a name may have, often one at the edges.
pub fn name_byte(rng: &mut Rng) -> u8 {
    match rng.between(28, 126) as u8 {
        28..=32 => *rng.pick(b"!~+-"),
        b',' => b'.',
        byte => byte,
    }
}

/// One of these names with a byte changed, one more or one less.
fn neighbour(rng: &mut Rng, names: &[Name]) -> Name {
    let mut name = rng.pick(names).clone();
    let any = rng.below(name.len());
    let at = *rng.pick(&[0, name.len() - 1, any]);
    match rng.below(4) {
        0 => name.push(name_byte(rng)),
        1 if name.len() > 1 => {
            name.remove(at);
        }
        2 => name.insert(at, name_byte(rng)),
        _ => name[at] = name_byte(rng),
    }
    name
}

/// A name that isn't among these: mostly like one of them.
pub fn unlisted(rng: &mut Rng, names: &[Name]) -> Name {
    loop {
        let name = if rng.percent(70) { neighbour(rng, names) } else { draw_name(rng, names, &[]) };
        if !names.contains(&name) {
            return name;
        }
    }
}

// ---------------------------------------------------------------- ids

/// An id for each node: counted on by ones or by powers of two, from 0, 1, or up to the greatest; or any.
fn draw_ids(rng: &mut Rng, draft: &Draft) -> Vec<u32> {
    let count = draft.lines.len();
    if rng.percent(25) {
        return any_ids(rng, count);
    }
    let step = *rng.pick(&[1, 1, 1, 1, 2, 10, 64, 1 << 12, 1 << 13, 1 << 16, 1 << 20]);
    let last = step * (count as u64 - 1);
    let room = u64::from(u32::MAX).saturating_sub(last);
    let base = *rng.pick(&[0, 0, 1, room.min(9), room.min(99), room]);
    let mut ids: Vec<u32> = (0..count as u64).map(|n| (base + step * n) as u32).collect();
    match rng.below(3) {
        0 => {}
        1 => rng.shuffle(&mut ids),
        _ => ids.reverse(),
    }
    if ids.iter().collect::<HashSet<_>>().len() < count {
        return any_ids(rng, count);
    }
    ids
}

fn any_ids(rng: &mut Rng, count: usize) -> Vec<u32> {
    let mut ids = Vec::with_capacity(count);
    let mut taken = HashSet::new();
    while ids.len() < count {
        let id = (rng.word() as u32) >> *rng.pick(&[0, 0, 16, 19]);
        if taken.insert(id) {
            ids.push(id);
        }
    }
    ids
}

// ---------------------------------------------------------------- cases beside

/// The draft's text, or the same with another plan and other nodes, all of them readable.
fn case_beside(rng: &mut Rng, draft: &Draft) -> Vec<u8> {
    if rng.percent(50) {
        return draft.text();
    }
    let mut other = draft.clone();
    let (actions, methods) = (draft.actions.len(), draft.methods.len());
    let most = *rng.pick(&[0, 1, 5, 30]);
    other.plan = (0..rng.below(most + 1)).filter(|_| actions > 0).map(|_| rng.below(actions) as u32).collect();
    let cues = other.plan.len();
    let node = |rng: &mut Rng| match rng.below(3) {
        0 => Line::D(rng.below(methods) as u32),
        1 if cues > 0 => Line::L(rng.below(actions) as u32, rng.between(1, cues) as u32),
        _ => Line::E(rng.below(methods) as u32, rng.below(cues + 1) as u32),
    };
    other.lines = (0..rng.between(1, 6)).map(|_| node(rng)).collect();
    other.text()
}

// ---------------------------------------------------------------- random inputs

/// A random input: four in ten or more are accepted. Where every choice of gaps is to be tried, there are few.
pub fn any(rng: &mut Rng) -> Texts {
    if rng.percent(1) {
        let draft = long(rng);
        return with_anything(rng, draft);
    }
    loop {
        let draft = draw_draft(rng);
        let texts = with_anything(rng, draft);
        if affordable(&texts) {
            return texts;
        }
    }
}

/// The draft's form, its name list and a case beside it; now and then with something wrong in the model, in the case, or anywhere.
fn with_anything(rng: &mut Rng, mut draft: Draft) -> Texts {
    if rng.percent(4) {
        damage::model(rng, &mut draft);
    }
    let mut texts = with_faults(rng, &draft);
    if rng.percent(6) {
        damage::text(rng, &mut texts.case);
    }
    if rng.percent(4) {
        let either = if rng.percent(30) { &mut texts.names } else { &mut texts.form };
        noise(rng, either);
    }
    texts
}

/// A case whose tree is sound, most often accepted.
fn draw_draft(rng: &mut Rng) -> Draft {
    match rng.below(100) {
        0..=64 => gaps::sought(rng),
        65..=86 => sound(rng),
        87..=90 => tangles::tangled(rng),
        91..=93 => dents::dented(rng),
        94..=96 => {
            let levels = *rng.pick(&[60, 63, 64, 64, 65, 65, 66]);
            chain(rng, levels).0
        }
        _ => gaps::around(rng),
    }
}

/// The same without a fault, mostly, or with one to three.
fn with_faults(rng: &mut Rng, draft: &Draft) -> Texts {
    let count = *rng.pick(&[0, 0, 0, 0, 0, 0, 0, 0, 0, 0, 0, 1, 1, 1, 1, 1, 1, 2, 2, 3]);
    let faults: Vec<&Fault> = (0..count).map(|_| draw_fault(rng)).collect();
    damaged(rng, draft, &faults)
}

/// A fault, by its number first: most ways have 17.
fn draw_fault(rng: &mut Rng) -> &'static Fault {
    let number = *rng.pick(&[17, 17, 17, 18, 18, 18, 19, 19, 19, 19, 6, 0]);
    let of_names = number == 17 && rng.percent(30);
    let suits =
        |fault: &&Fault| fault.number == number && (number != 17 || matches!(fault.way, Way::Names(_)) == of_names);
    let those: Vec<&'static Fault> = FAULTS.iter().filter(suits).collect();
    those[rng.below(those.len())]
}

/// The draft's form, its name list and a case beside it, with these faults.
pub fn damaged(rng: &mut Rng, draft: &Draft, faults: &[&Fault]) -> Texts {
    let mut sheet = Sheet::of(rng, draft);
    for fault in faults {
        if let Way::Sheet(apply) = fault.way {
            apply(rng, &mut sheet);
        }
    }
    let (mut names, mut form) = (sheet.name_lines(), sheet.form_lines());
    // No fault is put on lines of which another one has left only a part.
    let whole = |lines: &[Vec<u8>]| !lines.is_empty() && lines.iter().all(|line| line.ends_with(b"\n"));
    for fault in faults {
        match fault.way {
            Way::Names(apply) if whole(&names) => apply(rng, &mut names),
            Way::Form(apply) if whole(&form) => apply(rng, &mut form),
            _ => {}
        }
    }
    Texts { case: case_beside(rng, draft), names: names.concat(), form: form.concat() }
}

/// Changes, drops or puts in a byte.
fn noise(rng: &mut Rng, text: &mut Vec<u8>) {
    if text.is_empty() {
        return;
    }
    let at = rng.below(text.len());
    let odd = *rng.pick(b"\0\t\r\n\n  ,,0123456789-<=>root\x1f\x7f\x80\xff");
    match rng.below(4) {
        0 => text[at] ^= 1 << rng.below(8),
        1 => text[at] = odd,
        2 => text.insert(at, odd),
        _ => {
            text.remove(at);
        }
    }
}

/// Whether trying every choice of the case that the form makes is cheap, or there are too many of them to be tried at all.
pub fn affordable(texts: &Texts) -> bool {
    let mut lines = texts.form.split(|&byte| byte == b'\n').skip(1);
    let cues = lines.by_ref().take_while(|line| !line.starts_with(b"root")).count();
    // An empty method has no subtasks: its line has four words.
    let empty = lines.filter(|line| line.iter().filter(|&&byte| byte == b' ').count() == 3).count();
    let choices = gaps::choices(cues, empty, 1_000_000);
    choices > 1_000_000 || choices * (texts.case.len() + 200) <= 3_000_000
}

// ---------------------------------------------------------------- lengths

/// A case that makes a text of about as many bytes as there may be: up to ten less, or some more.
fn long(rng: &mut Rng) -> Draft {
    let (mut draft, _) = gaps::long_draft(rng);
    draft.lines.iter_mut().for_each(without_gap);
    let length = if rng.percent(70) { rng.between(65_534, 65_537) } else { rng.between(65_525, 65_545) };
    pad(&mut draft, length);
    draft
}

fn without_gap(line: &mut Line) {
    if let Line::E(_, gap) = line {
        *gap = 0;
    }
}

/// Just 3,000 nodes, none of them empty, with so many cues, 989 to 1,001, in a model with so many of everything.
fn three_thousand_full(cues: usize, actions: usize, compound: u32, methods: usize) -> Draft {
    let mut draft = three_thousand(actions, compound, methods);
    let g = actions as u32;
    let (s, x, z) = (g + 1, g + 2, g + 3);
    // 1 + 32 + 3 * 989 nodes; the first few of the 989 have two leaves, the others a task with one.
    draft.methods[3].subtasks = vec![z];
    draft.methods[5] = method(z, vec![0]);
    let (mut ss, mut xs) = (0, 0);
    let mut tree = grow(&draft, &mut |task, _, _| {
        ss += u32::from(task == s);
        xs += usize::from(task == x);
        match task - g {
            0 => 0,
            1 => 1 + u32::from(ss > 29),
            2 => 3 + u32::from(xs <= cues - 989),
            _ => 5,
        }
    });
    place(&mut Rng::new(3_002), &mut draft, &mut tree, Weave::Woven);
    draft
}

/// A chain of so many levels.
fn levels(count: usize) -> Draft {
    let mut draft = skeleton(0, 0, 1, vec![method(0, vec![0]), method(0, vec![])]);
    let Tree { lines, .. } = grow(&draft, &mut |_, level, _| u32::from(level == count));
    draft.lines = lines;
    draft
}

/// The draft with its plan and its nodes cut down to one node, to leave a case room for other things.
fn shortened(draft: &Draft) -> Draft {
    Draft { plan: vec![], lines: vec![Line::D(0)], ..draft.clone() }
}

/// Every input of chosen size, by name.
pub fn all() -> Vec<(&'static str, Texts)> {
    let rng = &mut Rng::new(6);
    let mut inputs = Vec::new();
    for (name, cues) in
        [("3000 lines, 989 actions", 989), ("3000 lines, 1000 actions", 1_000), ("3000 lines, 1001 actions", 1_001)]
    {
        let draft = three_thousand_full(cues, 10, 4, 6);
        inputs.push((name, Sheet::of(rng, &draft).texts(shortened(&draft).text())));
    }
    let full = three_thousand_full(1_000, 10, 4, 6);
    let mut sheet = Sheet::of(rng, &full);
    sheet.compounds.push(Compound { id: fresh(&sheet), ..sheet.compounds[0].clone() });
    inputs.push(("3001 lines, a compound one more", sheet.texts(full.text())));
    let mut sheet = Sheet::of(rng, &full);
    sheet.actions.insert(500, (fresh(&sheet), sheet.actions[0].1.clone()));
    inputs.push(("3001 lines, an action more", sheet.texts(full.text())));
    inputs.extend(of_limits(rng));
    inputs.extend(of_ids(rng));
    inputs.extend(of_drafts(rng));
    inputs
}

/// As many names as there may be; texts of the greatest length and over it; names of any length.
fn of_limits(rng: &mut Rng) -> Vec<(&'static str, Texts)> {
    let limits = three_thousand_full(1_000, 1_024, 1_024, 2_048);
    let mut inputs = vec![("4096 names", Sheet::of(rng, &limits).texts(limits.text()))];
    for (name, length) in [("65535 bytes made", 65_535), ("65536 bytes made", 65_536)] {
        let mut draft = limits.clone();
        pad(&mut draft, length);
        inputs.push((name, Sheet::of(rng, &draft).texts(shortened(&draft).text())));
    }
    let mut draft = shortened(&limits);
    pad(&mut draft, 65_535);
    inputs.push(("83000 bytes made", Sheet::of(rng, &limits).texts(draft.text())));
    let draft = super::extremes::four_nodes();
    for (name, length) in [("names of 300 bytes", 300), ("names of 70000 bytes", 70_000)] {
        let mut sheet = Sheet::of(rng, &draft);
        sheet.rename(|names| names.iter().map(|name| [vec![b'x'; length], name.clone()].concat()).collect());
        inputs.push((name, sheet.texts(draft.text())));
    }
    inputs
}

/// 3,000 lines with an id's faults on many of them.
fn of_ids(rng: &mut Rng) -> Vec<(&'static str, Texts)> {
    let draft = skeleton(0, 1, 1, vec![method(1, vec![1]), method(1, vec![0; 32]), method(1, vec![])]);
    let case = Draft { lines: vec![Line::D(0)], ..draft.clone() };
    let root = Draft { lines: vec![Line::E(2, 0)], ..draft };
    let line = |sheet: &Sheet, id: u32, method: usize, subtasks: Vec<u32>| {
        let (task, method) = (sheet.tasks[1].clone(), sheet.methods[method].clone());
        Compound { id, task, method, subtasks }
    };
    // Each of them a subtask of the one before: a ring, or the same with the root outside of it.
    let mut ring = Sheet::of(rng, &root);
    ring.root = 0;
    ring.compounds = (0..3_000).map(|n| line(&ring, n, 0, vec![(n + 1) % 3_000])).collect();
    let mut apart = ring.clone();
    apart.compounds[0] = line(&apart, 0, 2, vec![]);
    apart.compounds[2_999].subtasks = vec![1];
    let mut wide = ring.clone();
    wide.compounds = (0..3_000).map(|n| line(&wide, n, 1, (0..32).map(|j| (32 * n + j) % 3_000).collect())).collect();
    let mut same = ring.clone();
    same.root = 7;
    same.compounds.iter_mut().for_each(|line| line.id = 7);
    let names = ["a ring of 3000", "a ring of 2999 apart", "96000 subtasks", "one id 3000 times"];
    names.into_iter().zip([ring, apart, wide, same].map(|sheet| sheet.texts(case.text()))).collect()
}

/// Drafts of chosen size that are cheap to find the gaps of.
fn of_drafts(rng: &mut Rng) -> Vec<(&'static str, Texts)> {
    let cases = [
        ("four nodes", super::extremes::four_nodes()),
        ("1000 cues and a gap", gaps::thousand()),
        ("sets of 32", sets_of_32()),
        ("64 levels", levels(64)),
        ("65 levels", levels(65)),
        ("3000 levels", levels(3_000)),
        ("3000 nodes, most of them empty", three_thousand(10, 4, 6)),
    ];
    cases.map(|(name, draft)| (name, Sheet::of(rng, &draft).texts(draft.text()))).to_vec()
}

// ---------------------------------------------------------------- timed inputs

/// An input that is timed.
pub struct Timed {
    pub name: &'static str,
    pub texts: Texts,
    /// The case that is made, with the gap that is found: an accepted one.
    pub made: Vec<u8>,
}

/// Inputs of chosen size that are accepted; the case beside has no plan, and names are plain. So many action and compound lines together,
/// with as many cues as fit and one empty task, or none where there are 3,000. As many names as there may be, the last ones in use; the same
/// with tasks whose names all have one hash in the proved call.
pub fn timed() -> Vec<Timed> {
    let limits = with_last_tasks(three_thousand_full(1_000, 1_024, 1_024, 2_048));
    let colliding = colliding_names(limits.actions.len() + limits.compound as usize);
    vec![
        timed_as("four nodes", &super::extremes::four_nodes(), None),
        timed_as("100 lines, 94 cues", &one_gap_found(94), None),
        timed_as("1000 lines, 965 cues", &one_gap_found(965), None),
        timed_as("1036 lines, 1000 cues", &one_gap_found(1_000), None),
        timed_as("3000 lines, 1000 cues", &three_thousand_full(1_000, 10, 4, 6), None),
        timed_as("3000 lines, 4096 names", &limits, None),
        timed_as("3000 lines, 2048 names of a hash", &limits, Some(colliding)),
    ]
}

/// Ids as a planner may give them: the cues from 0 on, then the other tasks.
fn timed_as(name: &'static str, draft: &Draft, tasks: Option<Vec<Name>>) -> Timed {
    let numbered = |word: &str, count: usize| (0..count).map(|n| format!("{word}-{n}").into_bytes()).collect();
    let tasks = tasks.unwrap_or_else(|| numbered("task", draft.actions.len() + draft.compound as usize));
    let mut others = draft.plan.len() as u32..;
    let id = |line: &Line| match *line {
        Line::L(_, position) => position - 1,
        _ => others.next().expect("an id"),
    };
    let ids: Vec<u32> = draft.lines.iter().map(id).collect();
    let sheet = Sheet::with(draft, tasks, numbered("method", draft.methods.len()), &ids);
    Timed { name, texts: sheet.texts(shortened(draft).text()), made: draft.text() }
}

/// A case that is accepted: its empty task, node 1, stands in the gap that is found.
fn one_gap_found(cues: usize) -> Draft {
    let mut draft = gaps::one_gap(cues);
    draft.lines[1] = Line::E(1, cues.min(960) as u32);
    draft
}

/// The same with the last actions and compound tasks in use in place of the first ten and four.
fn with_last_tasks(mut draft: Draft) -> Draft {
    let (actions, compound) = (draft.actions.len() as u32, draft.compound);
    let raise = |task: &mut u32| *task += if *task < actions { actions - 10 } else { compound - 4 };
    raise(&mut draft.goal);
    draft.plan.iter_mut().for_each(raise);
    for method in &mut draft.methods {
        raise(&mut method.task);
        method.subtasks.iter_mut().for_each(raise);
    }
    for line in &mut draft.lines {
        if let Line::L(action, _) = line {
            raise(action);
        }
    }
    draft
}

/// So many names, up to 2,048, with one hash, which is 31 times the hash of what came before, and the next byte: the same after `Aa` and
/// after `BB`.
fn colliding_names(count: usize) -> Vec<Name> {
    let block = |number: usize, bit: usize| if number >> bit & 1 == 0 { b"Aa" } else { b"BB" };
    (0..count).map(|number| (0..11).flat_map(|bit| *block(number, bit)).collect()).collect()
}

/// An id that no line of the form has.
pub fn fresh(sheet: &Sheet) -> u32 {
    let ids: HashSet<u32> = sheet.ids().collect();
    (0..).find(|id| !ids.contains(id)).expect("an id")
}

impl Sheet {
    /// All ids that are defined or used.
    fn ids(&self) -> impl Iterator<Item = u32> + '_ {
        let defined = self.actions.iter().map(|(id, _)| *id).chain([self.root]);
        defined.chain(self.compounds.iter().flat_map(|line| line.subtasks.iter().copied().chain([line.id])))
    }

    /// Gives tasks and methods other names, on all lines.
    fn rename(&mut self, other: impl Fn(&[Name]) -> Vec<Name>) {
        let (tasks, methods) = (other(&self.tasks), other(&self.methods));
        let swap = |name: &mut Name, from: &[Name], to: &[Name]| {
            let at = from.iter().position(|listed| listed == name).expect("a listed name");
            *name = to[at].clone();
        };
        self.actions.iter_mut().for_each(|(_, name)| swap(name, &self.tasks, &tasks));
        for line in &mut self.compounds {
            swap(&mut line.task, &self.tasks, &tasks);
            swap(&mut line.method, &self.methods, &methods);
        }
        (self.tasks, self.methods) = (tasks, methods);
    }
}
