//! A deterministic generator of case texts: one text for each pair of seed and number.
//!
//! A sound case is made in the order that lets everything hold: methods without constraints,
//! a tree grown from them, positions and gaps woven into it, effects, the states they give,
//! preconditions true in those states, and last the constraints that hold (or, now and then,
//! one that doesn't), above all those that a slightly wrong reading of 01 would take otherwise.
//! Then the draft or its text may be damaged (`damage`), or its tree spoiled (`trees`). Long stretches for betweens (`dents`) and
//! texts at the size limits (`extremes`) are built by hand. For the write call constraints are put
//! out of order and repeated (`tangles`). For the call that finds the gaps constraints tell choices of them
//! apart (`gaps`). The import call has a name list and a plan form beside the case (`forms`). The step call has inputs of its own
//! (`steps`).

pub mod damage;
mod dents;
pub mod extremes;
pub mod forms;
pub mod gaps;
pub mod steps;
pub mod tangles;
pub mod trees;

use std::io::Write;

// ---------------------------------------------------------------- random numbers

/// SplitMix64: small, seedable, good enough to choose test cases.
pub struct Rng(u64);

impl Rng {
    pub fn new(seed: u64) -> Rng {
        Rng(seed)
    }

    pub fn word(&mut self) -> u64 {
        self.0 = self.0.wrapping_add(0x9E37_79B9_7F4A_7C15);
        let mut z = self.0;
        z = (z ^ (z >> 30)).wrapping_mul(0xBF58_476D_1CE4_E5B9);
        z = (z ^ (z >> 27)).wrapping_mul(0x94D0_49BB_1331_11EB);
        z ^ (z >> 31)
    }

    /// A number below `limit`; 0 if there is none.
    pub fn below(&mut self, limit: usize) -> usize {
        ((u128::from(self.word()) * limit as u128) >> 64) as usize
    }

    /// A number from `low` to `high`, both included.
    pub fn between(&mut self, low: usize, high: usize) -> usize {
        low + self.below(high - low + 1)
    }

    pub fn percent(&mut self, chance: usize) -> bool {
        self.below(100) < chance
    }

    pub fn pick<'a, T>(&mut self, items: &'a [T]) -> &'a T {
        &items[self.below(items.len())]
    }

    pub fn shuffle<T>(&mut self, items: &mut [T]) {
        for last in (1..items.len()).rev() {
            items.swap(last, self.below(last + 1));
        }
    }

    /// Each item with the given chance, in their order.
    fn subset(&mut self, items: &[u32], chance: usize) -> Vec<u32> {
        items.iter().copied().filter(|_| self.percent(chance)).collect()
    }
}

// ---------------------------------------------------------------- drafts

/// A proposition that is asked to be true (B, F, W) or false (b, f, w).
#[derive(Clone, Copy, Debug, PartialEq)]
pub struct Signed {
    pub proposition: u32,
    pub positive: bool,
}

/// The proposition asked to be true.
pub fn is(proposition: u32) -> Signed {
    Signed { proposition, positive: true }
}

/// The proposition asked to be false.
pub fn not(proposition: u32) -> Signed {
    Signed { proposition, positive: false }
}

impl Signed {
    /// The letter of a constraint with this sign, given as a capital.
    fn letter(self, capital: char) -> char {
        if self.positive {
            capital
        } else {
            capital.to_ascii_lowercase()
        }
    }
}

#[derive(Clone, Debug, PartialEq)]
pub enum Constraint {
    Order(u32, u32),
    Before(Signed, u32),
    After(Signed, u32),
    Between(u32, Signed, u32),
}

impl Constraint {
    /// What a condition asks; an order asks nothing.
    fn asked(&mut self) -> Option<&mut Signed> {
        match self {
            Constraint::Order(..) => None,
            Constraint::Before(asked, _) | Constraint::After(asked, _) | Constraint::Between(_, asked, _) => {
                Some(asked)
            }
        }
    }
}

#[derive(Clone, Debug)]
pub struct Method {
    pub task: u32,
    pub subtasks: Vec<u32>,
    pub constraints: Vec<Constraint>,
}

/// The fields of a node line.
#[derive(Clone, Copy, Debug)]
pub enum Line {
    D(u32),
    E(u32, u32),
    L(u32, u32),
}

/// The four sets of an action: needed, forbidden, added, deleted.
pub type ActionSets = [Vec<u32>; 4];

/// A case before it is written as text; nothing keeps it within 01's ranges.
#[derive(Clone, Debug, Default)]
pub struct Draft {
    pub propositions: u32,
    /// The propositions that sets and constraints are drawn from, ascending: few of many keep
    /// a text small and still reach every word of a state.
    pub palette: Vec<u32>,
    pub compound: u32,
    pub goal: u32,
    pub initial: Vec<u32>,
    pub actions: Vec<ActionSets>,
    pub methods: Vec<Method>,
    pub plan: Vec<u32>,
    pub lines: Vec<Line>,
}

impl Draft {
    /// The draft as a case text, with header counts that fit it.
    pub fn text(&self) -> Vec<u8> {
        let mut out = Vec::new();
        let header = [
            self.propositions,
            self.actions.len() as u32,
            self.compound,
            self.methods.len() as u32,
            self.goal,
            self.plan.len() as u32,
            self.lines.len() as u32,
        ];
        write_line(&mut out, 'N', header);
        write_line(&mut out, 'I', counted(&self.initial));
        for sets in &self.actions {
            write_line(&mut out, 'A', sets.iter().flat_map(|set| counted(set)));
        }
        for method in &self.methods {
            let head = [method.task].into_iter().chain(counted(&method.subtasks));
            write_line(&mut out, 'M', head.chain([method.constraints.len() as u32]));
            for constraint in &method.constraints {
                write_constraint(&mut out, constraint);
            }
        }
        write_line(&mut out, 'P', self.plan.iter().copied());
        for line in &self.lines {
            match *line {
                Line::D(method) => write_line(&mut out, 'D', [method]),
                Line::E(method, gap) => write_line(&mut out, 'E', [method, gap]),
                Line::L(action, position) => write_line(&mut out, 'L', [action, position]),
            }
        }
        out
    }
}

fn write_line(out: &mut Vec<u8>, letter: char, fields: impl IntoIterator<Item = u32>) {
    out.push(letter as u8);
    for field in fields {
        write!(out, ",{field}").expect("a vector takes every write");
    }
    out.push(b'\n');
}

fn write_constraint(out: &mut Vec<u8>, constraint: &Constraint) {
    match *constraint {
        Constraint::Order(i, j) => write_line(out, 'O', [i, j]),
        Constraint::Before(asked, set) => write_line(out, asked.letter('B'), [asked.proposition, set]),
        Constraint::After(asked, set) => write_line(out, asked.letter('F'), [asked.proposition, set]),
        Constraint::Between(from, asked, to) => write_line(out, asked.letter('W'), [from, asked.proposition, to]),
    }
}

/// A list as the text has it: its count, then its members.
fn counted(list: &[u32]) -> impl Iterator<Item = u32> + '_ {
    [list.len() as u32].into_iter().chain(list.iter().copied())
}

// ---------------------------------------------------------------- trees

/// A decomposition in preorder; `children` holds the nodes of each node's subtasks.
#[derive(Default)]
pub struct Tree {
    pub lines: Vec<Line>,
    pub children: Vec<Vec<usize>>,
}

/// Decomposes the draft's goal; `choose` picks a method from the task, the level and the
/// number of nodes so far. Places are left 0.
pub fn grow(draft: &Draft, choose: &mut dyn FnMut(u32, usize, usize) -> u32) -> Tree {
    let mut tree = Tree::default();
    grow_node(draft, draft.goal, 1, choose, &mut tree);
    tree
}

fn grow_node(
    draft: &Draft,
    task: u32,
    level: usize,
    choose: &mut dyn FnMut(u32, usize, usize) -> u32,
    tree: &mut Tree,
) -> usize {
    let at = tree.lines.len();
    tree.children.push(Vec::new());
    if (task as usize) < draft.actions.len() {
        tree.lines.push(Line::L(task, 0));
        return at;
    }
    let method = choose(task, level, at);
    let subtasks = &draft.methods[method as usize].subtasks;
    tree.lines.push(if subtasks.is_empty() { Line::E(method, 0) } else { Line::D(method) });
    for &subtask in subtasks {
        let child = grow_node(draft, subtask, level + 1, choose, tree);
        tree.children[at].push(child);
    }
    at
}

/// How sibling subtrees share the plan.
#[derive(Clone, Copy, PartialEq)]
pub enum Weave {
    /// One after the other, as the method lists them.
    Ordered,
    /// Each subtree keeps its order; siblings are merged at random.
    Woven,
    /// Any order at all.
    Shuffled,
}

/// Gives every leaf its position and every empty node its gap; writes plan and lines.
pub fn place(rng: &mut Rng, draft: &mut Draft, tree: &mut Tree, weave: Weave) {
    let mut sequence = sequence_of(rng, tree, 0, weave);
    if weave == Weave::Shuffled {
        rng.shuffle(&mut sequence);
    }
    draft.plan.clear();
    for node in sequence {
        match &mut tree.lines[node] {
            Line::L(action, position) => {
                draft.plan.push(*action);
                *position = draft.plan.len() as u32;
            }
            Line::E(_, gap) => *gap = draft.plan.len() as u32,
            Line::D(_) => unreachable!("only nodes without subtasks are placed"),
        }
    }
    draft.lines = tree.lines.clone();
}

/// The leaves and empty nodes under a node in the order of the plan.
fn sequence_of(rng: &mut Rng, tree: &Tree, node: usize, weave: Weave) -> Vec<usize> {
    if tree.children[node].is_empty() {
        return vec![node];
    }
    let parts: Vec<Vec<usize>> =
        tree.children[node].iter().map(|&child| sequence_of(rng, tree, child, weave)).collect();
    if weave == Weave::Woven && rng.percent(70) {
        merge(rng, &parts)
    } else {
        parts.concat()
    }
}

/// A random merge that keeps the order within each part.
fn merge(rng: &mut Rng, parts: &[Vec<usize>]) -> Vec<usize> {
    let mut turns: Vec<usize> = parts.iter().enumerate().flat_map(|(i, part)| vec![i; part.len()]).collect();
    rng.shuffle(&mut turns);
    let mut next = vec![0; parts.len()];
    turns
        .into_iter()
        .map(|part| {
            next[part] += 1;
            parts[part][next[part] - 1]
        })
        .collect()
}

// ---------------------------------------------------------------- states and conditions

/// Draws an initial state and effects, then conditions that are true wherever they are asked.
/// `density` is how full the sets are, in percent.
pub fn animate(rng: &mut Rng, draft: &mut Draft, density: usize) {
    draft.initial = rng.subset(&draft.palette, 50);
    for sets in &mut draft.actions {
        sets[2] = rng.subset(&draft.palette, density);
        sets[3] = rng.subset(&draft.palette, density / 2 + 1);
    }
    let states = states_of(draft);
    for action in 0..draft.actions.len() {
        let before: Vec<&Vec<bool>> =
            (0..draft.plan.len()).filter(|&i| draft.plan[i] as usize == action).map(|i| &states[i]).collect();
        let always = |p: &u32, truth: bool| before.iter().all(|state| state[*p as usize] == truth);
        let mut needed = rng.subset(&draft.palette, density);
        needed.retain(|p| always(p, true));
        let mut forbidden = rng.subset(&draft.palette, density);
        forbidden.retain(|p| always(p, false));
        draft.actions[action][0] = needed;
        draft.actions[action][1] = forbidden;
    }
}

/// States 0 to k under the effects alone.
pub fn states_of(draft: &Draft) -> Vec<Vec<bool>> {
    let mut state = vec![false; draft.propositions as usize];
    draft.initial.iter().for_each(|&p| state[p as usize] = true);
    let mut states = vec![state.clone()];
    for &cue in &draft.plan {
        let [_, _, added, deleted] = &draft.actions[cue as usize];
        deleted.iter().for_each(|&p| state[p as usize] = false);
        added.iter().for_each(|&p| state[p as usize] = true);
        states.push(state.clone());
    }
    states
}

/// Doubled start and end of every node of a placed tree.
fn spans_of(tree: &Tree) -> Vec<(u32, u32)> {
    let mut spans = vec![(u32::MAX, 0); tree.lines.len()];
    for node in (0..tree.lines.len()).rev() {
        spans[node] = match tree.lines[node] {
            Line::L(_, position) => (2 * position, 2 * position),
            Line::E(_, gap) => (2 * gap + 1, 2 * gap + 1),
            Line::D(_) => union(tree.children[node].iter().map(|&child| spans[child])),
        };
    }
    spans
}

fn union(spans: impl Iterator<Item = (u32, u32)>) -> (u32, u32) {
    spans.fold((u32::MAX, 0), |all, one| (all.0.min(one.0), all.1.max(one.1)))
}

/// A placed tree with its states, to see which constraints hold.
struct Stage {
    states: Vec<Vec<bool>>,
    spans: Vec<(u32, u32)>,
    /// The nodes that use each method.
    users: Vec<Vec<usize>>,
}

impl Stage {
    fn new(draft: &Draft, tree: &Tree) -> Stage {
        let mut users = vec![Vec::new(); draft.methods.len()];
        for (node, line) in tree.lines.iter().enumerate() {
            if let Line::D(method) | Line::E(method, _) = *line {
                users[method as usize].push(node);
            }
        }
        Stage { states: states_of(draft), spans: spans_of(tree), users }
    }

    /// Whether a constraint holds at a node, under the right reading of 01 or a wrong one.
    fn holds(&self, tree: &Tree, node: usize, constraint: &Constraint, reading: Reading) -> bool {
        let c = |set: u32| self.span(tree, node, set, reading).0.div_ceil(2).max(1) as usize;
        let f = |set: u32| (self.span(tree, node, set, reading).1 / 2) as usize;
        let last = self.states.len() - 1;
        let is_so =
            |asked: Signed, state: usize| self.states[state.min(last)][asked.proposition as usize] == asked.positive;
        match *constraint {
            Constraint::Order(i, j) => f(1 << i) < c(1 << j),
            Constraint::Before(asked, set) => is_so(asked, c(set) - 1),
            Constraint::After(asked, set) => is_so(asked, f(set)),
            Constraint::Between(from, asked, to) => match (f(from), c(to), reading) {
                (from, to, _) if from >= to => true,
                (from, to, Reading::EndsOnly) => is_so(asked, from) && is_so(asked, to - 1),
                (from, to, Reading::OpenStart) => (from + 1..to).all(|state| is_so(asked, state)),
                (from, to, Reading::OpenEnd) => (from..to - 1).all(|state| is_so(asked, state)),
                (from, to, Reading::OneFurther) => (from..to + 1).all(|state| is_so(asked, state)),
                (from, to, _) => (from..to).all(|state| is_so(asked, state)),
            },
        }
    }

    /// Doubled start and end of a set of subtasks; the wrong readings shift or shrink it.
    fn span(&self, tree: &Tree, node: usize, set: u32, reading: Reading) -> (u32, u32) {
        let member = |j: usize| self.spans[tree.children[node][j]];
        let members = || (0..32).filter(|j| set >> j & 1 == 1).map(member);
        let is_empty_task = |(start, end): (u32, u32)| start == end && start % 2 == 1;
        let (start, end) = if set == 0 {
            self.spans[node]
        } else if reading == Reading::WithoutEmpty && !members().all(is_empty_task) {
            union(members().filter(|&span| !is_empty_task(span)))
        } else {
            union(members())
        };
        match reading {
            Reading::StartDown => (start / 2 * 2, end),
            Reading::EndUp => (start, end.div_ceil(2) * 2),
            _ => (start, end),
        }
    }

    fn holds_everywhere(&self, tree: &Tree, method: usize, constraint: &Constraint, reading: Reading) -> bool {
        self.users[method].iter().all(|&node| self.holds(tree, node, constraint, reading))
    }

    /// A constraint for a method: a true one, or if `broken` one that fails at some node. Of
    /// those drawn, one that some wrong reading takes the other way is best.
    fn choose(
        &self,
        rng: &mut Rng,
        draft: &Draft,
        tree: &Tree,
        method: usize,
        strictness: Strictness,
        broken: bool,
    ) -> Option<Constraint> {
        let subtasks = draft.methods[method].subtasks.len();
        if broken && rng.percent(60) {
            let dented = self.choose_dented(rng, draft, tree, method, strictness.negative);
            if dented.is_some() {
                return dented;
            }
        }
        let mut fallback = None;
        for _ in 0..strictness.tries {
            let candidate = draw_constraint(rng, &draft.palette, subtasks, strictness.negative)?;
            if self.holds_everywhere(tree, method, &candidate, Reading::Right) == broken {
                continue;
            }
            if WRONG.iter().any(|&wrong| self.holds_everywhere(tree, method, &candidate, wrong) == broken) {
                return Some(candidate);
            }
            fallback = Some(candidate);
        }
        fallback
    }

    /// A between of two single subtasks that fails at some node, but at no end of its states.
    fn choose_dented(
        &self,
        rng: &mut Rng,
        draft: &Draft,
        tree: &Tree,
        method: usize,
        negative: usize,
    ) -> Option<Constraint> {
        let subtasks = draft.methods[method].subtasks.len();
        if subtasks < 2 || draft.palette.is_empty() {
            return None;
        }
        let mut draw = || {
            let (from, to) = (1 << rng.below(subtasks), 1 << rng.below(subtasks));
            Constraint::Between(from, draw_signed(rng, &draft.palette, negative), to)
        };
        (0..40).map(|_| draw()).find(|between| {
            self.holds_everywhere(tree, method, between, Reading::EndsOnly)
                && !self.holds_everywhere(tree, method, between, Reading::Right)
        })
    }
}

/// How a constraint may be read; all but the first are mistakes that a checker could make.
#[derive(Clone, Copy, PartialEq)]
enum Reading {
    Right,
    EndsOnly,
    OpenStart,
    OpenEnd,
    OneFurther,
    StartDown,
    EndUp,
    WithoutEmpty,
}

const WRONG: [Reading; 7] = [
    Reading::EndsOnly,
    Reading::OpenStart,
    Reading::OpenEnd,
    Reading::OneFurther,
    Reading::StartDown,
    Reading::EndUp,
    Reading::WithoutEmpty,
];

/// How the constraints of a draft are drawn.
#[derive(Clone, Copy)]
pub struct Strictness {
    pub most: usize,
    pub tries: usize,
    /// The chance, in percent, that a constraint is meant to fail.
    pub broken: usize,
    /// The chance, in percent, that a proposition is asked to be false.
    pub negative: usize,
}

/// Gives each method constraints that hold at every node that uses it, or now and then don't.
pub fn constrain(rng: &mut Rng, draft: &mut Draft, tree: &Tree, strictness: Strictness) {
    let stage = Stage::new(draft, tree);
    for method in 0..draft.methods.len() {
        for _ in 0..rng.between(0, strictness.most) {
            let broken = rng.percent(strictness.broken);
            let chosen = stage.choose(rng, draft, tree, method, strictness, broken);
            draft.methods[method].constraints.extend(chosen);
        }
    }
}

/// A readable constraint for a method with so many subtasks, if the model allows one.
fn draw_constraint(rng: &mut Rng, palette: &[u32], subtasks: usize, negative: usize) -> Option<Constraint> {
    let ordered = subtasks >= 2 && (palette.is_empty() || rng.percent(30));
    if ordered {
        let i = rng.below(subtasks);
        let j = (i + 1 + rng.below(subtasks - 1)) % subtasks;
        // Mostly in the method's order, which woven plans often keep.
        let (i, j) = if rng.percent(60) { (i.min(j), i.max(j)) } else { (i, j) };
        return Some(Constraint::Order(i as u32, j as u32));
    }
    if palette.is_empty() {
        return None;
    }
    let asked = draw_signed(rng, palette, negative);
    let set = draw_mask(rng, subtasks);
    Some(match rng.below(4) {
        0 => Constraint::Before(asked, set),
        1 => Constraint::After(asked, set),
        _ => Constraint::Between(set, asked, draw_mask(rng, subtasks)),
    })
}

/// A proposition, asked to be false with this chance in percent; of a chance of 0 nothing is drawn.
fn draw_signed(rng: &mut Rng, palette: &[u32], negative: usize) -> Signed {
    let proposition = *rng.pick(palette);
    Signed { proposition, positive: negative == 0 || !rng.percent(negative) }
}

/// A set of subtasks: the whole task, one subtask, every subtask, or any.
fn draw_mask(rng: &mut Rng, subtasks: usize) -> u32 {
    let all = ((1u64 << subtasks) - 1) as u32;
    match rng.below(4) {
        0 => 0,
        1 if subtasks > 0 => 1 << rng.below(subtasks),
        2 => all,
        _ => rng.word() as u32 & all,
    }
}

// ---------------------------------------------------------------- random sound cases

/// How big a random model may be.
struct Size {
    /// How many propositions come up in sets and constraints.
    members: usize,
    actions: usize,
    compound: usize,
    more_methods: usize,
    subtasks: usize,
    nodes: usize,
    strictness: Strictness,
}

/// Mostly tiny models, where every rule is close to every other; some bigger ones.
fn draw_size(rng: &mut Rng) -> Size {
    let broken = if rng.percent(50) { 20 } else { 0 };
    let negative = *rng.pick(&[0, 50, 50, 80]);
    match rng.below(40) {
        0..=21 => Size {
            members: rng.below(5),
            actions: rng.below(4),
            compound: rng.between(1, 3),
            more_methods: rng.below(4),
            subtasks: 4,
            nodes: rng.between(1, 12),
            strictness: Strictness { most: 3, tries: 6, broken, negative },
        },
        22..=36 => Size {
            members: rng.below(20),
            actions: rng.between(1, 8),
            compound: rng.between(1, 6),
            more_methods: rng.below(8),
            subtasks: 6,
            nodes: rng.between(4, 50),
            strictness: Strictness { most: 5, tries: 8, broken: broken / 3, negative },
        },
        37 => full_size(rng, Strictness { most: 5, tries: 8, broken: broken / 3, negative }),
        _ => Size {
            members: rng.between(0, 256),
            actions: rng.between(1, 40),
            compound: rng.between(1, 20),
            more_methods: rng.below(40),
            subtasks: rng.between(2, 32),
            nodes: rng.between(30, 300),
            strictness: Strictness { most: 8, tries: 12, broken: broken / 10, negative },
        },
    }
}

/// Few tasks, and sets of hundreds of members.
fn full_size(rng: &mut Rng, strictness: Strictness) -> Size {
    Size {
        members: rng.between(200, PROPOSITIONS as usize),
        actions: rng.between(1, 3),
        compound: rng.between(1, 2),
        more_methods: rng.below(4),
        subtasks: 4,
        nodes: rng.between(1, 12),
        strictness,
    }
}

/// A random case that is readable and, unless a constraint is meant to fail, accepted.
pub fn sound(rng: &mut Rng) -> Draft {
    let size = draw_size(rng);
    sound_of(rng, size)
}

/// A random case of this size.
fn sound_of(rng: &mut Rng, size: Size) -> Draft {
    let mut draft = draw_methods(rng, &size);
    let mut tree = grow_within(rng, &draft, size.nodes);
    let weave = *rng.pick(&[Weave::Ordered, Weave::Woven, Weave::Woven, Weave::Shuffled]);
    finish(rng, &mut draft, &mut tree, weave, size.strictness);
    draft
}

/// Places a grown tree, then draws states, conditions and constraints.
pub fn finish(rng: &mut Rng, draft: &mut Draft, tree: &mut Tree, weave: Weave, strictness: Strictness) {
    place(rng, draft, tree, weave);
    let density = *rng.pick(&[5, 20, 50]);
    animate(rng, draft, density);
    constrain(rng, draft, tree, strictness);
}

/// Methods without constraints: first a shallow one for each compound task, so that every
/// tree can be brought to an end, then any others.
fn draw_methods(rng: &mut Rng, size: &Size) -> Draft {
    let actions = size.actions;
    let tasks = actions + size.compound;
    let mut methods = Vec::new();
    for task in actions..tasks {
        let count = if actions == 0 || rng.percent(40) { 0 } else { rng.between(1, 3) };
        methods.push(draw_method(rng, task, count, actions));
    }
    for _ in 0..size.more_methods {
        let task = actions + rng.below(size.compound);
        let count = rng.between(0, size.subtasks);
        methods.push(draw_method(rng, task, count, tasks));
    }
    let (propositions, palette) = draw_palette(rng, size.members);
    Draft {
        propositions,
        palette,
        compound: size.compound as u32,
        goal: (actions + rng.below(size.compound)) as u32,
        actions: vec![ActionSets::default(); actions],
        methods,
        ..Draft::default()
    }
}

/// The most propositions that a model may have, and the most while a state had four words.
pub const PROPOSITIONS: u32 = 512;
pub const FORMER: u32 = 256;

/// Propositions at the edges of words and of the limits.
const EDGES: [u32; 22] =
    [0, 1, 63, 64, 65, 127, 128, 191, 192, 254, 255, 256, 257, 258, 319, 320, 383, 384, 447, 448, 510, 511];

/// The propositions of a model, and so many of them that its sets draw from: any, or some at the edges of words; often the last one.
fn draw_palette(rng: &mut Rng, members: usize) -> (u32, Vec<u32>) {
    let propositions = draw_count(rng, members as u32);
    let mut palette: Vec<u32> = (0..propositions).collect();
    if members < EDGES.len() && rng.percent(80) {
        palette.retain(|&p| EDGES.contains(&p) || p + 1 == propositions);
    }
    rng.shuffle(&mut palette);
    if let Some(last) = palette.iter().position(|&p| p + 1 == propositions).filter(|_| rng.percent(50)) {
        palette.swap(0, last);
    }
    palette.truncate(members);
    palette.sort();
    (propositions, palette)
}

/// How many propositions a model has whose sets draw from so many: just these, some more, about as many as whole words hold,
/// more than there once could be, or one too many.
fn draw_count(rng: &mut Rng, members: u32) -> u32 {
    let more = rng.between(members.min(FORMER) as usize, FORMER as usize) as u32;
    let many = rng.between(FORMER as usize + 1, PROPOSITIONS as usize) as u32;
    match rng.below(100) {
        0..=22 => members,
        23..=32 => more,
        33..=51 => *rng.pick(&[0, 1, 63, 64, 65, 127, 128, FORMER - 1, FORMER]),
        52..=98 => *rng.pick(&[FORMER + 1, 320, many, PROPOSITIONS - 1, PROPOSITIONS, PROPOSITIONS]),
        _ => PROPOSITIONS + 1,
    }
}

fn draw_method(rng: &mut Rng, task: usize, subtasks: usize, below: usize) -> Method {
    let subtasks = (0..subtasks).map(|_| rng.below(below) as u32).collect();
    Method { task: task as u32, subtasks, constraints: Vec::new() }
}

/// Grows a tree of about so many nodes: at random first, by the shallow methods later.
fn grow_within(rng: &mut Rng, draft: &Draft, nodes: usize) -> Tree {
    let shallow = |task: u32| task - draft.actions.len() as u32;
    let mut budget = nodes;
    loop {
        let tree = grow(draft, &mut |task, level, so_far| {
            if so_far >= budget || level > 40 {
                return shallow(task);
            }
            let own: Vec<usize> = (0..draft.methods.len()).filter(|&m| draft.methods[m].task == task).collect();
            *rng.pick(&own) as u32
        });
        let leaves = tree.lines.iter().filter(|line| matches!(line, Line::L(..))).count();
        if tree.lines.len() <= 3_000 && leaves <= 1_000 {
            return tree;
        }
        budget /= 2;
    }
}

// ---------------------------------------------------------------- inputs

/// The stream of inputs: number `i` of a seed is the same text on every run.
pub struct Inputs {
    seed: u64,
    extremes: Vec<Vec<u8>>,
    tangled: Vec<Vec<u8>>,
    forms: Vec<forms::Texts>,
}

impl Inputs {
    pub fn new(seed: u64) -> Inputs {
        let texts = |cases: Vec<(_, Vec<u8>)>| cases.into_iter().map(|(_, text)| text).collect();
        let forms = forms::all().into_iter().map(|(_, texts)| texts).collect();
        Inputs { seed, extremes: texts(extremes::all()), tangled: texts(tangles::all()), forms }
    }

    /// The numbers that belong to one input, for its text and for whatever is done with it.
    pub fn rng(&self, number: u64) -> Rng {
        let mut mixed = Rng::new(self.seed);
        Rng::new(mixed.word() ^ number.wrapping_mul(0xD134_2543_DE82_EF95))
    }

    pub fn text(&self, rng: &mut Rng) -> Vec<u8> {
        match rng.below(1_000) {
            0..=7 => rng.pick(&self.extremes).clone(),
            8..=14 => {
                let mut text = rng.pick(&self.extremes).clone();
                damage::text(rng, &mut text);
                text
            }
            15..=54 => trees::deep(rng).text(),
            55..=104 => dents::dented(rng).text(),
            105..=204 => trees::spoiled(rng).text(),
            205..=474 => sound(rng).text(),
            475..=654 => damaged(rng, 1).text(),
            655..=744 => damaged(rng, 2).text(),
            // Faults of both sorts: which one is named depends on the order of the tests.
            745..=799 => {
                let mut text = damaged(rng, 1).text();
                damage::text(rng, &mut text);
                text
            }
            _ => {
                let mut text = sound(rng).text();
                for _ in 0..rng.between(1, 2) {
                    damage::text(rng, &mut text);
                }
                text
            }
        }
    }
}

impl Inputs {
    /// A text for the write call: most are accepted.
    pub fn text_to_write(&self, rng: &mut Rng) -> Vec<u8> {
        match rng.below(1_000) {
            0..=5 => rng.pick(&self.tangled).clone(),
            6..=249 => self.text(rng),
            250..=599 => tangles::tangled(rng).text(),
            600..=899 => tangles::piled(rng).text(),
            900..=929 => {
                let mut draft = tangles::tangled(rng);
                damage::draft(rng, &mut draft);
                draft.text()
            }
            930..=959 => {
                let mut draft = tangles::tangled(rng);
                trees::spoil(rng, &mut draft);
                draft.text()
            }
            _ => {
                let mut text = tangles::piled(rng).text();
                damage::text(rng, &mut text);
                text
            }
        }
    }
}

impl Inputs {
    /// A text for the call that finds the gaps: of most a choice is accepted, and of most of these not the first. Where every
    /// choice is to be tried, there are few.
    pub fn text_to_find(&self, rng: &mut Rng) -> Vec<u8> {
        match rng.below(1_000) {
            0..=11 => return gaps::long(rng),
            12..=31 => {
                let mut draft = gaps::around(rng);
                // What is wrong with a tree comes ahead of the number of choices.
                if rng.percent(20) {
                    trees::spoil_once(rng, &mut draft);
                }
                return draft.text();
            }
            _ => {}
        }
        loop {
            let text = match rng.below(1_000) {
                0..=49 => self.text(rng),
                50..=64 => trees::deep(rng).text(),
                65..=819 => gaps::sought(rng).text(),
                820..=879 => {
                    let mut draft = gaps::sought(rng);
                    damage::draft(rng, &mut draft);
                    draft.text()
                }
                880..=919 => {
                    let mut draft = gaps::sought(rng);
                    trees::spoil(rng, &mut draft);
                    draft.text()
                }
                _ => {
                    let mut text = gaps::sought(rng).text();
                    damage::text(rng, &mut text);
                    text
                }
            };
            if gaps::affordable(&text) {
                return text;
            }
        }
    }
}

impl Inputs {
    /// A case, a name list and a plan form for the import call: a third and more are accepted.
    pub fn form(&self, rng: &mut Rng) -> forms::Texts {
        match rng.below(1_000) {
            0..=5 => rng.pick(&self.forms).clone(),
            _ => forms::any(rng),
        }
    }
}

/// A sound case damaged in so many ways.
fn damaged(rng: &mut Rng, ways: usize) -> Draft {
    let mut draft = sound(rng);
    for _ in 0..ways {
        damage::draft(rng, &mut draft);
    }
    draft
}
