//! Inputs of the call that finds the gaps: few empty tasks and cues, and constraints that hold with one choice of gaps and fail
//! with others ahead of it; texts that some gaps make too long; numbers of choices on both sides of the limit; and the dearest
//! cases, about a million choices of which none is accepted, or only the last.

use super::extremes::{method, padded, skeleton};
use super::{
    animate, draw_constraint, draw_methods, draw_palette, draw_size, grow, grow_within, is, not, place, spans_of,
};
use super::{ActionSets, Constraint, Draft, Line, Method, Reading, Rng, Stage, Tree, Weave};

/// How many choices there are, up to `most` and one more.
pub fn choices(cues: usize, empty: usize, most: usize) -> usize {
    (0..empty).try_fold(1, |choices: usize, _| Some(choices * (cues + 1)).filter(|&n| n <= most)).unwrap_or(most + 1)
}

/// Whether trying every choice of a text is cheap, or there are too many of them to be tried at all.
pub fn affordable(text: &[u8]) -> bool {
    let header = text.split(|&byte| byte == b'\n').next().unwrap_or_default();
    let field = header.split(|&byte| byte == b',').nth(6);
    let Some(cues) = field.and_then(|digits| std::str::from_utf8(digits).ok()?.parse::<usize>().ok()) else {
        return true;
    };
    let empty = text.split(|&byte| byte == b'\n').filter(|line| line.starts_with(b"E")).count();
    let choices = choices(cues.min(100_000), empty, 1_000_000);
    choices > 1_000_000 || choices * (text.len() + 200) <= 3_000_000
}

// ---------------------------------------------------------------- small cases

/// A small case, most often accepted, and most often not with the first choice.
pub fn sought(rng: &mut Rng) -> Draft {
    let (mut draft, mut tree) = if rng.percent(30) {
        of_any_methods(rng)
    } else {
        let (empty, cues) = draw_counts(rng);
        built(rng, empty, cues, 0)
    };
    let weave = *rng.pick(&[Weave::Ordered, Weave::Woven, Weave::Woven, Weave::Shuffled]);
    place(rng, &mut draft, &mut tree, weave);
    let cues = draft.plan.len();
    if rng.percent(60) {
        set_gaps(&mut tree, |_, &gap| {
            let any = rng_gap(rng, cues);
            *rng.pick(&[gap, any, cues as u32])
        });
    }
    let density = *rng.pick(&[10, 20, 40]);
    animate(rng, &mut draft, density);
    let most = *rng.pick(&[2, 4, 8, 12, 16]);
    constrain(rng, &mut draft, &tree, most);
    if rng.percent(15) {
        break_some(rng, &mut draft, &tree);
    }
    claim(rng, &mut draft, &tree);
    draft
}

fn rng_gap(rng: &mut Rng, cues: usize) -> u32 {
    rng.below(cues + 1) as u32
}

/// So many empty tasks and cues that the choices are few.
fn draw_counts(rng: &mut Rng) -> (usize, usize) {
    match rng.below(100) {
        0..=3 => (0, rng.between(1, 9)),
        4..=13 => (1, rng.between(0, 40)),
        14..=80 => draw_within(rng, 300),
        81..=87 => draw_within(rng, 2_000),
        88..=93 => (rng.between(4, 10), 1),
        94..=97 => (2, rng.between(5, 40)),
        98 => (rng.between(1, 40), 0),
        _ => (3, rng.between(1, 11)),
    }
}

fn draw_within(rng: &mut Rng, most: usize) -> (usize, usize) {
    loop {
        let (empty, cues) = (rng.between(1, 6), rng.between(0, 9));
        if choices(cues, empty, most) <= most && (cues > 0 || rng.percent(5)) {
            return (empty, cues);
        }
    }
}

/// A tree of a random model, whose methods may be used more than once.
fn of_any_methods(rng: &mut Rng) -> (Draft, Tree) {
    loop {
        let mut size = draw_size(rng);
        size.nodes = size.nodes.min(25);
        let draft = draw_methods(rng, &size);
        let tree = grow_within(rng, &draft, size.nodes);
        let count = |sort: fn(&Line) -> bool| tree.lines.iter().filter(|line| sort(line)).count();
        let (empty, cues) = (count(|it| matches!(it, Line::E(..))), count(|it| matches!(it, Line::L(..))));
        if choices(cues, empty, 1_000) <= 1_000 && (empty > 0 || rng.percent(5)) {
            return (draft, tree);
        }
    }
}

/// A tree with just so many empty tasks and cues, in tasks within tasks; each task has one method. The first few actions are in
/// use, the spare ones behind them are not.
fn built(rng: &mut Rng, empty: usize, cues: usize, spare: usize) -> (Draft, Tree) {
    let used = rng.between(1, 4);
    let kinds = rng.between(1, 3);
    let members = rng.between(2, 8);
    let (propositions, palette) = draw_palette(rng, members);
    let mut draft = Draft { palette, ..skeleton(propositions, used + spare, 0, vec![]) };
    let first = draft.actions.len() as u32;
    draft.methods = (0..kinds as u32).map(|kind| method(first + kind, vec![])).collect();
    let mut items: Vec<u32> = (0..cues).map(|_| rng.below(used) as u32).collect();
    items.extend((0..empty).map(|_| first + rng.below(kinds) as u32));
    rng.shuffle(&mut items);
    draft.goal = match items[..] {
        [only] if only >= first && rng.percent(30) => only,
        _ => grouped(rng, &items, first, 1, &mut draft.methods),
    };
    draft.compound = draft.methods.len() as u32;
    let tree = grow(&draft, &mut |task, _, _| task - first);
    (draft, tree)
}

/// A new task with these below it, some of them in tasks of their own.
fn grouped(rng: &mut Rng, items: &[u32], first: u32, level: usize, methods: &mut Vec<Method>) -> u32 {
    let task = first + methods.len() as u32;
    methods.push(method(task, vec![]));
    let at = methods.len() - 1;
    let mut left = items;
    let flat = items.len() <= 12 && rng.percent(40);
    let size = if flat { 1 } else { items.len().div_ceil(rng.between(2, 6)) };
    while !left.is_empty() {
        let (part, rest) = left.split_at(size.min(left.len()));
        left = rest;
        let subtask = match part {
            [only] if level > 6 || rng.percent(85) => *only,
            _ => grouped(rng, part, first, level + 1, methods),
        };
        methods[at].subtasks.push(subtask);
    }
    task
}

/// Gives each empty task a gap by its number among them and the gap that it had.
fn set_gaps(tree: &mut Tree, mut gap_of: impl FnMut(usize, &u32) -> u32) {
    let gaps = tree.lines.iter_mut().filter_map(|line| match line {
        Line::E(_, gap) => Some(gap),
        _ => None,
    });
    gaps.enumerate().for_each(|(n, gap)| *gap = gap_of(n, gap));
}

fn gaps_of(tree: &Tree) -> Vec<u32> {
    let gap = |line: &Line| match *line {
        Line::E(_, gap) => Some(gap),
        _ => None,
    };
    tree.lines.iter().filter_map(gap).collect()
}

/// A choice ahead of this one: the first of all, this one with its last gap that isn't 0 one lower, or any; none if this is the first.
fn ahead(rng: &mut Rng, gaps: &[u32], cues: usize, way: usize) -> Option<Vec<u32>> {
    let above: Vec<usize> = (0..gaps.len()).filter(|&n| gaps[n] > 0).collect();
    let &last = above.last()?;
    let mut rival = gaps.to_vec();
    match way {
        0 => rival.fill(0),
        1 => {
            rival[last] -= 1;
            rival[last + 1..].fill_with(|| rng_gap(rng, cues));
        }
        _ => {
            let at = *rng.pick(&above);
            rival[at] = rng.below(gaps[at] as usize) as u32;
            rival[at + 1..].fill_with(|| rng_gap(rng, cues));
        }
    }
    Some(rival)
}

/// Gives the methods constraints that hold with the tree's gaps, and most of which fail with some choice ahead of them; the first with
/// the first choice.
fn constrain(rng: &mut Rng, draft: &mut Draft, tree: &Tree, most: usize) {
    let (gaps, cues) = (gaps_of(tree), draft.plan.len());
    constrain_against(rng, draft, tree, most, |rng, n| {
        let way = if n == 0 { 0 } else { rng.below(5) };
        ahead(rng, &gaps, cues, way)
    });
}

/// The same with the choices that are to fail given, each for one constraint.
fn constrain_against(
    rng: &mut Rng,
    draft: &mut Draft,
    tree: &Tree,
    most: usize,
    mut rival: impl FnMut(&mut Rng, usize) -> Option<Vec<u32>>,
) {
    let stage = Stage::new(draft, tree);
    let used: Vec<usize> = (0..draft.methods.len()).filter(|&m| !stage.users[m].is_empty()).collect();
    let speaks = |&m: &usize| stage.users[m].iter().any(|&node| has_empty(tree, node));
    let telling: Vec<usize> = used.iter().copied().filter(speaks).collect();
    for n in 0..rng.between(1, most) {
        let rival = rival(rng, n).map(|gaps| stage.with_gaps(tree, &gaps));
        for _ in 0..60 {
            let any = telling.is_empty() || rng.percent(10);
            let at = *rng.pick(if any { &used } else { &telling });
            let drawn = draw_constraint(rng, &draft.palette, draft.methods[at].subtasks.len(), 50);
            let kept = drawn.filter(|it| {
                let fails = |rival: &Stage| !rival.holds_everywhere(tree, at, it, Reading::Right);
                stage.holds_everywhere(tree, at, it, Reading::Right) && rival.as_ref().is_none_or(fails)
            });
            if let Some(constraint) = kept {
                draft.methods[at].constraints.push(constraint);
                break;
            }
        }
    }
}

impl Stage {
    /// The same tree and states with other gaps.
    fn with_gaps(&self, tree: &Tree, gaps: &[u32]) -> Stage {
        let mut other = Tree { lines: tree.lines.clone(), children: tree.children.clone() };
        set_gaps(&mut other, |n, _| gaps[n]);
        Stage { states: self.states.clone(), spans: spans_of(&other), users: self.users.clone() }
    }
}

/// Whether a node is an empty task, or has one below it.
fn has_empty(tree: &Tree, node: usize) -> bool {
    matches!(tree.lines[node], Line::E(..)) || tree.children[node].iter().any(|&child| has_empty(tree, child))
}

/// Adds constraints without looking whether they hold.
fn break_some(rng: &mut Rng, draft: &mut Draft, tree: &Tree) {
    let stage = Stage::new(draft, tree);
    let used: Vec<usize> = (0..draft.methods.len()).filter(|&m| !stage.users[m].is_empty()).collect();
    for _ in 0..rng.between(1, 3) {
        let at = *rng.pick(&used);
        let drawn = draw_constraint(rng, &draft.palette, draft.methods[at].subtasks.len(), 50);
        draft.methods[at].constraints.extend(drawn);
    }
}

/// Claims the tree's gaps or any others.
fn claim(rng: &mut Rng, draft: &mut Draft, tree: &Tree) {
    draft.lines = tree.lines.clone();
    let (way, cues) = (rng.below(4), draft.plan.len());
    for line in &mut draft.lines {
        if let Line::E(_, gap) = line {
            *gap = match way {
                0 => *gap,
                1 => 0,
                2 => cues as u32,
                _ => rng_gap(rng, cues),
            };
        }
    }
}

// ---------------------------------------------------------------- long texts

/// A text within ten bytes of the limit, or one past it, whose later gaps have a digit more: with most of them it is too long.
pub fn long(rng: &mut Rng) -> Vec<u8> {
    let (draft, empty) = long_draft(rng);
    let length = if rng.percent(70) { rng.between(65_535 - empty, 65_535) } else { rng.between(65_525, 65_536) };
    padded(draft, length)
}

/// The same, yet some thousand bytes short; and how many empty tasks there are.
pub(super) fn long_draft(rng: &mut Rng) -> (Draft, usize) {
    let (empty, cues) = match rng.below(8) {
        0..=3 => (2, rng.between(10, 12)),
        4 => (1, rng.between(98, 102)),
        5 => (3, 1),
        _ => (1, rng.between(9, 14)),
    };
    let (mut draft, mut tree) = built(rng, empty, cues, 50);
    place(rng, &mut draft, &mut tree, Weave::Woven);
    // With two gaps the second is often small again, so that what is too long comes before what is found.
    let small = empty == 2 && rng.percent(60);
    set_gaps(&mut tree, |n, _| if n == 1 && small { rng.below(10) } else { cues - rng.below(cues.min(5)) } as u32);
    draft.propositions = draft.propositions.max(20);
    animate(rng, &mut draft, 20);
    let used = draft.actions.len() - 50;
    draft.actions[used..].fill(ActionSets::default());
    if rng.percent(80) {
        // Against choices with a digit less.
        let unit = if cues > 90 { 100 } else { 10 };
        let below = if small { gaps_of(&tree)[0] as usize } else { unit };
        let short =
            |rng: &mut Rng, _| Some((0..empty).map(|n| rng.below(if n == 0 { below } else { unit }) as u32).collect());
        constrain_against(rng, &mut draft, &tree, 12, short);
    } else {
        constrain(rng, &mut draft, &tree, 3);
    }
    claim(rng, &mut draft, &tree);
    fill(&mut draft);
    (draft, empty)
}

/// Brings the text near its limit with methods that no node uses.
fn fill(draft: &mut Draft) {
    let mut unused = method(draft.goal, vec![draft.goal; 32]);
    unused.constraints = vec![Constraint::Between(u32::MAX, is(0), u32::MAX); 64];
    let bytes = |draft: &Draft| draft.text().len();
    let before = bytes(draft);
    draft.methods.push(unused.clone());
    let each = bytes(draft) - before;
    let room = 62_000usize.saturating_sub(bytes(draft));
    draft.methods.extend(vec![unused; room / each]);
}

// ---------------------------------------------------------------- numbers of choices

/// k and e on both sides of a million choices, and where a product of 32 or 64 bits is 0 or small again.
const AROUND: [(usize, usize); 48] = [
    (9, 6),
    (9, 7),
    (999, 2),
    (1_000, 2),
    (999, 3),
    (1_000, 1),
    (1, 19),
    (1, 20),
    (1, 31),
    (1, 32),
    (1, 33),
    (1, 63),
    (1, 64),
    (1, 65),
    (1, 128),
    (0, 20),
    (0, 64),
    (0, 300),
    (2, 12),
    (2, 13),
    (3, 9),
    (3, 10),
    (3, 16),
    (3, 32),
    (4, 8),
    (4, 9),
    (5, 7),
    (5, 8),
    (6, 7),
    (6, 8),
    (7, 6),
    (7, 7),
    (8, 6),
    (8, 7),
    (14, 5),
    (15, 5),
    (15, 8),
    (15, 16),
    (30, 4),
    (31, 4),
    (99, 3),
    (100, 3),
    (99, 4),
    (255, 4),
    (255, 8),
    (1_000, 40),
    (31, 13),
    (10, 1_500),
];

/// A case about a limit of the number of choices, or past it; if it has any, one of the first is accepted.
pub fn around(rng: &mut Rng) -> Draft {
    let (cues, empty) = *rng.pick(&AROUND);
    let (mut draft, mut tree) = built(rng, empty, cues, 0);
    place(rng, &mut draft, &mut tree, Weave::Woven);
    let few = if cues > 100 { 3 } else { 20 };
    let last = rng.below(few.min(cues) + 1) as u32;
    set_gaps(&mut tree, |n, _| if n + 1 == empty { last } else { 0 });
    animate(rng, &mut draft, 20);
    constrain(rng, &mut draft, &tree, 2);
    claim(rng, &mut draft, &tree);
    if choices(cues, empty, 1_000_000) > 1_000_000 && rng.percent(30) {
        break_some(rng, &mut draft, &tree);
    }
    draft
}

// ---------------------------------------------------------------- the dearest cases

/// Propositions of the dearest cases: false, or true, in all states; true in the last state only; false in the last state only.
/// Behind them come those that are false in every so-manieth state.
const NEVER: u32 = 0;
const EVER: u32 = 1;
const TOP: u32 = 2;
const LOW: u32 = 3;
const TURNS: u32 = 4;

/// The goal's subtasks of the dearest cases: all empty tasks but the last, and the last one. Most constraints speak of both, so that
/// none says anything of fewer tasks than all.
const OTHERS: u32 = 1;
const LAST: u32 = 2;
const ALL: u32 = OTHERS | LAST;

/// So many cues and empty tasks, no choice accepted or only the last. The goal has one constraint or two; or 64, the first of which
/// always hold, while the last ones fail by turns.
pub fn dear(cues: usize, empty: usize, only_last: bool, sixty_four: bool) -> Draft {
    let turns = if cues > 100 { 32 } else { cues as u32 + 1 };
    let mut draft = turning(cues, turns, only_last);
    let (g, x, z) = (draft.goal, draft.goal + 1, draft.goal + 2);
    draft.methods = vec![method(g, vec![x, z]), method(x, vec![z; empty - 1]), method(z, vec![])];
    draft.lines = [vec![Line::D(0), Line::D(1)], vec![Line::E(2, 0); empty]].concat();
    put_cues(&mut draft, 0);
    let both = |asked| Constraint::Before(asked, ALL);
    let failing = match (cues, sixty_four, only_last) {
        // With gap 0 of the last task the first fails, with gap 1 the second: whichever broke last holds now.
        (1, true, true) => vec![Constraint::Between(LAST, is(TOP), ALL), Constraint::Order(1, 0)],
        (1, true, false) => vec![Constraint::Between(LAST, is(TOP), ALL), Constraint::Between(ALL, is(LOW), LAST)],
        (_, true, true) => after_turns(turns).into_iter().chain([both(is(TOP))]).collect(),
        (_, true, false) => after_turns(turns),
        (_, false, true) => vec![both(is(TOP))],
        (999, false, false) => vec![Constraint::Order(0, 1), Constraint::Between(OTHERS, is(NEVER), LAST)],
        (_, false, false) => vec![both(is(NEVER))],
    };
    let holding = if sixty_four { 64 - failing.len() } else { 0 };
    draft.methods[0].constraints = (0..holding).map(held).chain(failing).collect();
    draft
}

/// The dearest case with one cue, and 64 constraints more on each of 61 levels above it.
pub fn dear_levels() -> Draft {
    let mut draft = dear(1, 19, false, true);
    let mut above = method(draft.goal, vec![draft.goal]);
    above.constraints = (0..64).map(|n| shifted(held(n))).collect();
    draft.methods.push(above);
    let root = Line::D(draft.methods.len() as u32 - 1);
    draft.lines = [vec![root; 61], draft.lines].concat();
    draft
}

/// A constraint that holds, of all empty tasks; one of each sort in turn.
fn held(n: usize) -> Constraint {
    match n % 4 {
        0 => Constraint::Between(ALL, is(EVER), ALL),
        1 => Constraint::Before(is(EVER), ALL),
        2 => Constraint::After(not(NEVER), ALL),
        _ => Constraint::Between(ALL, not(NEVER), ALL),
    }
}

/// The same of a task's only subtask.
fn shifted(constraint: Constraint) -> Constraint {
    match constraint {
        Constraint::Before(asked, _) => Constraint::Before(asked, 1),
        Constraint::After(asked, _) => Constraint::After(asked, 1),
        Constraint::Between(_, asked, _) => Constraint::Between(1, asked, 1),
        order => order,
    }
}

fn after_turns(turns: u32) -> Vec<Constraint> {
    (0..turns).map(|n| Constraint::After(is(TURNS + n), ALL)).collect()
}

/// A model and a plan of so many cues: in each state one of the propositions that take turns is false; in the last state none,
/// if `all_at_last`.
fn turning(cues: usize, turns: u32, all_at_last: bool) -> Draft {
    let mut draft = skeleton(TURNS + turns, turns as usize + 1, 4, vec![]);
    let all: Vec<u32> = (TURNS..TURNS + turns).collect();
    draft.initial = [vec![EVER, LOW], all[1..].to_vec()].concat();
    let effects = |turn: u32| [vec![], vec![], vec![TURNS + (turn + turns - 1) % turns], vec![TURNS + turn]];
    for turn in 0..turns {
        draft.actions[turn as usize] = effects(turn);
    }
    let [_, _, added, mut deleted] = effects(cues as u32 % turns);
    if all_at_last {
        deleted.clear();
    }
    let added = [vec![TOP], if all_at_last { all } else { added }].concat();
    draft.actions[turns as usize] = [vec![], vec![], added, [vec![LOW], deleted].concat()];
    draft.plan = (1..=cues as u32).map(|cue| if cue == cues as u32 { turns } else { cue % turns }).collect();
    draft
}

/// 1,000 cues in blocks with four constraints each, and one empty task, which has to follow 960 of them.
pub fn thousand() -> Draft {
    one_gap(1_000)
}

/// The same with so many cues; the empty task has to follow all of them, if they are no more than 960. A block of one has no constraints.
pub(super) fn one_gap(cues: usize) -> Draft {
    let mut draft = turning(cues, 32, false);
    let (g, z) = (draft.goal, draft.goal + 2);
    draft.methods = vec![method(g, vec![z]), method(z, vec![])];
    draft.lines = vec![Line::D(0), Line::E(1, 0)];
    put_cues(&mut draft, 0);
    for block in draft.methods[2..].iter_mut().filter(|block| block.subtasks.len() > 1) {
        block.constraints = vec![
            Constraint::Order(0, 1),
            Constraint::Before(is(EVER), 2),
            Constraint::Between(1, not(NEVER), 2),
            Constraint::After(is(EVER), 0),
        ];
    }
    draft.methods[0].constraints = vec![Constraint::Order(1, 0), Constraint::Before(is(EVER), 1)];
    draft
}

/// Puts the cues of the plan below a method, in blocks if they are many, and their nodes behind all others.
fn put_cues(draft: &mut Draft, below: usize) {
    let plan = draft.plan.clone();
    let body = draft.goal + 3;
    let leaf = |(i, &action): (usize, &u32)| Line::L(action, i as u32 + 1);
    if plan.len() <= 30 {
        draft.methods[below].subtasks.extend(&plan);
        draft.lines.extend(plan.iter().enumerate().map(leaf));
        return;
    }
    let mut position = 0;
    for blocks in plan.chunks(32 * 30) {
        let method_of_blocks = draft.methods.len() as u32;
        draft.methods[below].subtasks.push(body);
        draft.methods.push(method(body, vec![body; blocks.chunks(32).len()]));
        draft.lines.push(Line::D(method_of_blocks));
        for block in blocks.chunks(32) {
            draft.lines.push(Line::D(draft.methods.len() as u32));
            draft.methods.push(method(body, block.to_vec()));
            draft.lines.extend(block.iter().map(|&action| {
                position += 1;
                Line::L(action, position)
            }));
        }
    }
}

/// k and e of the dearest cases.
pub const DEAR: [(usize, usize); 3] = [(1, 19), (9, 6), (999, 2)];
