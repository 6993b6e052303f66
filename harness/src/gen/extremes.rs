//! Cases of chosen size: deep chains, typical plans, the dearest cases for a checker, and
//! every limit of 01 met exactly or passed by one.

use super::{animate, constrain, draw_palette, finish, grow, is, not, place};
use super::{ActionSets, Constraint, Draft, Line, Method, Rng, Strictness, Weave, PROPOSITIONS};
use cuecheck::WORDS;

pub(super) fn method(task: u32, subtasks: Vec<u32>) -> Method {
    Method { task, subtasks, constraints: Vec::new() }
}

pub(super) fn skeleton(propositions: u32, actions: usize, compound: u32, methods: Vec<Method>) -> Draft {
    Draft {
        propositions,
        palette: (0..propositions).collect(),
        compound,
        goal: actions as u32,
        actions: vec![ActionSets::default(); actions],
        methods,
        ..Draft::default()
    }
}

// ---------------------------------------------------------------- deep chains

/// A chain whose deepest node is on the given level; a leaf now and then hangs beside it. Gives
/// back the number of that node too.
pub fn chain(rng: &mut Rng, levels: usize) -> (Draft, usize) {
    let actions = rng.between(1, 2);
    let t = actions as u32;
    let mut a = || rng.below(actions) as u32;
    let methods = vec![
        method(t, vec![t]),
        method(t, vec![t, a()]),
        method(t, vec![a(), t]),
        method(t, vec![a()]),
        method(t, vec![]),
    ];
    let members = rng.below(4);
    let (propositions, palette) = draw_palette(rng, members);
    let mut draft = Draft { palette, ..skeleton(propositions, actions, 1, methods) };
    let ends_in_leaf = rng.percent(50);
    let mut deepest = 0;
    let mut tree = grow(&draft, &mut |_, level, at| {
        if level >= levels {
            deepest = at;
            4
        } else if level + 1 == levels && ends_in_leaf {
            deepest = at + 1;
            3
        } else if rng.percent(70) {
            0
        } else {
            rng.between(1, 2) as u32
        }
    });
    let weave = *rng.pick(&[Weave::Ordered, Weave::Woven]);
    finish(rng, &mut draft, &mut tree, weave, Strictness { most: 2, tries: 4, broken: 0, negative: 50 });
    (draft, deepest)
}

// ---------------------------------------------------------------- typical plans

/// What a show of so many cues might look like: a running order of sections, panels of five
/// cues in each, and small tasks that are often done already. `cues` is a multiple of 20.
pub fn typical(seed: u64, cues: usize, weave: Weave) -> Draft {
    let rng = &mut Rng::new(seed);
    let big = cues > 200;
    let (actions, sections, panels, smalls) = if big { (340, 10, 130, 30) } else { (30, 3, 8, 4) };
    let per_section = if big { 8 } else { 4 };
    let mut draft = skeleton(if big { 64 } else { 24 }, actions, (1 + sections + panels + 2 * smalls) as u32, vec![]);
    let first = |group: usize| (actions + [0, 1, 1 + sections, 1 + sections + panels][group]) as u32;
    // Smalls in pairs: an empty one, and one that is always a single cue.
    let pick = |rng: &mut Rng, group: usize, count: usize| first(group) + rng.below(count) as u32;
    let running_order = (0..cues / 5 / per_section).map(|_| pick(rng, 1, sections)).collect();
    draft.methods.push(method(first(0), running_order));
    for section in 0..sections {
        let subtasks = (0..per_section).map(|_| pick(rng, 2, panels)).collect();
        draft.methods.push(method(first(1) + section as u32, subtasks));
    }
    for panel in 0..2 * panels {
        let mut subtasks: Vec<u32> = (0..4).map(|_| rng.below(actions) as u32).collect();
        subtasks.insert(rng.below(4), first(3) + 2 * rng.below(smalls) as u32);
        subtasks.insert(rng.below(5), first(3) + 2 * rng.below(smalls) as u32 + 1);
        draft.methods.push(method(first(2) + (panel % panels) as u32, subtasks));
    }
    for small in 0..4 * smalls {
        let task = first(3) + (small % (2 * smalls)) as u32;
        let cue = (small % 2 == 1).then(|| rng.below(actions) as u32);
        draft.methods.push(method(task, cue.into_iter().collect()));
    }
    let mut tree = grow(&draft, &mut |task, _, _| {
        let own: Vec<usize> = (0..draft.methods.len()).filter(|&m| draft.methods[m].task == task).collect();
        *rng.pick(&own) as u32
    });
    place(rng, &mut draft, &mut tree, weave);
    animate(rng, &mut draft, if big { 4 } else { 12 });
    constrain(rng, &mut draft, &tree, Strictness { most: 5, tries: 12, broken: 0, negative: 0 });
    draft
}

/// 01's panel case a: four nodes.
pub fn four_nodes() -> Draft {
    let (convert, load, take, panel, in_kmh) = (0, 1, 2, 3, 4);
    let methods = vec![method(panel, vec![in_kmh, load, take]), method(in_kmh, vec![convert]), method(in_kmh, vec![])];
    let mut draft = skeleton(3, 3, 2, methods);
    draft.initial = vec![0];
    draft.actions[0] = [vec![], vec![0], vec![0], vec![]];
    draft.actions[1] = [vec![], vec![], vec![1], vec![]];
    draft.actions[2] = [vec![1], vec![], vec![2], vec![1]];
    draft.methods[0].constraints =
        vec![Constraint::Order(0, 2), Constraint::Order(1, 2), Constraint::Between(1, is(0), 4)];
    draft.methods[2].constraints = vec![Constraint::Before(is(0), 0)];
    draft.plan = vec![load, take];
    draft.lines = vec![Line::D(0), Line::E(2, 0), Line::L(load, 1), Line::L(take, 2)];
    draft
}

/// A show of 60 or 1,000 cues with 200 methods in mixed order: no two nodes in turn, leaves left out, use the same one.
/// Each has a before, a between and an after, and an order if it has subtasks.
pub fn mixed(cues: usize) -> Draft {
    let rng = &mut Rng::new(cues as u64);
    let actions = 150;
    let (g, s, x, z) = (150, 151, 152, 153);
    let panels = cues / 2;
    let sections = (panels / 10).min(25);
    // Method 0 is the goal's, 1 to 39 are of sections, 40 to 159 of panels, 160 to 199 of tasks done already.
    let mut draft = skeleton(96, actions, 4, vec![method(g, vec![s; sections])]);
    for _ in 1..40 {
        draft.methods.push(method(s, vec![x; panels / sections]));
    }
    for _ in 40..160 {
        draft.methods.push(method(x, vec![rng.below(actions) as u32, z, rng.below(actions) as u32]));
    }
    draft.methods.resize(200, method(z, vec![]));
    for number in 0..200 {
        let stays = |n: usize| (32 + (7 * number + n) % 64) as u32;
        let constraints = match draft.methods[number].subtasks.len() {
            0 => vec![
                Constraint::Before(is(stays(0)), 0),
                Constraint::Between(0, is(stays(1)), 0),
                Constraint::After(is(stays(2)), 0),
            ],
            _ => vec![
                Constraint::Order(0, 2),
                Constraint::Before(is(stays(0)), 2),
                Constraint::Between(1, is(stays(1)), 4),
                Constraint::After(is(stays(2)), 0),
            ],
        };
        draft.methods[number].constraints = constraints;
    }
    let (mut turns, steps) = ([0; 4], [0, 17, 77, 27]);
    let (first, count) = ([0, 1, 40, 160], [1, 39, 120, 40]);
    let mut tree = grow(&draft, &mut |task, _, _| {
        let group = (task - g) as usize;
        turns[group] += steps[group];
        (first[group] + turns[group] % count[group]) as u32
    });
    place(rng, &mut draft, &mut tree, Weave::Ordered);
    // The constraints speak of propositions that stay as they are, the actions of the others.
    draft.palette.truncate(32);
    animate(rng, &mut draft, 10);
    draft.initial.extend(32..96);
    draft
}

/// 1,000 cues of 60 actions, each of which adds and deletes in one of eight words.
pub fn one_word_touched() -> Draft {
    let rng = &mut Rng::new(60);
    touching(60, |_| vec![rng.below(WORDS) as u32])
}

/// 1,000 cues of 8 actions, each of which adds and deletes in every word.
pub fn every_word_touched() -> Draft {
    touching(8, |_| (0..WORDS as u32).collect())
}

/// 1,000 cues with short sets: each action adds one proposition and deletes one in each of its words, and needs one of another word and
/// forbids one of a third. Blocks of 20 cues, of three methods in turn, in ten sections.
fn touching(actions: u32, mut words: impl FnMut(u32) -> Vec<u32>) -> Draft {
    let rng = &mut Rng::new(u64::from(actions));
    let (g, s, y) = (actions, actions + 1, actions + 2);
    let blocks = (0..3).map(|n| method(y, (20 * n..20 * n + 20).map(|a| a % actions).collect()));
    let methods = [method(g, vec![s; 10]), method(s, vec![y; 5])].into_iter().chain(blocks).collect();
    let mut draft = skeleton(PROPOSITIONS, actions as usize, 3, methods);
    // Of each word the lower half is added and deleted; of the others 16 are true throughout, 16 false.
    let in_word = |word: u32, bit: u32| 64 * (word % WORDS as u32) + bit;
    draft.initial = (0..PROPOSITIONS).filter(|p| (32..48).contains(&(p % 64))).collect();
    for action in 0..actions {
        let words = words(action);
        let mut one_of_each = || words.iter().map(|&word| in_word(word, rng.below(32) as u32)).collect();
        let (added, deleted) = (one_of_each(), one_of_each());
        let needed = vec![in_word(words[0] + 3, 32 + action % 16)];
        let forbidden = vec![in_word(words[0] + 5, 48 + action % 16)];
        draft.actions[action as usize] = [needed, forbidden, added, deleted];
    }
    let mut blocks = 0;
    let mut tree = grow(&draft, &mut |task, _, _| match task - g {
        2 => {
            blocks += 1;
            2 + blocks % 3
        }
        other => other,
    });
    place(rng, &mut draft, &mut tree, Weave::Ordered);
    draft
}

// ---------------------------------------------------------------- the dearest cases

/// 64 betweens over 1,000 states on each of 648 nodes, in a tree of 2,999.
pub fn betweens() -> Draft {
    let (a, g, h, y, s, x, z) = (0, 1, 2, 3, 4, 5, 6);
    let methods = vec![
        method(g, [vec![h], vec![s; 21]].concat()),
        method(h, vec![y; 32]),
        method(y, vec![a; 32]),
        method(y, vec![a; 8]),
        method(s, vec![x; 31]),
        method(s, vec![x; 28]),
        method(x, vec![z, z]),
        method(z, vec![]),
    ];
    let mut draft = skeleton(256, 1, 6, methods);
    draft.methods[6].constraints = (0..64).map(|n| Constraint::Between(1, is(4 * n), 2)).collect();
    draft.initial = (0..256).collect();
    let (mut ys, mut ss) = (0, 0);
    let mut tree = grow(&draft, &mut |task, _, _| match task {
        1 => 0,
        2 => 1,
        3 => {
            ys += 1;
            2 + u32::from(ys == 32)
        }
        4 => {
            ss += 1;
            4 + u32::from(ss == 21)
        }
        5 => 6,
        _ => 7,
    });
    place(&mut Rng::new(0), &mut draft, &mut tree, Weave::Ordered);
    let mut late = false;
    for line in &mut draft.lines {
        if let Line::E(_, gap) = line {
            *gap = if late { draft.plan.len() as u32 } else { 0 };
            late = !late;
        }
    }
    draft
}

/// The same with W and w in turn; the propositions of w are false throughout.
pub fn signed_betweens() -> Draft {
    let mut draft = betweens();
    let asked = |n: u32| if n % 2 == 0 { is(4 * n) } else { not(4 * n) };
    draft.methods[6].constraints = (0..64).map(|n| Constraint::Between(1, asked(n), 2)).collect();
    draft.initial.retain(|p| p % 8 != 4);
    draft
}

/// As many betweens on as many nodes, of eight methods in turn: each of 512 propositions in one of them.
pub fn wide_betweens() -> Draft {
    let mut draft = betweens();
    let old = draft.methods.len() as u32;
    draft.propositions = PROPOSITIONS;
    draft.initial = (0..PROPOSITIONS).collect();
    for first in (0..PROPOSITIONS).step_by(64) {
        let constraints = (first..first + 64).map(|p| Constraint::Between(1, is(p), 2)).collect();
        draft.methods.push(Method { constraints, ..draft.methods[6].clone() });
    }
    let users = draft.lines.iter_mut().filter(|line| matches!(line, Line::D(6)));
    users.zip((old..draft.methods.len() as u32).cycle()).for_each(|(line, method)| *line = Line::D(method));
    draft
}

/// 64 betweens over half of 930 states or more on each of 930 nodes.
pub fn long_betweens() -> Draft {
    let (a, g, s, early, late, z) = (0, 1, 2, 3, 4, 5);
    let methods = vec![
        method(g, vec![s; 30]),
        method(s, vec![early; 31]),
        method(s, vec![late; 31]),
        method(early, vec![a, z]),
        method(late, vec![z, a]),
        method(z, vec![]),
    ];
    let mut draft = skeleton(256, 1, 5, methods);
    // From the leaf to the empty task at the end, or from the empty task at the start to the leaf.
    for x in [3, 4] {
        draft.methods[x].constraints = (0..64).map(|n| Constraint::Between(1, is(4 * n + 1), 2)).collect();
    }
    draft.initial = (0..256).collect();
    let mut ss = 0;
    let mut tree = grow(&draft, &mut |task, _, _| match task {
        1 => 0,
        2 => {
            ss += 1;
            1 + u32::from(ss > 15)
        }
        other => other,
    });
    place(&mut Rng::new(0), &mut draft, &mut tree, Weave::Ordered);
    let cues = draft.plan.len() as u32;
    for line in &mut draft.lines {
        if let Line::E(_, gap) = line {
            *gap = if 2 * *gap <= cues { cues } else { 0 };
        }
    }
    draft
}

/// 64 befores and afters, of the whole task or of one subtask, on each of 2,980 nodes; the other 20 are leaves.
pub fn befores_afters() -> Draft {
    let (a, g, s, x, z) = (0, 1, 2, 3, 4);
    let methods = vec![
        method(g, [vec![s; 20], vec![z; 4]].concat()),
        method(s, [vec![a], vec![x; 30]].concat()),
        method(s, [vec![a], vec![x; 29]].concat()),
        method(x, vec![z; 4]),
        method(z, vec![]),
    ];
    let mut draft = skeleton(256, 1, 4, methods);
    draft.initial = (0..256).collect();
    for method in &mut draft.methods {
        let subtasks = method.subtasks.len();
        let set = |n: usize| if n % 4 < 2 || subtasks == 0 { 0 } else { 1 << (n % subtasks) };
        let condition = |n: usize| match n % 2 {
            0 => Constraint::Before(is(4 * n as u32), set(n)),
            _ => Constraint::After(is(4 * n as u32), set(n)),
        };
        method.constraints = (0..64).map(condition).collect();
    }
    let mut ss = 0;
    let mut tree = grow(&draft, &mut |task, _, _| match task {
        1 => 0,
        2 => {
            ss += 1;
            1 + u32::from(ss > 11)
        }
        other => other,
    });
    place(&mut Rng::new(0), &mut draft, &mut tree, Weave::Ordered);
    draft
}

/// 64 betweens of two full sets of 32 subtasks on each of 93 nodes; 64 befores on the others.
pub fn sets_of_32() -> Draft {
    let mut draft = skeleton(256, 0, 1, vec![method(0, vec![0; 32]), method(0, vec![])]);
    draft.methods[0].constraints = vec![Constraint::Between(u32::MAX, is(255), u32::MAX); 64];
    draft.methods[1].constraints = vec![Constraint::Before(is(255), 0); 64];
    draft.initial = vec![255];
    // The goal, its 32 subtasks, and the first 60 of level 3 are decomposed further.
    let mut split = 0;
    let tree = grow(&draft, &mut |_, level, _| {
        let splits = level <= 2 || (level == 3 && split < 93 - 33);
        split += usize::from(splits && level == 3);
        u32::from(!splits)
    });
    draft.lines = tree.lines;
    draft
}

/// Chains down to level 64, about 3,000 nodes in all, 64 constraints on each.
pub fn levels_64() -> Draft {
    let (g, c, t) = (0, 1, 2);
    let methods =
        vec![method(g, vec![c; 32]), method(c, vec![t]), method(c, vec![t, t]), method(t, vec![t]), method(t, vec![])];
    let mut draft = skeleton(8, 0, 3, methods);
    draft.initial = (0..8).collect();
    draft.methods[3].constraints = vec![Constraint::Between(1, is(7), 1); 64];
    draft.methods[4].constraints = vec![Constraint::After(is(7), 0); 64];
    let mut cs = 0;
    let tree = grow(&draft, &mut |task, level, _| match task {
        0 => 0,
        1 => {
            cs += 1;
            1 + u32::from(cs <= 15)
        }
        _ => 3 + u32::from(level == 64),
    });
    draft.lines = tree.lines;
    draft
}

/// More than 32,000 fields: methods of 32 subtasks as far as the text reaches.
pub fn fields_32000() -> Draft {
    let mut draft = skeleton(0, 1, 1, vec![method(1, vec![])]);
    draft.methods.resize(1 + 896, method(1, vec![0; 32]));
    draft.lines = vec![Line::E(0, 0)];
    draft
}

/// 900 actions with four sets each, all of them in a plan of 1,000 cues.
pub fn actions_900() -> Draft {
    all_in_turn(100, 900, 1_000, 4)
}

/// A text that is mostly sets: of 256 propositions 52 actions, of 512 propositions 24, each with hundreds of members.
pub fn large_sets(propositions: u32) -> Draft {
    let actions = if propositions > 256 { 24 } else { 52 };
    all_in_turn(propositions, actions, actions, 50)
}

/// Actions with sets of this density in percent, one after the other in a plan of so many cues.
fn all_in_turn(propositions: u32, actions: u32, cues: u32, density: usize) -> Draft {
    let rng = &mut Rng::new(u64::from(actions));
    let (g, y) = (actions, actions + 1);
    let plan: Vec<u32> = (0..cues).map(|cue| cue % actions).collect();
    let blocks = plan.chunks(32);
    let mut draft = skeleton(propositions, actions as usize, 2, vec![method(g, vec![y; blocks.len()])]);
    draft.methods.extend(blocks.map(|block| method(y, block.to_vec())));
    let mut groups = 0;
    let mut tree = grow(&draft, &mut |task, _, _| {
        groups += u32::from(task == y);
        groups
    });
    place(rng, &mut draft, &mut tree, Weave::Woven);
    animate(rng, &mut draft, density);
    draft
}

// ---------------------------------------------------------------- the limits

/// A tree of just 3,000 nodes with 1,000 cues, in a model with so many of everything.
pub(super) fn three_thousand(actions: usize, compound: u32, methods: usize) -> Draft {
    let rng = &mut Rng::new(3_000);
    let g = actions as u32;
    let (s, x, z) = (g + 1, g + 2, g + 3);
    let mut a = || rng.below(actions.min(10)) as u32;
    let mut draft = skeleton(
        PROPOSITIONS,
        actions,
        compound,
        vec![
            method(g, vec![s; 32]),
            method(s, vec![x; 31]),
            method(s, vec![x; 30]),
            method(x, vec![a(), z]),
            method(x, vec![a(), a()]),
            method(z, vec![]),
        ],
    );
    draft.methods.resize(methods, method(z, vec![]));
    // 1 + 32 + 3 * 989 nodes; 11 of the 989 have a second leaf in place of the empty task.
    let (mut ss, mut xs) = (0, 0);
    let mut tree = grow(&draft, &mut |task, _, _| {
        if task == g {
            0
        } else if task == s {
            ss += 1;
            1 + u32::from(ss > 29)
        } else if task == x {
            xs += 1;
            3 + u32::from(xs <= 11)
        } else {
            5
        }
    });
    let rng = &mut Rng::new(3_001);
    place(rng, &mut draft, &mut tree, Weave::Woven);
    draft.initial = vec![0, 63, 64, PROPOSITIONS - 1];
    draft.methods[0].constraints = vec![Constraint::Between(1, is(PROPOSITIONS - 1), u32::MAX); 64];
    draft.methods[5].constraints = vec![Constraint::Before(is(64), 0), Constraint::Between(0, is(63), 0)];
    draft
}

/// Sets as full as they get: all propositions in the initial state and in an action.
fn full_sets(propositions: u32) -> Draft {
    let all: Vec<u32> = (0..propositions).collect();
    let last = propositions - 1;
    let mut draft = skeleton(propositions, 2, 1, vec![method(2, vec![0, 1, 0])]);
    draft.initial = all.clone();
    draft.actions[0] = [all.clone(), vec![], all.clone(), all.clone()];
    draft.actions[1] = [vec![last], vec![], vec![0, 64, 128, last], all];
    draft.methods[0].constraints =
        vec![Constraint::Order(0, 1), Constraint::After(is(last), 2), Constraint::After(is(1), 1)];
    draft.plan = vec![0, 0, 1];
    draft.lines = vec![Line::D(0), Line::L(0, 1), Line::L(1, 3), Line::L(0, 2)];
    draft
}

/// The draft's text brought to just this length by filling the sets of actions not in the
/// plan: a member of one digit is 2 bytes, one of two digits 3.
pub(super) fn padded(mut draft: Draft, length: usize) -> Vec<u8> {
    pad(&mut draft, length);
    draft.text()
}

/// Brings the draft's text to just this length.
pub(super) fn pad(draft: &mut Draft, length: usize) {
    let mut lacking = length - draft.text().len();
    let spare: Vec<usize> = (0..draft.actions.len()).filter(|&a| !draft.plan.contains(&(a as u32))).collect();
    for set in spare.into_iter().flat_map(|a| (0..4).map(move |s| (a, s))) {
        let set = &mut draft.actions[set.0][set.1];
        let small = matches!(lacking, 2 | 4);
        while lacking > 1 && set.len() < 9 && small == matches!(lacking, 2 | 4) {
            set.push(set.len() as u32 + if small { 0 } else { 10 });
            lacking -= if small { 2 } else { 3 };
        }
    }
}

/// A method with one subtask, constraint or node more than there may be, and such.
fn over_limits() -> Vec<(&'static str, Vec<u8>)> {
    let mut subtasks = sets_of_32();
    subtasks.methods[0].subtasks.push(0);
    let mut constraints = sets_of_32();
    constraints.methods[1].constraints.push(Constraint::Before(is(255), 0));
    let mut nodes = three_thousand(10, 4, 6);
    nodes.lines.push(Line::E(5, 0));
    let mut cues = three_thousand(10, 4, 6);
    cues.plan.push(0);
    let mut deep = levels_64();
    deep.goal = 2;
    deep.lines = [vec![Line::D(3); 64], vec![Line::E(4, 0)]].concat();
    vec![
        ("33 subtasks", subtasks.text()),
        ("65 constraints", constraints.text()),
        ("3001 nodes", nodes.text()),
        ("1001 cues", cues.text()),
        ("65 levels", deep.text()),
        ("513 propositions", skeleton(PROPOSITIONS + 1, 0, 1, vec![]).text()),
        ("1025 compound tasks", skeleton(0, 0, 1_025, vec![method(0, vec![])]).text()),
        ("1025 actions", skeleton(0, 1_025, 1, vec![]).text()),
        ("2049 methods", skeleton(0, 0, 1, vec![method(0, vec![]); 2_049]).text()),
    ]
}

/// The last task of a tree of 3,000 nodes lacks a node, or has three over; and level 65 is due, but there is no line for it.
fn bad_ends() -> Vec<(&'static str, Vec<u8>)> {
    let whole = three_thousand(10, 4, 6);
    let last = whole.lines.iter().rposition(|line| matches!(line, Line::D(2))).expect("the last section");
    let mut lacking = whole.clone();
    lacking.lines[last] = Line::D(1);
    let mut surplus = whole;
    let fewer = surplus.methods[2].subtasks[1..].to_vec();
    surplus.lines[last] = Line::D(surplus.methods.len() as u32);
    surplus.methods.push(method(surplus.methods[2].task, fewer));
    let mut deep = levels_64();
    deep.goal = 2;
    deep.lines = vec![Line::D(3); 64];
    vec![
        ("3000 nodes, one lacking", lacking.text()),
        ("3000 nodes, three over", surplus.text()),
        ("65th level lacking", deep.text()),
    ]
}

/// Every case of this file, by name.
pub fn all() -> Vec<(&'static str, Vec<u8>)> {
    let at_limits = three_thousand(1_024, 1_024, 2_048);
    let mut cases = vec![
        ("60 cues, ordered", typical(60, 60, Weave::Ordered).text()),
        ("60 cues, woven", typical(61, 60, Weave::Woven).text()),
        ("1000 cues, ordered", typical(1_000, 1_000, Weave::Ordered).text()),
        ("1000 cues, woven", typical(1_001, 1_000, Weave::Woven).text()),
        ("four nodes", four_nodes().text()),
        ("60 cues, mixed", mixed(60).text()),
        ("1000 cues, mixed", mixed(1_000).text()),
        ("1000 cues, one word touched", one_word_touched().text()),
        ("1000 cues, every word touched", every_word_touched().text()),
        ("betweens", betweens().text()),
        ("signed betweens", signed_betweens().text()),
        ("wide betweens", wide_betweens().text()),
        ("long betweens", long_betweens().text()),
        ("befores and afters", befores_afters().text()),
        ("sets of 32", sets_of_32().text()),
        ("64 levels", levels_64().text()),
        ("32000 fields", fields_32000().text()),
        ("900 actions", actions_900().text()),
        ("3000 nodes", three_thousand(10, 4, 6).text()),
        ("sets of 256 propositions", large_sets(256).text()),
        ("sets of 512 propositions", large_sets(512).text()),
        ("full sets of 256", full_sets(256).text()),
        ("full sets of 257", full_sets(257).text()),
        ("full sets of 512", full_sets(512).text()),
        ("all limits", at_limits.text()),
        ("65534 bytes", padded(at_limits.clone(), 65_534)),
        ("65535 bytes", padded(at_limits.clone(), 65_535)),
        ("65536 bytes", padded(at_limits, 65_536)),
        ("empty", Vec::new()),
        ("line feed", b"\n".to_vec()),
    ];
    cases.extend(over_limits());
    cases.extend(bad_ends());
    cases
}
