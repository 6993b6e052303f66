//! Cases for the write call: constraints out of order, repeated, alike but for a field or a letter, and methods with any
//! number of them. Methods that no node uses may have any constraints at all.

use super::extremes::{method, padded, skeleton};
use super::{draw_constraint, draw_mask, draw_size, grow, is, not, place, sound_of};
use super::{Constraint, Draft, Line, Reading, Rng, Signed, Stage, Weave};

/// The most constraints that a method may have.
const MOST: usize = 64;

// ---------------------------------------------------------------- order

/// What the write call sorts by.
fn rank(constraint: &Constraint) -> (u32, [u32; 3]) {
    let small = |asked: Signed| u32::from(!asked.positive);
    match *constraint {
        Constraint::Order(i, j) => (0, [i, j, 0]),
        Constraint::Before(asked, set) => (1 + small(asked), [asked.proposition, set, 0]),
        Constraint::After(asked, set) => (3 + small(asked), [asked.proposition, set, 0]),
        Constraint::Between(from, asked, to) => (5 + small(asked), [from, asked.proposition, to]),
    }
}

fn sort(constraints: &mut Vec<Constraint>) {
    constraints.sort_by_key(rank);
    constraints.dedup();
}

/// Leaves the constraints as they are, or brings them into order, into reverse order, or out of order.
fn rearrange(rng: &mut Rng, constraints: &mut Vec<Constraint>) {
    match rng.below(8) {
        0 | 1 => {}
        2 | 3 => sort(constraints),
        4 => {
            sort(constraints);
            constraints.reverse();
        }
        5 if constraints.len() > 1 => {
            sort(constraints);
            let (one, other) = (rng.below(constraints.len()), rng.below(constraints.len()));
            constraints.swap(one, other);
        }
        _ => rng.shuffle(constraints),
    }
}

/// Repeats constraints up to so many, next to the first one or anywhere.
fn repeat(rng: &mut Rng, constraints: &mut Vec<Constraint>, count: usize) {
    while !constraints.is_empty() && constraints.len() < count {
        let at = rng.below(constraints.len());
        let to = if rng.percent(50) { at + 1 } else { rng.below(constraints.len() + 1) };
        constraints.insert(to, constraints[at].clone());
    }
}

// ---------------------------------------------------------------- sound cases

/// A sound case whose constraints are repeated and rearranged.
pub fn tangled(rng: &mut Rng) -> Draft {
    let mut size = draw_size(rng);
    size.strictness.broken = 0;
    size.strictness.most = *rng.pick(&[2, 5, 12]);
    let mut draft = sound_of(rng, size);
    tangle(rng, &mut draft);
    draft
}

/// Repeats and rearranges the constraints of each method, and adds some that mean the same.
fn tangle(rng: &mut Rng, draft: &mut Draft) {
    for method in &mut draft.methods {
        if rng.percent(20) {
            let all = ((1u64 << method.subtasks.len()) - 1) as u32;
            let alike: Vec<Constraint> = method.constraints.iter().map(|it| same_meaning(it, all)).collect();
            method.constraints.extend(alike);
        }
        let (now, more) = (method.constraints.len(), rng.between(1, 4));
        let count = *rng.pick(&[now, now, now + more, now + more, 10, 11, MOST - 1, MOST]);
        repeat(rng, &mut method.constraints, count);
        method.constraints.truncate(MOST);
        rearrange(rng, &mut method.constraints);
    }
}

/// The whole task for the set of all subtasks, and the other way round.
fn same_meaning(constraint: &Constraint, all: u32) -> Constraint {
    let other = |set: u32| match set {
        0 => all,
        set if set == all => 0,
        set => set,
    };
    match *constraint {
        Constraint::Order(..) => constraint.clone(),
        Constraint::Before(asked, set) => Constraint::Before(asked, other(set)),
        Constraint::After(asked, set) => Constraint::After(asked, other(set)),
        Constraint::Between(from, asked, to) => Constraint::Between(other(from), asked, other(to)),
    }
}

// ---------------------------------------------------------------- piles of constraints

/// Numbers whose order as text is another.
const TELLING: [u32; 25] =
    [0, 1, 2, 9, 10, 11, 19, 20, 90, 99, 100, 101, 109, 110, 199, 200, 210, 255, 256, 299, 300, 310, 499, 500, 511];

/// A small tree, whose one method with constraints has only such as hold, and a few methods that no node uses.
pub fn piled(rng: &mut Rng) -> Draft {
    let propositions = *rng.pick(&[1, 11, 12, 101, 256, 257, 511, 512]);
    let subtasks = rng.between(1, 12).max(*rng.pick(&[0, 0, 10, 32]));
    let (a, g, z) = (0, 1, 2);
    let goal = (0..subtasks).map(|_| if rng.percent(80) { a } else { z }).collect();
    let mut draft = skeleton(propositions, 1, 2, vec![method(g, goal), method(z, vec![])]);
    draft.palette = TELLING.into_iter().filter(|&p| p < propositions).collect();
    draft.initial = rng.subset(&draft.palette, 50);
    let mut tree = grow(&draft, &mut |task, _, _| task - g);
    place(rng, &mut draft, &mut tree, Weave::Ordered);
    let stage = Stage::new(&draft, &tree);
    for used in [0, 1] {
        let pile = pile(rng, &draft.palette, draft.methods[used].subtasks.len());
        let mut pile: Vec<Constraint> = pile.into_iter().map(|it| turned(rng, &it)).collect();
        // Nothing changes in the plan: of a condition and its other sign one holds.
        for constraint in &mut pile {
            if !stage.holds_everywhere(&tree, used, constraint, Reading::Right) {
                *constraint = other_way(constraint);
            }
        }
        pile.retain(|it| stage.holds_everywhere(&tree, used, it, Reading::Right));
        rearrange(rng, &mut pile);
        draft.methods[used].constraints = pile;
    }
    for _ in 0..rng.between(0, 4) {
        let subtasks = *rng.pick(&[0, 1, 1, 2, 3, 5, 11, 12, 32]);
        let mut unused = method(z, vec![a; subtasks]);
        unused.constraints = pile(rng, &draft.palette, subtasks);
        rearrange(rng, &mut unused.constraints);
        draft.methods.push(unused);
    }
    draft
}

/// Any number of constraints: new ones, repeats, and such as differ from another in a field or a letter.
fn pile(rng: &mut Rng, palette: &[u32], subtasks: usize) -> Vec<Constraint> {
    let any = rng.between(0, 12);
    let count = *rng.pick(&[0, 1, 2, any, any, 10, 11, 20, MOST - 1, MOST]);
    let repeats = *rng.pick(&[0, 10, 50, 90]);
    let mut pile: Vec<Constraint> = Vec::new();
    for _ in 0..count {
        let drawn = if pile.is_empty() || rng.percent(30) {
            draw_constraint(rng, palette, subtasks, 50)
        } else {
            let other = rng.pick(&pile).clone();
            Some(if rng.percent(repeats) { other } else { neighbour(rng, palette, subtasks, &other) })
        };
        let Some(constraint) = drawn else { break };
        let at = if rng.percent(50) { pile.len() } else { rng.below(pile.len() + 1) };
        pile.insert(at, constraint);
    }
    pile
}

/// A constraint that differs from this one in one field, or in its letter.
fn neighbour(rng: &mut Rng, palette: &[u32], subtasks: usize, constraint: &Constraint) -> Constraint {
    let set = if rng.percent(50) { draw_mask(rng, subtasks) } else { telling_mask(rng, subtasks) };
    let field = rng.below(5);
    let change = |rng: &mut Rng, asked: Signed| match field {
        0 => Signed { proposition: *rng.pick(palette), ..asked },
        _ => Signed { positive: !asked.positive, ..asked },
    };
    match (constraint.clone(), field) {
        (Constraint::Order(i, j), _) => {
            let other = rng.below(subtasks) as u32;
            match (other == i || other == j, field % 2) {
                (true, _) => Constraint::Order(j, i),
                (_, 0) => Constraint::Order(other, j),
                _ => Constraint::Order(i, other),
            }
        }
        (Constraint::Before(asked, set), 0 | 1) => Constraint::Before(change(rng, asked), set),
        (Constraint::Before(asked, set), 2) => Constraint::After(asked, set),
        (Constraint::Before(asked, _), _) => Constraint::Before(asked, set),
        (Constraint::After(asked, set), 0 | 1) => Constraint::After(change(rng, asked), set),
        (Constraint::After(asked, set), 2) => Constraint::Before(asked, set),
        (Constraint::After(asked, _), _) => Constraint::After(asked, set),
        (Constraint::Between(from, asked, to), 0 | 1) => Constraint::Between(from, change(rng, asked), to),
        (Constraint::Between(from, asked, to), 2) => Constraint::Between(to, asked, from),
        (Constraint::Between(_, asked, to), 3) => Constraint::Between(set, asked, to),
        (Constraint::Between(from, asked, _), _) => Constraint::Between(from, asked, set),
    }
}

/// A set of subtasks whose number is telling, or has as many digits as there are.
fn telling_mask(rng: &mut Rng, subtasks: usize) -> u32 {
    let all = ((1u64 << subtasks) - 1) as u32;
    let near = all.wrapping_sub(rng.below(3) as u32);
    let telling = *rng.pick(&TELLING);
    *rng.pick(&[telling, telling, telling, 1_000, 999, 1 << 31, near]) & all
}

/// Now and then with the other sign, to have both in a method.
fn turned(rng: &mut Rng, constraint: &Constraint) -> Constraint {
    match constraint {
        Constraint::Order(..) => constraint.clone(),
        _ if rng.percent(50) => other_way(constraint),
        _ => constraint.clone(),
    }
}

/// The order the other way round, or the condition with the other sign.
fn other_way(constraint: &Constraint) -> Constraint {
    let other = |asked: Signed| Signed { positive: !asked.positive, ..asked };
    match *constraint {
        Constraint::Order(i, j) => Constraint::Order(j, i),
        Constraint::Before(asked, set) => Constraint::Before(other(asked), set),
        Constraint::After(asked, set) => Constraint::After(other(asked), set),
        Constraint::Between(from, asked, to) => Constraint::Between(from, other(asked), to),
    }
}

// ---------------------------------------------------------------- texts

/// The text of an accepted case with each method's constraints in another order, and some of them repeated.
pub fn retangled(rng: &mut Rng, text: &[u8]) -> Vec<u8> {
    rewritten(text, |lines| {
        for _ in 0..rng.below(4) {
            if !lines.is_empty() && lines.len() < MOST {
                lines.push(lines[rng.below(lines.len())]);
            }
        }
        rng.shuffle(lines);
    })
}

/// The text of an accepted case without one of its constraints, however often it is repeated; none if there is none.
pub fn lessened(rng: &mut Rng, text: &[u8]) -> Option<Vec<u8>> {
    let mut methods = 0;
    rewritten(text, |lines| methods += usize::from(!lines.is_empty()));
    let mut before = rng.below(methods);
    let lessened = rewritten(text, |lines| {
        if let Some(&line) = lines.first() {
            if before == 0 {
                lines.retain(|&it| it != line);
            }
            before = before.wrapping_sub(1);
        }
    });
    (methods > 0).then_some(lessened)
}

/// The text of an accepted case with the constraint lines of each method changed, and c following.
fn rewritten<'a>(text: &'a [u8], mut change: impl FnMut(&mut Vec<&'a [u8]>)) -> Vec<u8> {
    let lines: Vec<&[u8]> = text.split_inclusive(|&byte| byte == b'\n').collect();
    let mut out = Vec::new();
    let mut at = 0;
    while at < lines.len() {
        let line = lines[at];
        at += 1;
        if !line.starts_with(b"M") {
            out.extend_from_slice(line);
            continue;
        }
        let fields: Vec<&[u8]> = line[..line.len() - 1].split(|&byte| byte == b',').collect();
        let count = fields.last().and_then(|c| std::str::from_utf8(c).ok()?.parse::<usize>().ok()).expect("c");
        let mut constraints = lines[at..at + count].to_vec();
        at += count;
        change(&mut constraints);
        out.extend(fields[..fields.len() - 1].join(&b','));
        out.extend(format!(",{}\n", constraints.len()).into_bytes());
        out.extend(constraints.concat());
    }
    out
}

// ---------------------------------------------------------------- the dearest cases

/// How the constraints of the dearest cases stand.
#[derive(Clone, Copy, PartialEq)]
pub enum Standing {
    Tidy,
    Reversed,
    /// Out of order, every other one a repeat.
    Shuffled,
}

/// 64 methods of 64 constraints each, one of them the only node's.
pub fn sixty_four(standing: Standing) -> Draft {
    let rng = &mut Rng::new(64);
    let mut draft = skeleton(256, 1, 2, vec![method(1, vec![])]);
    draft.initial = (0..128).collect();
    draft.methods.resize(64, method(2, vec![0; 12]));
    for method in &mut draft.methods {
        let all = ((1u64 << method.subtasks.len()) - 1) as u32;
        let mut constraints = Vec::new();
        while constraints.len() < 64 {
            let p = rng.below(128) as u32;
            let asked = if rng.percent(50) { is(p) } else { not(p + 128) };
            let (u, v) = (rng.word() as u32 & all, rng.word() as u32 & all);
            constraints.push(match rng.below(7) {
                0 if all > 0 => Constraint::Order(rng.below(6) as u32, rng.between(6, 11) as u32),
                0..=2 => Constraint::Before(asked, u),
                3 | 4 => Constraint::After(asked, u),
                _ => Constraint::Between(u, asked, v),
            });
            sort(&mut constraints);
        }
        match standing {
            Standing::Tidy => {}
            Standing::Reversed => constraints.reverse(),
            Standing::Shuffled => {
                constraints = constraints.into_iter().step_by(2).flat_map(|it| [it.clone(), it]).collect();
                rng.shuffle(&mut constraints);
            }
        }
        method.constraints = constraints;
    }
    draft.lines = vec![Line::E(0, 0)];
    draft
}

/// Every case of this file, by name: those of 64 methods, and texts about as long as they may be, out of order.
pub fn all() -> Vec<(&'static str, Vec<u8>)> {
    let mut longest = sixty_four(Standing::Reversed);
    longest.actions.resize(300, Default::default());
    // Actions come before compound tasks: their numbers move.
    longest.goal = 300;
    longest.methods.iter_mut().for_each(|method| method.task += 299);
    let mut shuffled = longest.clone();
    let rng = &mut Rng::new(65_535);
    for method in &mut shuffled.methods {
        let few = method.constraints.len() / 2;
        method.constraints.truncate(few);
        repeat(rng, &mut method.constraints, MOST);
        rng.shuffle(&mut method.constraints);
    }
    vec![
        ("64 methods of 64, tidy", sixty_four(Standing::Tidy).text()),
        ("64 methods of 64, reversed", sixty_four(Standing::Reversed).text()),
        ("64 methods of 64, shuffled", sixty_four(Standing::Shuffled).text()),
        ("65534 bytes, reversed", padded(longest.clone(), 65_534)),
        ("65535 bytes, reversed", padded(longest.clone(), 65_535)),
        ("65536 bytes, reversed", padded(longest, 65_536)),
        ("65535 bytes, shuffled", padded(shuffled, 65_535)),
    ]
}
