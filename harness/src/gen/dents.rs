//! Long stretches for betweens of either sign: each of two propositions is turned about in one state of the plan, and the
//! betweens begin and end in gaps near such a state, or anywhere.

use super::extremes::{method, skeleton};
use super::{draw_constraint, draw_mask, grow, place};
use super::{Constraint, Draft, Line, Reading, Rng, Signed, Stage, Tree, Weave, EDGES};

/// The empty subtasks of the goal; blocks of cues follow them.
const EMPTY: usize = 4;

/// A proposition that is as asked in all states but one.
struct Dent {
    asked: Signed,
    state: usize,
}

/// A plan of up to 400 cues, and constraints most of which hold.
pub fn dented(rng: &mut Rng) -> Draft {
    let most = *rng.pick(&[8, 20, 70, 140, 400]);
    let cues = rng.between(most / 2, most);
    // Action 0 does nothing; two more for each proposition make it true and false.
    let mut draft = skeleton(*rng.pick(&[256, 257, 320, 511, 512, 512]), 5, 3, vec![]);
    draft.palette.retain(|p| EDGES.contains(p));
    let edge = rng.below(draft.palette.len() - 1);
    draft.palette = draft.palette[edge..edge + 2].to_vec();
    draft.plan = vec![0; cues];
    let dents = [dent(rng, &mut draft, 0), dent(rng, &mut draft, 1)];
    let mut tree = blocks(rng, &mut draft);
    let mut gaps: Vec<usize> = (0..EMPTY).map(|_| near(rng, &dents, cues)).collect();
    gaps.sort();
    for (line, gap) in tree.lines[1..].iter_mut().zip(gaps) {
        *line = Line::E(1, gap as u32);
    }
    draft.lines = tree.lines.clone();
    constrain(rng, &mut draft, &tree, &dents);
    draft
}

/// Turns a proposition of the palette about in one state.
fn dent(rng: &mut Rng, draft: &mut Draft, n: usize) -> Dent {
    let (proposition, cues) = (draft.palette[n], draft.plan.len());
    let (state, positive) = (rng.below(cues + 1), rng.percent(50));
    let action = |truth: bool| (1 + 2 * n + usize::from(!truth)) as u32;
    draft.actions[action(true) as usize][2] = vec![proposition];
    draft.actions[action(false) as usize][3] = vec![proposition];
    if positive != (state == 0) {
        draft.initial.push(proposition);
    }
    if state > 0 {
        draft.plan[state - 1] = action(!positive);
    }
    if state < cues {
        draft.plan[state] = action(positive);
    }
    Dent { asked: Signed { proposition, positive }, state }
}

/// The goal with its empty subtasks and with the plan in blocks.
fn blocks(rng: &mut Rng, draft: &mut Draft) -> Tree {
    let (g, z, y) = (draft.goal, draft.goal + 1, draft.goal + 2);
    let cues = draft.plan.clone();
    let blocks: Vec<&[u32]> = cues.chunks(31).collect();
    draft.methods.push(method(g, [vec![z; EMPTY], vec![y; blocks.len()]].concat()));
    draft.methods.push(method(z, vec![]));
    draft.methods.extend(blocks.iter().map(|block| method(y, block.to_vec())));
    let mut next = 1;
    let mut tree = grow(draft, &mut |task, _, _| {
        next += u32::from(task == y);
        [0, 1, next][(task - g) as usize]
    });
    place(rng, draft, &mut tree, Weave::Ordered);
    tree
}

/// A gap at either end of the plan, next to a dent, or anywhere.
fn near(rng: &mut Rng, dents: &[Dent], cues: usize) -> usize {
    match rng.below(8) {
        0 => 0,
        1 => cues,
        2 | 3 => rng.below(cues + 1),
        _ => (rng.pick(dents).state + 1).saturating_sub(rng.below(3)).min(cues),
    }
}

/// Gives the goal betweens from gap to gap, the empty tasks conditions in their gaps, and both any others.
fn constrain(rng: &mut Rng, draft: &mut Draft, tree: &Tree, dents: &[Dent]) {
    let stage = Stage::new(draft, tree);
    for (method, most) in [(0, 5), (1, 2)] {
        let subtasks = draft.methods[method].subtasks.len();
        for _ in 0..rng.between(1, most) {
            let drawn = match method {
                0 if rng.percent(80) => Some(draw_between(rng, subtasks, dents)),
                _ => draw_constraint(rng, &draft.palette, subtasks, 50),
            };
            let kept = drawn.filter(|it| stage.holds_everywhere(tree, method, it, Reading::Right) || rng.percent(30));
            draft.methods[method].constraints.extend(kept);
        }
    }
}

/// Mostly from an empty subtask to a later one, with the sign that holds but for the dent.
fn draw_between(rng: &mut Rng, subtasks: usize, dents: &[Dent]) -> Constraint {
    let mut asked = rng.pick(dents).asked;
    asked.positive ^= rng.percent(20);
    let from = rng.below(EMPTY - 1);
    let to = rng.between(from + 1, EMPTY - 1);
    match rng.below(10) {
        0 => Constraint::Between(draw_mask(rng, subtasks), asked, 1 << to),
        1 => Constraint::Between(1 << from, asked, draw_mask(rng, subtasks)),
        2 => Constraint::Between(1 << to, asked, 1 << from),
        _ => Constraint::Between(1 << from, asked, 1 << to),
    }
}
