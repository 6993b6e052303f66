//! Ways to damage a draft (which stays a text of the right form) or a text (which may not).

use super::{Constraint, Draft, Line, Rng, Signed, FORMER, PROPOSITIONS};

// ---------------------------------------------------------------- drafts

/// Damages a draft in one random way; some ways leave it sound by luck.
pub fn draft(rng: &mut Rng, draft: &mut Draft) {
    match rng.below(14) {
        0..=2 => places(rng, draft),
        3 | 4 => tree(rng, draft),
        5 | 6 => plan(rng, draft),
        7..=9 => conditions(rng, draft),
        10 | 11 => constraints(rng, draft),
        12 => beyond(rng, draft),
        _ => methods(rng, draft),
    }
}

/// Changes the goal, or a condition or an effect, and leaves the tree as it is.
pub fn model(rng: &mut Rng, draft: &mut Draft) {
    if rng.percent(30) {
        draft.goal = any_compound(rng, draft);
    } else {
        conditions(rng, draft);
    }
}

/// Moves a gap or a position a little, or to anywhere, or swaps two places.
fn places(rng: &mut Rng, draft: &mut Draft) {
    let cues = draft.plan.len();
    let at = rng.below(draft.lines.len());
    let other = rng.below(draft.lines.len());
    if rng.percent(30) {
        if let (Line::L(a, i), Line::L(b, j)) = (draft.lines[at], draft.lines[other]) {
            draft.lines[at] = Line::L(a, j);
            draft.lines[other] = Line::L(b, i);
            return;
        }
    }
    let moved = |rng: &mut Rng, place: u32| match rng.below(3) {
        0 => place + 1,
        1 => place.saturating_sub(1),
        _ => rng.below(cues + 2) as u32,
    };
    // The node drawn, or the next one after it that has a place.
    for step in 0..draft.lines.len() {
        let node = (at + step) % draft.lines.len();
        match &mut draft.lines[node] {
            Line::E(_, place) | Line::L(_, place) => {
                *place = moved(rng, *place);
                return;
            }
            Line::D(_) => {}
        }
    }
}

/// Changes, drops, doubles, swaps or appends a node line.
fn tree(rng: &mut Rng, draft: &mut Draft) {
    let at = rng.below(draft.lines.len());
    let line = draft.lines[at];
    match rng.below(7) {
        0 if draft.lines.len() > 1 => {
            draft.lines.remove(at);
        }
        1 => draft.lines.insert(at, line),
        2 => draft.lines.push(line),
        3 => {
            let other = rng.below(draft.lines.len());
            draft.lines.swap(at, other);
        }
        4 if draft.lines.len() > 1 => {
            draft.lines.pop();
        }
        5 => draft.lines[at] = other_kind(rng, draft, line),
        _ => draft.lines[at] = other_label(rng, draft, line),
    }
}

/// Damages the fit or the place of this very node, or cuts the tree off before it.
pub fn node(rng: &mut Rng, draft: &mut Draft, at: usize) {
    let line = draft.lines[at];
    match (rng.below(4), line) {
        (0, _) if at > 0 => draft.lines.truncate(at),
        (1, _) => draft.lines[at] = other_kind(rng, draft, line),
        (2, _) => draft.lines[at] = other_label(rng, draft, line),
        (_, Line::L(action, _)) => draft.lines[at] = Line::L(action, rng.between(1, draft.plan.len()) as u32),
        _ => {}
    }
}

/// The same label or place under another letter, as far as it stays readable.
fn other_kind(rng: &mut Rng, draft: &Draft, line: Line) -> Line {
    let methods = draft.methods.len().max(1);
    let actions = draft.actions.len().max(1);
    let place = rng.below(draft.plan.len() + 1) as u32;
    match (line, rng.percent(50)) {
        (Line::D(m), true) => Line::E(m, place),
        (Line::E(m, _), true) => Line::D(m),
        (Line::L(..), true) => Line::D(rng.below(methods) as u32),
        (Line::L(..), false) => Line::E(rng.below(methods) as u32, place),
        (_, false) => Line::L(rng.below(actions) as u32, place.max(1)),
    }
}

fn other_label(rng: &mut Rng, draft: &Draft, line: Line) -> Line {
    let method = rng.below(draft.methods.len().max(1)) as u32;
    let action = rng.below(draft.actions.len().max(1)) as u32;
    match line {
        Line::D(_) => Line::D(method),
        Line::E(_, g) => Line::E(method, g),
        Line::L(_, i) => Line::L(action, i),
    }
}

/// Puts in a cue that no leaf claims, takes one out, or changes or swaps cues.
fn plan(rng: &mut Rng, draft: &mut Draft) {
    let actions = draft.actions.len();
    if actions == 0 {
        return;
    }
    let cues = draft.plan.len();
    match rng.below(5) {
        0 | 1 => {
            for _ in 0..rng.between(1, 3) {
                insert_cue(draft, rng.below(draft.plan.len() + 1), rng.below(actions) as u32);
            }
        }
        2 if cues > 0 => {
            draft.plan.remove(rng.below(cues));
        }
        3 if cues > 0 => draft.plan[rng.below(cues)] = rng.below(actions) as u32,
        _ if cues > 0 => draft.plan.swap(rng.below(cues), rng.below(cues)),
        _ => draft.plan.push(rng.below(actions) as u32),
    }
}

/// Inserts a cue after so many others; leaves and gaps behind it move on by one.
fn insert_cue(draft: &mut Draft, after: usize, action: u32) {
    draft.plan.insert(after, action);
    for line in &mut draft.lines {
        if let Line::E(_, place) | Line::L(_, place) = line {
            *place += u32::from(*place > after as u32);
        }
    }
}

/// Puts one proposition into, or takes it out of, the initial state or a set of an action.
fn conditions(rng: &mut Rng, draft: &mut Draft) {
    if draft.palette.is_empty() {
        return;
    }
    let p = *rng.pick(&draft.palette);
    let set = any_set(rng, draft);
    match set.binary_search(&p) {
        Ok(at) => {
            set.remove(at);
        }
        Err(at) => set.insert(at, p),
    }
}

/// The initial state or a set of an action.
fn any_set<'a>(rng: &mut Rng, draft: &'a mut Draft) -> &'a mut Vec<u32> {
    let actions = draft.actions.len();
    if actions == 0 || rng.percent(30) {
        return &mut draft.initial;
    }
    &mut draft.actions[rng.below(actions)][rng.below(4)]
}

/// Puts the first proposition that the model hasn't into a condition or a set, or fills a set with one too many.
fn beyond(rng: &mut Rng, draft: &mut Draft) {
    let lacking = draft.propositions;
    let mut asked: Vec<&mut Signed> =
        draft.methods.iter_mut().flat_map(|method| &mut method.constraints).filter_map(Constraint::asked).collect();
    if !asked.is_empty() && rng.percent(40) {
        let at = rng.below(asked.len());
        asked[at].proposition = lacking;
        return;
    }
    let set = any_set(rng, draft);
    if rng.percent(20) {
        *set = (0..lacking).collect();
    }
    set.push(lacking);
}

/// Adds a constraint without looking whether it holds, or changes one a little.
fn constraints(rng: &mut Rng, draft: &mut Draft) {
    let palette = draft.palette.clone();
    if draft.methods.is_empty() {
        return;
    }
    let at = rng.below(draft.methods.len());
    let method = &mut draft.methods[at];
    let subtasks = method.subtasks.len();
    if method.constraints.is_empty() || rng.percent(50) {
        method.constraints.extend(super::draw_constraint(rng, &palette, subtasks, 50));
        return;
    }
    let which = rng.below(method.constraints.len());
    let mask = super::draw_mask(rng, subtasks);
    let constraint = &mut method.constraints[which];
    *constraint = match constraint.clone() {
        Constraint::Order(i, j) => Constraint::Order(j, i),
        Constraint::Before(asked, set) if rng.percent(50) => Constraint::Before(other_asked(rng, &palette, asked), set),
        Constraint::Before(asked, _) => Constraint::After(asked, mask),
        Constraint::After(asked, set) if rng.percent(50) => Constraint::After(other_asked(rng, &palette, asked), set),
        Constraint::After(asked, _) => Constraint::Before(asked, mask),
        Constraint::Between(from, asked, to) if rng.percent(40) => {
            Constraint::Between(from, other_asked(rng, &palette, asked), to)
        }
        Constraint::Between(_, asked, to) if rng.percent(50) => Constraint::Between(mask, asked, to),
        Constraint::Between(from, asked, _) => Constraint::Between(from, asked, mask),
    };
}

/// The other sign, or any proposition.
fn other_asked(rng: &mut Rng, palette: &[u32], asked: Signed) -> Signed {
    if palette.is_empty() || rng.percent(50) {
        Signed { positive: !asked.positive, ..asked }
    } else {
        Signed { proposition: *rng.pick(palette), ..asked }
    }
}

fn any_compound(rng: &mut Rng, draft: &Draft) -> u32 {
    (draft.actions.len() + rng.below(draft.compound as usize)) as u32
}

/// Changes the goal, a method's task or its subtasks.
fn methods(rng: &mut Rng, draft: &mut Draft) {
    let actions = draft.actions.len();
    let compound = draft.compound as usize;
    let any_compound = any_compound(rng, draft);
    let at = rng.below(draft.methods.len());
    match rng.below(4) {
        0 => draft.goal = any_compound,
        1 => draft.methods[at].task = any_compound,
        2 => {
            draft.methods[at].subtasks.pop();
        }
        _ => {
            let subtask = rng.below(actions + compound) as u32;
            draft.methods[at].subtasks.push(subtask);
        }
    }
}

// ---------------------------------------------------------------- texts

/// Damages a text in one random way.
pub fn text(rng: &mut Rng, text: &mut Vec<u8>) {
    match rng.below(20) {
        0..=10 => fields(rng, text),
        11 => header(rng, text),
        12..=15 => lines(rng, text),
        _ => bytes(rng, text),
    }
}

/// The greatest count of each header field, of the propositions the former one too; the goal has none of its own.
const MOST: [(usize, u32); 7] =
    [(2, PROPOSITIONS), (2, FORMER), (3, 1_024), (4, 1_024), (5, 2_048), (7, 1_000), (8, 3_000)];

/// Puts a count at its limit, one over it, or at 0.
fn header(rng: &mut Rng, text: &mut Vec<u8>) {
    let end = text.iter().position(|&b| b == b'\n').unwrap_or(text.len());
    let mut fields: Vec<Vec<u8>> = text[..end].split(|&b| b == b',').map(<[u8]>::to_vec).collect();
    let &(item, most) = rng.pick(&MOST);
    if item <= fields.len() {
        fields[item - 1] = rng.pick(&[most, most + 1, 0]).to_string().into_bytes();
    }
    text.splice(..end, fields.join(&b','));
}

/// Numbers at the edges of 01's ranges, and writings that are not plain numbers.
const TELLING: &[&str] = &[
    "0",
    "1",
    "2",
    "00",
    "01",
    "000",
    "32",
    "33",
    "64",
    "65",
    "255",
    "256",
    "257",
    "511",
    "512",
    "513",
    "1000",
    "1001",
    "1024",
    "1025",
    "2048",
    "2049",
    "3000",
    "3001",
    "4294967294",
    "4294967295",
    "4294967296",
    "04294967295",
    "42949672950",
    "18446744073709551616",
    "99999999999999999999999999",
    "",
    " ",
    "1 ",
    " 1",
    "+1",
    "-1",
    "1.0",
    "x",
    "1x",
    "\r",
    "1\r",
    "\0",
    "1\0",
    "\u{661}",
    "0x1",
    "1e3",
    "\"1\"",
    "A",
    "N",
];

/// Changes one field. The line is drawn by its letter first: most lines are node lines.
fn fields(rng: &mut Rng, text: &mut Vec<u8>) {
    let mut lines: Vec<Vec<Vec<u8>>> =
        text.split(|&b| b == b'\n').map(|line| line.split(|&b| b == b',').map(<[u8]>::to_vec).collect()).collect();
    let at = draw_line(rng, &lines);
    let line = &mut lines[at];
    let item = rng.below(line.len());
    match rng.below(13) {
        0..=2 => line[item] = rng.pick(TELLING).as_bytes().to_vec(),
        3 | 4 => nudge(&mut line[item], 1),
        5 => nudge(&mut line[item], -1),
        6 => line[item].insert(0, b'0'),
        7 => {
            line.remove(item);
        }
        8 => {
            let copy = line[item].clone();
            line.insert(item, copy);
        }
        9 => line.push(rng.pick(TELLING).as_bytes().to_vec()),
        10 => {
            let other = rng.below(line.len());
            line.swap(item, other);
        }
        11 => line[0].iter_mut().for_each(other_case),
        _ if rng.percent(20) => line[0] = rng.pick(&["", "X", "x", "DD", "bb", "Ww"]).as_bytes().to_vec(),
        _ => line[0] = vec![*rng.pick(b"NIAMOBbFfWwPDELniamopdel")],
    }
    let joined: Vec<Vec<u8>> = lines.iter().map(|line| line.join(&b',')).collect();
    *text = joined.join(&b'\n');
}

fn draw_line(rng: &mut Rng, lines: &[Vec<Vec<u8>>]) -> usize {
    let letter = *rng.pick(b"NIAMOBbFfWwPDEL");
    let with_letter: Vec<usize> = (0..lines.len()).filter(|&i| lines[i][0] == [letter]).collect();
    match with_letter.is_empty() {
        true => rng.below(lines.len()),
        false => *rng.pick(&with_letter),
    }
}

/// A capital letter becomes a small one, a small one a capital.
fn other_case(byte: &mut u8) {
    if byte.is_ascii_alphabetic() {
        *byte ^= 0x20;
    }
}

/// Adds to a field if it is a number.
fn nudge(field: &mut Vec<u8>, by: i64) {
    let number = std::str::from_utf8(field).ok().and_then(|digits| digits.parse::<i64>().ok());
    if let Some(number) = number {
        *field = (number + by).max(0).to_string().into_bytes();
    }
}

/// Drops, doubles, swaps, empties, joins or appends lines.
fn lines(rng: &mut Rng, text: &mut Vec<u8>) {
    let mut lines: Vec<Vec<u8>> = text.split_inclusive(|&b| b == b'\n').map(<[u8]>::to_vec).collect();
    if lines.is_empty() {
        return;
    }
    let at = rng.below(lines.len());
    let line = lines[at].clone();
    match rng.below(9) {
        0 => {
            lines.remove(at);
        }
        1 => lines.insert(at, line),
        2 => {
            let other = rng.below(lines.len());
            lines.swap(at, other);
        }
        3 => lines[at] = b"\n".to_vec(),
        4 => {
            lines[at].pop();
        }
        5 => lines.insert(at, b"\n".to_vec()),
        6 => lines.push(line),
        7 => {
            lines.pop();
        }
        _ => lines
            .push(rng.pick(&["\n", "x", " ", "\0", "\r\n", "L,0,1", "L,0,1\n", "b,0,0\n", ","]).as_bytes().to_vec()),
    }
    *text = lines.concat();
}

/// Flips, drops, puts in, cuts off or pads bytes.
fn bytes(rng: &mut Rng, text: &mut Vec<u8>) {
    let odd = *rng.pick(b"\0\r\n,,0123456789 xNIAMOBFWPDELdobfw\x80\xff-+\t");
    if text.is_empty() {
        text.push(odd);
        return;
    }
    let at = rng.below(text.len());
    match rng.below(12) {
        0 | 1 => text[at] ^= 1 << rng.below(8),
        2 | 3 => text[at] = odd,
        4 => {
            text.remove(at);
        }
        5 | 6 => text.insert(at, odd),
        7 => text.truncate(at),
        8 => {
            text.pop();
        }
        9 => text.push(odd),
        10 if rng.percent(10) => text.clear(),
        // A long tail: over the text limit, or just a surplus line within it.
        _ if rng.percent(30) => {
            let length = rng.between(65_534, 65_540).max(text.len());
            text.resize(length, odd);
        }
        _ => {
            let carriage = text.iter().position(|&b| b == b'\n').unwrap_or(0);
            text.insert(carriage, b'\r');
        }
    }
}
