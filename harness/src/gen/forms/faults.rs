//! Ways to damage a name list or a plan form. A fault is applied to the words, which keep the shape that they have to have, or to the
//! lines of either text.

use super::{fresh, name_byte, unlisted, Compound, Name, Rng, Sheet};

/// A way to damage an input, and the number that it gives if nothing else is wrong. Some inputs have nothing to apply it to, and stay
/// as they are.
pub struct Fault {
    pub name: &'static str,
    pub number: u32,
    pub way: Way,
}

pub enum Way {
    Sheet(fn(&mut Rng, &mut Sheet)),
    Names(fn(&mut Rng, &mut Lines)),
    Form(fn(&mut Rng, &mut Lines)),
}

/// The lines of a text with their line feeds.
pub type Lines = Vec<Vec<u8>>;

const fn words(name: &'static str, number: u32, apply: fn(&mut Rng, &mut Sheet)) -> Fault {
    Fault { name, number, way: Way::Sheet(apply) }
}

const fn listed(name: &'static str, apply: fn(&mut Rng, &mut Lines)) -> Fault {
    Fault { name, number: 17, way: Way::Names(apply) }
}

const fn lines(name: &'static str, apply: fn(&mut Rng, &mut Lines)) -> Fault {
    Fault { name, number: 17, way: Way::Form(apply) }
}

/// Every fault.
pub const FAULTS: &[Fault] = &[
    // The shape of the name list.
    listed("names: no line feed at the end", no_last_feed),
    listed("names: cut off", cut_off),
    listed("names: lines gone at the end", lines_gone),
    listed("names: a line gone", line_gone),
    listed("names: a line again", line_again),
    listed("names: two lines swapped", lines_swapped),
    listed("names: a surplus line", surplus_line),
    listed("names: a surplus byte", surplus_byte),
    listed("names: an empty line", empty_line),
    listed("names: another number", another_number),
    listed("names: a leading zero", leading_zero),
    listed("names: methods numbered on", numbered_on),
    listed("names: no comma", |rng, lines| in_line(rng, lines, |_, line| line.retain(|&byte| byte != b','))),
    listed("names: a comma in a name", |rng, lines| put_in(rng, lines, b",")),
    listed("names: a space in a name", |rng, lines| put_in(rng, lines, b" ")),
    listed("names: a byte that no name has", |rng, lines| put_in(rng, lines, NO_NAME)),
    listed("names: a carriage return", carriage_return),
    listed("names: no name", no_name),
    // Names listed again.
    words("names: a task listed again", 18, |rng, sheet| list_again(rng, &mut sheet.tasks)),
    words("names: a method listed again", 18, |rng, sheet| list_again(rng, &mut sheet.methods)),
    // The shape of the form.
    lines("no line feed at the end", no_last_feed),
    lines("cut off", cut_off),
    lines("lines gone at the end", lines_gone),
    lines("a surplus line", surplus_line),
    lines("a surplus byte", surplus_byte),
    lines("an empty line", empty_line),
    lines("two lines joined", two_joined),
    lines("two spaces", |rng, lines| at_a_space(rng, lines, b"  ")),
    lines("a tab", |rng, lines| at_a_space(rng, lines, b"\t")),
    lines("a space ahead", |rng, lines| in_line(rng, lines, |_, line| line.insert(0, b' '))),
    lines("a space at the end", |rng, lines| in_line(rng, lines, |_, line| line.insert(line.len() - 1, b' '))),
    lines("a carriage return", carriage_return),
    lines("a byte that no name has", |rng, lines| put_in(rng, lines, NO_NAME)),
    lines("a comma in a name", |rng, lines| put_in(rng, lines, b",")),
    lines("a leading zero", |rng, lines| in_an_id(rng, lines, |_, id| id.insert(0, b'0'))),
    lines("an id that is no plain number", |rng, lines| in_an_id(rng, lines, not_plain)),
    lines("an id that is too great", |rng, lines| in_an_id(rng, lines, too_great)),
    lines("no first line", |_, lines| drop(lines.remove(0))),
    lines("another first line", another_first),
    lines("no root line", |_, lines| drop(root_line(lines).map(|at| lines.remove(at)))),
    lines("a second root line", second_root),
    lines("a root line with no id, or two", other_root),
    lines("an action line behind the root", action_behind),
    lines("a compound line ahead of the root", compound_ahead),
    lines("no last line", |_, lines| drop(lines.pop())),
    lines("another last line", another_last),
    lines("no arrow, or another", other_arrow),
    lines("a word gone", word_gone),
    // Names of the form, and numbers of subtasks.
    words("an unknown action", 18, |rng, sheet| {
        let name = unlisted(rng, &sheet.tasks);
        rename_action(rng, sheet, name);
    }),
    words("an unknown task", 18, |rng, sheet| {
        let name = unlisted(rng, &sheet.tasks);
        any_compound(rng, sheet, |_, line| line.task = name);
    }),
    words("an unknown method", 18, |rng, sheet| {
        let name = unlisted(rng, &sheet.methods);
        any_compound(rng, sheet, |_, line| line.method = name);
    }),
    words("a compound task's name on an action line", 18, |rng, sheet| {
        let name = rng.pick(&sheet.tasks[sheet.model.actions..]).clone();
        rename_action(rng, sheet, name);
    }),
    words("an action's name on a compound line", 18, action_for_compound),
    words("a task's name for a method", 18, task_for_method),
    words("a method's name for a task", 18, method_for_task),
    words("a method of another task", 18, other_tasks_method),
    words("another task with the method", 18, other_task),
    words("an id too few", 18, |rng, sheet| any_compound(rng, sheet, |rng, line| too_few(rng, &mut line.subtasks))),
    words("an id too many", 18, too_many),
    // Ids.
    words("an action line again", 19, action_again),
    words("a compound line again", 19, compound_again),
    words("an action line with a compound line's id", 19, action_with_compound_id),
    words("a second line with subtasks of its own", 19, second_with_subtasks),
    words("two lines with one id", 19, one_id),
    words("twice a subtask of one line", 19, |rng, sheet| in_a_leafs_place(rng, sheet, Place::SameLine)),
    words("twice a subtask of two lines", 19, |rng, sheet| in_a_leafs_place(rng, sheet, Place::OtherLine)),
    words("the root under a parent", 19, |rng, sheet| in_a_leafs_place(rng, sheet, Place::Root)),
    words("a subtask's id for another", 19, subtask_for_another),
    words("an action line not reached", 19, action_apart),
    words("a compound line not reached", 19, compound_apart),
    words("a ring not reached", 19, ring_apart),
    words("a leaf's line gone", 19, leaf_gone),
    words("a subtask never defined", 19, subtask_undefined),
    words("the root never defined", 19, |_, sheet| sheet.root = fresh(sheet)),
    words("another root", 19, other_root_id),
    // Trees that don't fit.
    words("two subtasks swapped", 6, swap_subtasks),
    words("subtasks of two lines swapped", 6, swap_across),
    words("an action as root", 6, action_as_root),
    words("two action lines swapped", 0, swap_actions),
];

// ---------------------------------------------------------------- lines

/// Bytes that no name has; a line feed isn't among them.
const NO_NAME: &[u8] = b"\0\x01\t\x0b\r\x1f\x7f\x80\xa0\xff";

fn in_line(rng: &mut Rng, lines: &mut Lines, change: impl FnOnce(&mut Rng, &mut Vec<u8>)) {
    let at = rng.below(lines.len());
    change(rng, &mut lines[at]);
}

fn no_last_feed(_: &mut Rng, lines: &mut Lines) {
    lines.last_mut().and_then(|line| line.pop());
}

/// Cuts the text off after any byte.
fn cut_off(rng: &mut Rng, lines: &mut Lines) {
    let at = rng.below(lines.len());
    lines.truncate(at + 1);
    let end = rng.below(lines[at].len());
    lines[at].truncate(end);
}

fn lines_gone(rng: &mut Rng, lines: &mut Lines) {
    lines.truncate(rng.below(lines.len()));
}

fn line_gone(rng: &mut Rng, lines: &mut Lines) {
    lines.remove(rng.below(lines.len()));
}

fn line_again(rng: &mut Rng, lines: &mut Lines) {
    let at = rng.below(lines.len());
    lines.insert(at, lines[at].clone());
}

fn lines_swapped(rng: &mut Rng, lines: &mut Lines) {
    let (one, other) = (rng.below(lines.len()), rng.below(lines.len()));
    lines.swap(one, other);
}

/// Puts a line behind all others: one of them once more, the last one, or nothing but a line feed.
fn surplus_line(rng: &mut Rng, lines: &mut Lines) {
    let any = rng.below(lines.len());
    let line = rng.pick(&[lines[any].clone(), lines[lines.len() - 1].clone(), b"\n".to_vec()]).clone();
    lines.push(line);
}

fn surplus_byte(rng: &mut Rng, lines: &mut Lines) {
    let byte = *rng.pick(b"\0\n\r 0x<");
    lines.push(vec![byte]);
}

fn empty_line(rng: &mut Rng, lines: &mut Lines) {
    lines.insert(rng.below(lines.len()), b"\n".to_vec());
}

fn two_joined(rng: &mut Rng, lines: &mut Lines) {
    let at = rng.below(lines.len().max(2) - 1);
    lines[at].pop();
    if rng.percent(50) {
        lines[at].push(b' ');
    }
}

fn carriage_return(rng: &mut Rng, lines: &mut Lines) {
    let all = rng.percent(30);
    let only = rng.below(lines.len());
    for (at, line) in lines.iter_mut().enumerate() {
        if all || at == only {
            line.insert(line.len() - 1, b'\r');
        }
    }
}

/// Puts one of these bytes into a line, or in the place of another.
fn put_in(rng: &mut Rng, lines: &mut Lines, bytes: &[u8]) {
    let byte = *rng.pick(bytes);
    in_line(rng, lines, |rng, line| {
        let at = rng.below(line.len());
        if rng.percent(50) && line[at] != b'\n' {
            line[at] = byte;
        } else {
            line.insert(at, byte);
        }
    });
}

/// Puts these bytes in the place of a space.
fn at_a_space(rng: &mut Rng, lines: &mut Lines, bytes: &[u8]) {
    let spaced: Vec<usize> = (0..lines.len()).filter(|&at| lines[at].contains(&b' ')).collect();
    if spaced.is_empty() {
        return;
    }
    let line = &mut lines[*rng.pick(&spaced)];
    let spaces: Vec<usize> = (0..line.len()).filter(|&at| line[at] == b' ').collect();
    let at = *rng.pick(&spaces);
    line.splice(at..=at, bytes.iter().copied());
}

// ---------------------------------------------------------------- lines of the name list

/// Where the name begins, less one; the line feed, if there is none.
fn first_comma(line: &[u8]) -> usize {
    line.iter().position(|&byte| byte == b',').unwrap_or(line.len() - 1)
}

/// The line's number one more, one less, or any.
fn another_number(rng: &mut Rng, lines: &mut Lines) {
    let any = rng.below(3_000) as u32;
    in_line(rng, lines, |rng, line| {
        let comma = first_comma(line);
        let number: u32 = std::str::from_utf8(&line[..comma]).ok().and_then(|it| it.parse().ok()).unwrap_or(0);
        let other = *rng.pick(&[number.saturating_add(1), number.saturating_sub(1), any, u32::MAX]);
        line.splice(..comma, other.to_string().into_bytes());
    });
}

fn leading_zero(rng: &mut Rng, lines: &mut Lines) {
    in_line(rng, lines, |_, line| line.insert(0, b'0'));
}

/// Numbers the methods on from the tasks.
fn numbered_on(_: &mut Rng, lines: &mut Lines) {
    for (at, line) in lines.iter_mut().enumerate() {
        line.splice(..first_comma(line), at.to_string().into_bytes());
    }
}

fn no_name(rng: &mut Rng, lines: &mut Lines) {
    in_line(rng, lines, |_, line| {
        line.drain((first_comma(line) + 1).min(line.len() - 1)..line.len() - 1);
    });
}

// ---------------------------------------------------------------- lines of the form

/// The root line, if no other fault has taken it away.
fn root_line(lines: &Lines) -> Option<usize> {
    lines.iter().position(|line| line.starts_with(b"root ")).filter(|&at| 0 < at && at + 1 < lines.len())
}

/// Changes an id, drawn among those of a line, so that the few of short lines come up often.
fn in_an_id(rng: &mut Rng, lines: &mut Lines, change: fn(&mut Rng, &mut Vec<u8>)) {
    if lines.len() < 3 {
        return;
    }
    let at = rng.between(1, lines.len() - 2);
    let mut words: Vec<Vec<u8>> = lines[at].split(|&byte| byte == b' ' || byte == b'\n').map(<[u8]>::to_vec).collect();
    words.pop();
    let ids: Vec<usize> = match &words[0][..] {
        b"root" => vec![1],
        _ => (0..words.len()).filter(|&n| n == 0 || n > 3).collect(),
    };
    let which = *rng.pick(&ids);
    if which < words.len() {
        change(rng, &mut words[which]);
    }
    lines[at] = [words.join(&b' '), b"\n".to_vec()].concat();
}

/// Writings of a number that are not plain.
const NOT_PLAIN: &[&str] = &["", "+1", "-1", "1.0", "0x1", "x", "1x", "00", "1e3", "-", "->", "root", "\u{661}"];

fn not_plain(rng: &mut Rng, id: &mut Vec<u8>) {
    match rng.below(4) {
        0 => id.insert(0, b'+'),
        1 => id.push(name_byte(rng)),
        _ => *id = rng.pick(NOT_PLAIN).as_bytes().to_vec(),
    }
}

/// Numbers over the limit, some of which are small again in 32 or 64 bits.
const TOO_GREAT: &[&str] = &[
    "4294967296",
    "4294967297",
    "4294967299",
    "5000000000",
    "9999999999",
    "42949672950",
    "18446744073709551615",
    "18446744073709551616",
    "18446744073709551617",
    "340282366920938463463374607431768211456",
    "100000000000000000000000000000000000000000000000000",
];

/// A number over the limit, or the id and 2 to the power of 32.
fn too_great(rng: &mut Rng, id: &mut Vec<u8>) {
    let number: u64 = std::str::from_utf8(id).ok().and_then(|it| it.parse().ok()).unwrap_or(0);
    *id = if rng.percent(40) {
        (number + (1 << 32)).to_string().into_bytes()
    } else {
        rng.pick(TOO_GREAT).as_bytes().to_vec()
    };
}

fn another_first(rng: &mut Rng, lines: &mut Lines) {
    let words: [&[u8]; 8] = [b"==> \n", b" ==>\n", b"=>\n", b"===>\n", b"<==\n", b"\n", b"==>x\n", b"==>\n==>\n"];
    lines[0] = rng.pick(&words).to_vec();
}

fn another_last(rng: &mut Rng, lines: &mut Lines) {
    let words: [&[u8]; 8] = [b"<== \n", b" <==\n", b"<=\n", b"<===\n", b"==>\n", b"\n", b"<==x\n", b"<== 0\n"];
    let last = lines.len() - 1;
    lines[last] = rng.pick(&words).to_vec();
}

/// The root line once more, with any id, on any line but the first.
fn second_root(rng: &mut Rng, lines: &mut Lines) {
    let Some(root) = root_line(lines) else {
        return;
    };
    let any = format!("root {}\n", rng.below(10)).into_bytes();
    let line = if rng.percent(50) { any } else { lines[root].clone() };
    lines.insert(rng.between(1, lines.len() - 1), line);
}

fn other_root(rng: &mut Rng, lines: &mut Lines) {
    let Some(at) = root_line(lines) else {
        return;
    };
    let id = lines[at][5..lines[at].len() - 1].to_vec();
    let [root, again, named] = [&b"root"[..], &b"root "[..], &b" root"[..]].map(<[u8]>::to_vec);
    lines[at] = match rng.below(6) {
        0 => [root, b"\n".to_vec()].concat(),
        1 => [again, b"\n".to_vec()].concat(),
        2 => [again, id.clone(), b" ".to_vec(), id, b"\n".to_vec()].concat(),
        3 => [again, id, b" 0\n".to_vec()].concat(),
        4 => [b"Root ".to_vec(), id, b"\n".to_vec()].concat(),
        _ => [id, named, b"\n".to_vec()].concat(),
    };
}

/// Moves an action line behind the root line, or puts one there.
fn action_behind(rng: &mut Rng, lines: &mut Lines) {
    let Some(root) = root_line(lines) else {
        return;
    };
    let line = match root {
        1 => format!("{} load\n", rng.below(10)).into_bytes(),
        _ => lines[rng.between(1, root - 1)].clone(),
    };
    lines.insert(rng.between(root + 1, lines.len() - 1), line);
    if root > 1 && rng.percent(50) {
        lines.remove(rng.between(1, root - 1));
    }
}

fn compound_ahead(rng: &mut Rng, lines: &mut Lines) {
    if let Some(root) = root_line(lines).filter(|root| root + 2 < lines.len()) {
        let line = lines.remove(rng.between(root + 1, lines.len() - 2));
        lines.insert(rng.between(1, root), line);
    }
}

/// A compound line, if there is any.
fn draw_compound_line<'a>(rng: &mut Rng, lines: &'a mut Lines) -> Option<&'a mut Vec<u8>> {
    let root = root_line(lines).filter(|root| root + 2 < lines.len())?;
    let at = rng.between(root + 1, lines.len() - 2);
    Some(&mut lines[at])
}

fn other_arrow(rng: &mut Rng, lines: &mut Lines) {
    let arrow = *rng.pick(&["", " ", "- > ", "> ", "- ", "=> ", "->x ", "->-> ", "-> -> ", "→ "]);
    if let Some(line) = draw_compound_line(rng, lines) {
        let words: Vec<Vec<u8>> = line.splitn(4, |&byte| byte == b' ').map(<[u8]>::to_vec).collect();
        if let [id, task, _, behind] = &words[..] {
            *line = [id, &b" "[..], task, b" ", arrow.as_bytes(), behind].concat();
        }
    }
}

/// Leaves a compound line with up to three words, or a line without one of its words.
fn word_gone(rng: &mut Rng, lines: &mut Lines) {
    let at = rng.below(lines.len());
    let mut words: Vec<Vec<u8>> = lines[at].split(|&byte| byte == b' ' || byte == b'\n').map(<[u8]>::to_vec).collect();
    words.pop();
    if rng.percent(50) {
        words.truncate(rng.between(1, 3));
    } else {
        words.remove(rng.below(words.len().min(4)));
    }
    lines[at] = [words.join(&b' '), b"\n".to_vec()].concat();
}

// ---------------------------------------------------------------- names

fn list_again(rng: &mut Rng, names: &mut [Name]) {
    if names.len() > 1 {
        let later = rng.between(1, names.len() - 1);
        let before = later - 1;
        let any = rng.below(later);
        names[later] = names[*rng.pick(&[0, before, any])].clone();
    }
}

fn rename_action(rng: &mut Rng, sheet: &mut Sheet, name: Name) {
    if !sheet.actions.is_empty() {
        let at = rng.below(sheet.actions.len());
        sheet.actions[at].1 = name;
    }
}

fn any_compound(rng: &mut Rng, sheet: &mut Sheet, change: impl FnOnce(&mut Rng, &mut Compound)) {
    if !sheet.compounds.is_empty() {
        let at = rng.below(sheet.compounds.len());
        change(rng, &mut sheet.compounds[at]);
    }
}

fn action_for_compound(rng: &mut Rng, sheet: &mut Sheet) {
    if sheet.model.actions > 0 {
        let name = sheet.tasks[rng.below(sheet.model.actions)].clone();
        any_compound(rng, sheet, |_, line| line.task = name);
    }
}

/// One of the first names that isn't among the second.
fn only_among(rng: &mut Rng, names: &[Name], others: &[Name]) -> Option<Name> {
    let only: Vec<&Name> = names.iter().filter(|name| !others.contains(name)).collect();
    (!only.is_empty()).then(|| (*rng.pick(&only)).clone())
}

fn task_for_method(rng: &mut Rng, sheet: &mut Sheet) {
    if let Some(name) = only_among(rng, &sheet.tasks, &sheet.methods) {
        any_compound(rng, sheet, |_, line| line.method = name);
    }
}

fn method_for_task(rng: &mut Rng, sheet: &mut Sheet) {
    if let Some(name) = only_among(rng, &sheet.methods, &sheet.tasks) {
        any_compound(rng, sheet, |_, line| line.task = name);
    }
}

/// Another task's method, with as many ids as it has subtasks.
fn other_tasks_method(rng: &mut Rng, sheet: &mut Sheet) {
    let (tasks, methods, model) = (sheet.tasks.clone(), sheet.methods.clone(), sheet.model.clone());
    let root = sheet.root;
    any_compound(rng, sheet, |rng, line| {
        let others: Vec<usize> =
            (0..methods.len()).filter(|&method| tasks[model.methods[method].0] != line.task).collect();
        if !others.is_empty() {
            let method = *rng.pick(&others);
            line.method = methods[method].clone();
            line.subtasks.resize(model.methods[method].1, root);
        }
    });
}

/// Another compound task.
fn other_task(rng: &mut Rng, sheet: &mut Sheet) {
    let compound = sheet.tasks[sheet.model.actions..].to_vec();
    any_compound(rng, sheet, |rng, line| {
        let others: Vec<&Name> = compound.iter().filter(|&task| task != &line.task).collect();
        if !others.is_empty() {
            line.task = (*rng.pick(&others)).clone();
        }
    });
}

fn too_few(rng: &mut Rng, subtasks: &mut Vec<u32>) {
    if rng.percent(20) {
        subtasks.clear();
    } else if !subtasks.is_empty() {
        subtasks.remove(rng.below(subtasks.len()));
    }
}

/// One more id or many: a subtask's own, the line's, the root's, or a new one.
fn too_many(rng: &mut Rng, sheet: &mut Sheet) {
    let (root, new) = (sheet.root, fresh(sheet));
    any_compound(rng, sheet, |rng, line| {
        let own = line.subtasks.last().copied().unwrap_or(new);
        for _ in 0..*rng.pick(&[1, 1, 1, 2, 33, 300]) {
            let id = *rng.pick(&[own, line.id, root, new]);
            line.subtasks.push(id);
        }
    });
}

// ---------------------------------------------------------------- ids

/// Puts an action line anywhere among the others.
fn put_action(rng: &mut Rng, sheet: &mut Sheet, id: u32, name: Name) {
    sheet.actions.insert(rng.below(sheet.actions.len() + 1), (id, name));
}

fn put_compound(rng: &mut Rng, sheet: &mut Sheet, line: Compound) {
    sheet.compounds.insert(rng.below(sheet.compounds.len() + 1), line);
}

/// Any compound line, if there is one.
fn draw_compound(rng: &mut Rng, sheet: &Sheet) -> Option<Compound> {
    (!sheet.compounds.is_empty()).then(|| rng.pick(&sheet.compounds).clone())
}

/// The name of any action, if the model has one.
fn draw_action(rng: &mut Rng, sheet: &Sheet) -> Option<Name> {
    (sheet.model.actions > 0).then(|| sheet.tasks[rng.below(sheet.model.actions)].clone())
}

/// A method with this property, and its names.
fn draw_method(rng: &mut Rng, sheet: &Sheet, has: impl Fn(usize) -> bool) -> Option<(Name, Name, usize)> {
    let methods = &sheet.model.methods;
    let with: Vec<usize> = (0..methods.len()).filter(|&method| has(methods[method].1)).collect();
    let method = if with.is_empty() { return None } else { *rng.pick(&with) };
    let (task, subtasks) = methods[method];
    Some((sheet.tasks[task].clone(), sheet.methods[method].clone(), subtasks))
}

/// Another action line with the same id, and often another name.
fn action_again(rng: &mut Rng, sheet: &mut Sheet) {
    if !sheet.actions.is_empty() {
        let (id, name) = rng.pick(&sheet.actions).clone();
        let other = draw_action(rng, sheet).filter(|_| rng.percent(50));
        put_action(rng, sheet, id, other.unwrap_or(name));
    }
}

/// Another line of the same id without subtasks, if the model has an empty method; else the line once more, with its subtasks.
fn compound_again(rng: &mut Rng, sheet: &mut Sheet) {
    let Some(mut line) = draw_compound(rng, sheet) else {
        return;
    };
    if let Some((task, method, _)) = draw_method(rng, sheet, |subtasks| subtasks == 0).filter(|_| rng.percent(70)) {
        line = Compound { id: line.id, task, method, subtasks: vec![] };
    }
    put_compound(rng, sheet, line);
}

fn action_with_compound_id(rng: &mut Rng, sheet: &mut Sheet) {
    if let (Some(name), Some(line)) = (draw_action(rng, sheet), draw_compound(rng, sheet)) {
        put_action(rng, sheet, line.id, name);
    }
}

/// A second line of an id, whose subtasks are new action lines: they are reached by it alone.
fn second_with_subtasks(rng: &mut Rng, sheet: &mut Sheet) {
    let (Some(name), Some((task, method, count))) =
        (draw_action(rng, sheet), draw_method(rng, sheet, |subtasks| subtasks > 0))
    else {
        return;
    };
    let actions = sheet.actions.iter().map(|(id, _)| *id);
    let ids: Vec<u32> = actions.chain(sheet.compounds.iter().map(|line| line.id)).chain([sheet.root]).collect();
    let mut subtasks = Vec::new();
    for _ in 0..count {
        subtasks.push(fresh(sheet));
        put_action(rng, sheet, subtasks[subtasks.len() - 1], name.clone());
    }
    let id = *rng.pick(&ids);
    put_compound(rng, sheet, Compound { id, task, method, subtasks });
}

/// Gives a line the id of another one; its own is never defined then, or also becomes the other one where it is used.
fn one_id(rng: &mut Rng, sheet: &mut Sheet) {
    let mut ids: Vec<&mut u32> = sheet.actions.iter_mut().map(|(id, _)| id).collect();
    ids.extend(sheet.compounds.iter_mut().map(|line| &mut line.id));
    if ids.is_empty() {
        return;
    }
    let (one, other) = (rng.below(ids.len()), rng.below(ids.len()));
    let (old, new) = (*ids[one], *ids[other]);
    *ids[one] = new;
    if rng.percent(50) {
        sheet
            .compounds
            .iter_mut()
            .flat_map(|line| &mut line.subtasks)
            .filter(|id| **id == old)
            .for_each(|id| *id = new);
    }
}

/// What comes in the place of a leaf.
#[derive(PartialEq)]
enum Place {
    SameLine,
    OtherLine,
    Root,
}

/// The ids of action lines, and of compound lines without subtasks.
fn leaves(sheet: &Sheet) -> Vec<u32> {
    let empty = sheet.compounds.iter().filter(|line| line.subtasks.is_empty()).map(|line| line.id);
    sheet.actions.iter().map(|(id, _)| *id).chain(empty).filter(|&id| id != sheet.root).collect()
}

fn remove_line(sheet: &mut Sheet, id: u32) {
    sheet.actions.retain(|(other, _)| *other != id);
    sheet.compounds.retain(|line| line.id != id);
}

/// Takes a leaf's line away, and puts another subtask or the root in its place: nothing else is wrong then.
fn in_a_leafs_place(rng: &mut Rng, sheet: &mut Sheet, place: Place) {
    let leaves = leaves(sheet);
    let below: Vec<(usize, usize)> = sheet
        .compounds
        .iter()
        .enumerate()
        .flat_map(|(at, line)| (0..line.subtasks.len()).map(move |j| (at, j)))
        .filter(|&(at, j)| leaves.contains(&sheet.compounds[at].subtasks[j]))
        .collect();
    if below.is_empty() {
        return;
    }
    let (at, j) = *rng.pick(&below);
    let leaf = sheet.compounds[at].subtasks[j];
    let lines = sheet.compounds.iter().enumerate();
    let others: Vec<u32> = match place {
        Place::Root => vec![sheet.root],
        _ => lines
            .filter(|(line, _)| (*line == at) == (place == Place::SameLine))
            .flat_map(|(_, line)| line.subtasks.iter().copied())
            .filter(|&id| id != leaf)
            .collect(),
    };
    if !others.is_empty() {
        sheet.compounds[at].subtasks[j] = *rng.pick(&others);
        remove_line(sheet, leaf);
    }
}

/// The subtasks of all lines.
fn all_subtasks(sheet: &mut Sheet) -> Vec<&mut u32> {
    sheet.compounds.iter_mut().flat_map(|line| &mut line.subtasks).collect()
}

/// Another subtask, or any line's id, in the place of a subtask.
fn subtask_for_another(rng: &mut Rng, sheet: &mut Sheet) {
    let any = draw_compound(rng, sheet).map_or(0, |line| line.id);
    let mut subtasks = all_subtasks(sheet);
    if !subtasks.is_empty() {
        let (one, other) = (rng.below(subtasks.len()), rng.below(subtasks.len()));
        let id = *subtasks[other];
        *subtasks[one] = *rng.pick(&[id, id, any]);
    }
}

fn action_apart(rng: &mut Rng, sheet: &mut Sheet) {
    if let Some(name) = draw_action(rng, sheet) {
        put_action(rng, sheet, fresh(sheet), name);
    }
}

/// A new line: with the subtasks of another one, or without any.
fn compound_apart(rng: &mut Rng, sheet: &mut Sheet) {
    let Some(mut line) = draw_compound(rng, sheet) else {
        return;
    };
    line.id = fresh(sheet);
    if let Some((task, method, _)) = draw_method(rng, sheet, |subtasks| subtasks == 0).filter(|_| rng.percent(60)) {
        line = Compound { id: line.id, task, method, subtasks: vec![] };
    }
    put_compound(rng, sheet, line);
}

/// New lines, each of them a subtask of the one before and the first of the last; their other subtasks are new action lines.
fn ring_apart(rng: &mut Rng, sheet: &mut Sheet) {
    let (name, count) = (draw_action(rng, sheet), rng.between(1, 3));
    let mut ring: Vec<Compound> = Vec::new();
    let first = fresh(sheet);
    for n in 0..count {
        let fits = |subtasks: usize| subtasks == 1 || subtasks > 1 && name.is_some();
        let Some((task, method, subtasks)) = draw_method(rng, sheet, fits) else {
            return;
        };
        let id = if n == 0 { first } else { ring[n - 1].subtasks[0] };
        // Put in at once, so that the ids to come are others.
        put_compound(rng, sheet, Compound { id, task: task.clone(), method: method.clone(), subtasks: vec![] });
        let next = if n + 1 == count { first } else { fresh(sheet) };
        ring.push(Compound { id, task, method, subtasks: vec![next] });
        for _ in 1..subtasks {
            let leaf = (next.wrapping_add(1)..).find(|id| sheet.ids().all(|other| other != *id)).expect("an id");
            put_action(rng, sheet, leaf, name.clone().expect("an action"));
            ring[n].subtasks.push(leaf);
        }
    }
    for line in ring {
        let own = sheet.compounds.iter_mut().find(|own| own.id == line.id).expect("its line");
        *own = line;
    }
}

fn leaf_gone(rng: &mut Rng, sheet: &mut Sheet) {
    let leaves = leaves(sheet);
    if !leaves.is_empty() {
        remove_line(sheet, *rng.pick(&leaves));
    }
}

fn subtask_undefined(rng: &mut Rng, sheet: &mut Sheet) {
    let id = fresh(sheet);
    let mut subtasks = all_subtasks(sheet);
    if !subtasks.is_empty() {
        let at = rng.below(subtasks.len());
        *subtasks[at] = id;
    }
}

fn other_root_id(rng: &mut Rng, sheet: &mut Sheet) {
    let ids: Vec<u32> = sheet.ids().filter(|&id| id != sheet.root).collect();
    if !ids.is_empty() {
        sheet.root = *rng.pick(&ids);
    }
}

// ---------------------------------------------------------------- trees

fn swap_subtasks(rng: &mut Rng, sheet: &mut Sheet) {
    any_compound(rng, sheet, |rng, line| {
        if line.subtasks.len() > 1 {
            let (one, other) = (rng.below(line.subtasks.len()), rng.below(line.subtasks.len()));
            line.subtasks.swap(one, other);
        }
    });
}

/// Swaps two subtasks without subtasks of their own, which leaves a tree.
fn swap_across(rng: &mut Rng, sheet: &mut Sheet) {
    let leaves = leaves(sheet);
    if leaves.is_empty() {
        return;
    }
    let (one, other) = (*rng.pick(&leaves), *rng.pick(&leaves));
    for id in all_subtasks(sheet) {
        *id = match *id {
            id if id == one => other,
            id if id == other => one,
            id => id,
        };
    }
}

/// Nothing but one action line, whose id is the root's.
fn action_as_root(rng: &mut Rng, sheet: &mut Sheet) {
    if let Some(name) = draw_action(rng, sheet) {
        sheet.actions = vec![(sheet.root, name)];
        sheet.compounds.clear();
    }
}

/// Swaps the places of two action lines in the plan.
fn swap_actions(rng: &mut Rng, sheet: &mut Sheet) {
    if !sheet.actions.is_empty() {
        let (one, other) = (rng.below(sheet.actions.len()), rng.below(sheet.actions.len()));
        sheet.actions.swap(one, other);
    }
}
