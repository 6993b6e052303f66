//! A name list, read plainly, and the lines that it has in common with the plan form. The verdict is not made here.

use crate::case::{plain, Header, Unread};
use std::collections::HashMap;
use std::ops::Range;

/// The names by number: those of the tasks, actions first, and those of the methods.
#[derive(Debug)]
pub struct Names {
    pub tasks: Vec<String>,
    pub methods: Vec<String>,
}

/// Reads a name list: a line for each task, then one for each method, from 0 again. A fault is the first there is.
pub fn read(text: &[u8], header: &Header) -> Result<Names, Unread> {
    let mut lines = Lines::new(text, NAME_LIST);
    let tasks = read_part(&mut lines, "task", header.tasks)?;
    let methods = read_part(&mut lines, "method", header.methods)?;
    lines.end("the end of the text: the case has no more tasks and methods")?;
    Ok(Names { tasks, methods })
}

/// The names of all tasks, or of all methods: none stands twice.
fn read_part(lines: &mut Lines, kind: &str, count: u32) -> Result<Vec<String>, Unread> {
    let mut names = Vec::new();
    let mut numbers = HashMap::new();
    for number in 0..count {
        let mut line = lines.next(&due_line(kind, number))?;
        let place = read_line(&mut line, kind, number)?;
        let name = &line.bytes[place.clone()];
        if let Some(earlier) = numbers.insert(name, number) {
            let at = line.number - number + earlier;
            let wrong = format!("the name {} stands for {kind} {earlier} already, on line {at}", quoted(name));
            return Err(line.fault(18, place, wrong, format!("a name that no other {kind} has")));
        }
        names.push(String::from_utf8_lossy(name).into_owned());
    }
    Ok(names)
}

/// The line for a number: where its name stands.
fn read_line(line: &mut Line, kind: &str, number: u32) -> Result<Range<usize>, Unread> {
    let due = due_line(kind, number);
    let (value, place) = line.plain(&due)?;
    if value != number {
        return Err(line.fault(17, place, "another number than is due here", due));
    }
    let place = line.name(&due)?;
    line.end("the end of the line, after the name")?;
    Ok(place)
}

fn due_line(kind: &str, number: u32) -> String {
    format!("a line for {kind} {number}: `{number},` and a name")
}

// ---------------------------------------------------------------- lines and pieces of both texts

/// What the two texts differ in: what parts a line, what its pieces are called, and the item of a refusal.
#[derive(Clone, Copy)]
pub(crate) struct Style {
    separator: u8,
    piece: &'static str,
    empty: &'static str,
    item: u32,
}

const NAME_LIST: Style = Style { separator: b',', piece: "field", empty: "an empty field", item: 1 };

pub(crate) const PLAN_FORM: Style =
    Style { separator: b' ', piece: "word", empty: "an empty word: two spaces, or one at an end of the line", item: 0 };

pub(crate) struct Lines<'a> {
    rest: &'a [u8],
    /// How many were entered.
    number: u32,
    style: Style,
}

impl<'a> Lines<'a> {
    pub(crate) fn new(text: &'a [u8], style: Style) -> Lines<'a> {
        Lines { rest: text, number: 0, style }
    }

    /// Enters the next line, which is due.
    pub(crate) fn next(&mut self, due: &str) -> Result<Line<'a>, Unread> {
        self.number += 1;
        let len = self.rest.iter().position(|&byte| byte == b'\n');
        let (bytes, rest) = self.rest.split_at(len.unwrap_or(self.rest.len()));
        let line = Line { bytes, at: 0, number: self.number, style: self.style };
        if len.is_none() {
            let wrong = if bytes.is_empty() { "the text is over" } else { "the line has no line feed" };
            return Err(line.fault(17, line.over(), wrong, due));
        }
        self.rest = &rest[1..];
        Ok(line)
    }

    /// Nothing may follow the last line that is due.
    pub(crate) fn end(&self, due: &str) -> Result<(), Unread> {
        if self.rest.is_empty() {
            return Ok(());
        }
        let len = self.rest.iter().position(|&byte| byte == b'\n').unwrap_or(self.rest.len());
        let line = Line { bytes: &self.rest[..len], at: 0, number: self.number + 1, style: self.style };
        Err(line.fault(17, 0..len, "a surplus line", due))
    }
}

/// A line, read piece by piece.
pub(crate) struct Line<'a> {
    pub(crate) bytes: &'a [u8],
    /// Where the next piece starts; past the line once the last one is read.
    at: usize,
    pub(crate) number: u32,
    style: Style,
}

impl Line<'_> {
    pub(crate) fn fault(&self, number: u32, mark: Range<usize>, wrong: impl Into<String>, due: impl Into<String>) -> Unread {
        let mark = mark.start..mark.end.max(mark.start + 1);
        let (wrong, due) = (wrong.into(), due.into());
        Unread { number, line: self.number, item: self.style.item, wrong, due, text: self.bytes.to_vec(), mark }
    }

    /// The place of the line's end.
    fn over(&self) -> Range<usize> {
        self.bytes.len()..self.bytes.len() + 1
    }

    /// The place of a piece, from 0; of the line's end, if there is none.
    pub(crate) fn place(&self, piece: usize) -> Range<usize> {
        let mut start = 0;
        let mut pieces = self.bytes.split(|&byte| byte == self.style.separator);
        pieces.by_ref().take(piece).for_each(|piece| start += piece.len() + 1);
        pieces.next().map_or(self.over(), |piece| start..start + piece.len())
    }

    /// The next piece's place, none if the line is over.
    fn piece(&mut self) -> Option<Range<usize>> {
        let rest = self.bytes.get(self.at..)?;
        let len = rest.iter().position(|&byte| byte == self.style.separator).unwrap_or(rest.len());
        let place = self.at..self.at + len;
        self.at = place.end + 1;
        Some(place)
    }

    /// The next piece's place, where one is due that is not empty.
    fn due_piece(&mut self, due: &str) -> Result<Range<usize>, Unread> {
        match self.piece() {
            None => Err(self.fault(17, self.over(), format!("a {} is missing", self.style.piece), due)),
            Some(_) if self.bytes.is_empty() => Err(self.fault(17, self.over(), "an empty line", due)),
            Some(place) if place.is_empty() => Err(self.fault(17, place, self.style.empty, due)),
            Some(place) => Ok(place),
        }
    }

    pub(crate) fn is_over(&self) -> bool {
        self.at > self.bytes.len()
    }

    /// Whether the next piece is this word.
    pub(crate) fn is_next(&self, word: &[u8]) -> bool {
        let rest = self.bytes.get(self.at..).and_then(|rest| rest.strip_prefix(word));
        rest.is_some_and(|rest| rest.first().is_none_or(|&byte| byte == self.style.separator))
    }

    /// A piece that is just this word.
    pub(crate) fn word(&mut self, word: &[u8], due: &str) -> Result<(), Unread> {
        let place = self.due_piece(due)?;
        if self.bytes[place.clone()] == *word {
            return Ok(());
        }
        Err(self.fault(17, place, "another word than is due here", due))
    }

    /// A plain number and its place.
    pub(crate) fn plain(&mut self, due: &str) -> Result<(u32, Range<usize>), Unread> {
        let place = self.due_piece(due)?;
        match plain(&self.bytes[place.clone()]) {
            Ok(value) => Ok((value, place)),
            Err(wrong) => Err(self.fault(17, place, wrong, due)),
        }
    }

    /// The place of a name.
    pub(crate) fn name(&mut self, due: &str) -> Result<Range<usize>, Unread> {
        let place = self.due_piece(due)?;
        let odd = self.bytes[place.clone()].iter().copied().find(|&byte| !(33..=126).contains(&byte) || byte == b',');
        match odd {
            None => Ok(place),
            Some(byte) => Err(self.fault(17, place, format!("a name with {}", shown(byte)), format!("{due}; {NAME}"))),
        }
    }

    pub(crate) fn end(&mut self, due: &str) -> Result<(), Unread> {
        match self.piece() {
            None => Ok(()),
            Some(place) => Err(self.fault(17, place, format!("a surplus {}", self.style.piece), due)),
        }
    }
}

const NAME: &str = "a name has bytes 33 to 126, but no comma";

/// A byte that no name has.
fn shown(byte: u8) -> String {
    match byte {
        b',' => "a comma".into(),
        b' ' => "a space".into(),
        b'\t' => "a tab".into(),
        b'\r' => "a carriage return".into(),
        _ => format!("the byte {byte}"),
    }
}

/// A name in words; a long one is cut, since names have no limit of length.
pub(crate) fn quoted(name: &[u8]) -> String {
    let start = &name[..name.len().min(60)];
    let cut = if start.len() < name.len() { ".." } else { "" };
    format!("`{}`{cut}", String::from_utf8_lossy(start))
}
