//! One pass over the text: numbers 3 and 4.

use super::case::{Case, Constraint, Lines, Method};
use super::{refuse, Accepted, Checked, Node, Refusal, Set, CUES, NODES, PROPOSITIONS, WORDS};
use std::ops::RangeBounds;

/// Where reading ended, as the number of bytes left, and why: 3 if what is due isn't here, 4 if the last field is outside
/// its range.
struct Fault {
    left: u32,
    number: u32,
}

type Read<T> = Result<T, Fault>;

/// The refusal for a fault; line and field are counted only here.
#[cold]
fn refusal(text: &[u8], fault: Fault) -> Refusal {
    let (before, left) = text.split_at(text.len() - fault.left as usize);
    let line = before.iter().filter(|&&byte| byte == b'\n').count() + 1;
    let commas = before.iter().rev().take_while(|&&byte| byte != b'\n').filter(|&&byte| byte == b',').count();
    let line_start = matches!(before.last(), None | Some(b'\n'));
    let ended = matches!(left.first(), Some(b',' | b'\n'));
    let (number, item) = match fault.number {
        _ if line_start => (3, usize::from(!left.is_empty())),
        3 => (3, commas + 1 + usize::from(ended)),
        // A field that ends in any other byte is spoilt, whatever its value.
        _ => (3 + u32::from(ended), commas + 1),
    };
    Refusal { number, line: line as u32, item: item as u32 }
}

/// What is left of the text: it begins with a line, or with what ends a field. The text's part behind the last line
/// feed is cut off, so every scan inside a line ends.
struct Reader<'a>(&'a [u8]);

impl Reader<'_> {
    fn fault<T>(&self, number: u32) -> Read<T> {
        Err(Fault { left: self.0.len() as u32, number })
    }

    /// Enters a line: reads its letter.
    fn letter(&mut self) -> Read<u8> {
        let [letter, rest @ ..] = self.0 else {
            return self.fault(3);
        };
        self.0 = rest;
        Ok(*letter)
    }

    /// The letter just read is another than the one due.
    fn wrong_letter<T>(&self) -> Read<T> {
        Err(Fault { left: self.0.len() as u32 + 1, number: 3 })
    }

    /// Enters a line that has this letter.
    fn line(&mut self, due: u8) -> Read<()> {
        if self.letter()? != due {
            return self.wrong_letter();
        }
        Ok(())
    }

    /// Leaves the line.
    fn end_line(&mut self) -> Read<()> {
        let [b'\n', rest @ ..] = self.0 else {
            return self.fault(3);
        };
        self.0 = rest;
        Ok(())
    }

    /// Reads a comma and a plain number. What ends the number is looked at by whoever reads on. Up to three digits are
    /// told apart by branches: the next field's place is then known before the value is.
    #[inline(always)]
    fn number(&mut self) -> Read<u32> {
        let Some(window) = self.0.first_chunk::<5>() else {
            return self.long_number();
        };
        let digit = |at: usize| u32::from(window[at].wrapping_sub(b'0'));
        let (first, second, third) = (digit(1), digit(2), digit(3));
        if window[0] != b',' || first > 9 {
            return self.fault(3);
        }
        if second > 9 {
            self.0 = &self.0[2..];
            return Ok(first);
        }
        if first == 0 {
            return self.fault(3);
        }
        if third > 9 {
            self.0 = &self.0[3..];
            return Ok(10 * first + second);
        }
        if digit(4) > 9 {
            self.0 = &self.0[4..];
            return Ok(100 * first + 10 * second + third);
        }
        self.long_number()
    }

    /// The same for a number of any length.
    #[inline(always)]
    fn long_number(&mut self) -> Read<u32> {
        match long_number(self.0) {
            Some((value, length)) => {
                self.0 = &self.0[length..];
                Ok(value)
            }
            None => self.fault(3),
        }
    }

    /// Reads a number and tests its range.
    #[inline(always)]
    fn number_in(&mut self, range: impl RangeBounds<u32>) -> Read<u32> {
        let value = self.number()?;
        if !range.contains(&value) {
            return self.fault(4);
        }
        Ok(value)
    }

    /// Reads a set of propositions into an empty one: its count, then strictly ascending members.
    #[inline(always)]
    fn set(&mut self, propositions: u32, set: &mut Set) -> Read<()> {
        let count = self.number_in(..=propositions)?;
        let mut least = 0;
        for _ in 0..count {
            let member = self.number_in(least..propositions)?;
            set[member as usize / 64 % WORDS] |= 1 << (member % 64);
            least = member + 1;
        }
        Ok(())
    }

    /// Reads a set of subtasks: a mask without bits at or above the subtask count.
    #[inline(always)]
    fn mask(&mut self, subtasks: u32) -> Read<u32> {
        let mask = self.number()?;
        if u64::from(mask) >> subtasks != 0 {
            return self.fault(4);
        }
        Ok(mask)
    }
}

/// The value and length of a comma and a plain number, digit by digit.
#[inline(never)]
fn long_number(text: &[u8]) -> Option<(u32, usize)> {
    let digits = text.strip_prefix(b",")?;
    let count = digits.iter().take_while(|byte| byte.is_ascii_digit()).count();
    let leading_zero = count > 1 && digits[0] == b'0';
    if !(1..=10).contains(&count) || leading_zero {
        return None;
    }
    let value = digits[..count].iter().fold(0, |value, digit| 10 * value + u64::from(digit - b'0'));
    Some((u32::try_from(value).ok()?, 1 + count))
}

/// The header's numbers.
struct Header {
    propositions: u32,
    actions: u32,
    tasks: u32,
    methods: u32,
    goal: u32,
    cues: u32,
    nodes: u32,
}

/// Reads the whole text, surplus line included: numbers 3 and 4. Node lines become records, if there are any lent.
pub fn read(text: &[u8], case: &mut Case, nodes: &mut [Node]) -> Checked<Accepted> {
    let whole = text.iter().rposition(|&byte| byte == b'\n').map_or(0, |last| last + 1);
    let (header, rest) = read_lines(&text[..whole], case, nodes).map_err(|fault| refusal(&text[..whole], fault))?;
    if !rest.is_empty() || whole < text.len() {
        return refuse(3, case.node_line(header.nodes as usize), 1);
    }
    Ok(Accepted { cues: header.cues, nodes: header.nodes })
}

/// Each part takes a reader and gives it back: inside, it is kept in registers.
fn read_lines<'a>(text: &'a [u8], case: &mut Case, nodes: &mut [Node]) -> Read<(Header, &'a [u8])> {
    let (header, reader) = read_header(Reader(text))?;
    case.tasks = header.tasks as u16;
    case.goal = header.goal as u16;
    let reader = read_actions(reader, &header, case)?;
    let reader = read_methods(reader, &header, case)?;
    let reader = read_plan(reader, &header, case)?;
    let reader = read_nodes(reader, &header, nodes)?;
    Ok((header, reader.0))
}

#[inline(never)]
fn read_header(mut reader: Reader) -> Read<(Header, Reader)> {
    reader.line(b'N')?;
    let propositions = reader.number_in(..=PROPOSITIONS as u32)?;
    let actions = reader.number_in(..=1_024)?;
    let tasks = actions + reader.number_in(..=1_024)?;
    let methods = reader.number_in(..=2_048)?;
    let goal = reader.number_in(actions..tasks)?;
    let cues = reader.number_in(..=CUES as u32)?;
    let nodes = reader.number_in(1..=NODES as u32)?;
    reader.end_line()?;
    Ok((Header { propositions, actions, tasks, methods, goal, cues, nodes }, reader))
}

/// Reads the I line and the A lines.
#[inline(never)]
fn read_actions<'a>(mut reader: Reader<'a>, header: &Header, case: &mut Case) -> Read<Reader<'a>> {
    reader.line(b'I')?;
    reader.set(header.propositions, &mut case.initial)?;
    reader.end_line()?;
    for _ in 0..header.actions {
        reader.line(b'A')?;
        for set in case.actions.push([[0; WORDS]; 4]) {
            reader.set(header.propositions, set)?;
        }
        reader.end_line()?;
    }
    Ok(reader)
}

/// Reads the M lines, each with its constraints.
#[inline(never)]
fn read_methods<'a>(mut reader: Reader<'a>, header: &Header, case: &mut Case) -> Read<Reader<'a>> {
    for _ in 0..header.methods {
        reader.line(b'M')?;
        let task = reader.number_in(header.actions..header.tasks)? as u16;
        let subtasks = reader.number_in(..=32)?;
        let first_subtask = case.subtasks.len() as u16;
        case.subtasks.extend(subtasks, || Ok(reader.number_in(..header.tasks)? as u16))?;
        let constraints = reader.number_in(..=64)?;
        reader.end_line()?;
        let head = reader.0.len() as u16;
        let first_constraint = case.constraints.len() as u16;
        case.constraints.extend(constraints, || read_constraint(&mut reader, header.propositions, subtasks))?;
        case.methods.push(Method {
            task,
            subtasks: first_subtask..case.subtasks.len() as u16,
            constraints: first_constraint..case.constraints.len() as u16,
            lines: Lines { head, end: reader.0.len() as u16 },
        });
    }
    Ok(reader)
}

#[inline(always)]
fn read_constraint(reader: &mut Reader, propositions: u32, subtasks: u32) -> Read<Constraint> {
    let left = reader.0.len() as u16;
    let letter = reader.letter()?;
    let (capital, proposition, from, to) = match letter {
        b'O' => {
            let (first, second) = (reader.number_in(..subtasks)?, reader.number_in(..subtasks)?);
            if second == first {
                return reader.fault(4);
            }
            (0, 0, first, second)
        }
        b'B' | b'b' => (2, reader.number_in(..propositions)?, 0, reader.mask(subtasks)?),
        b'F' | b'f' => (4, reader.number_in(..propositions)?, reader.mask(subtasks)?, 0),
        b'W' | b'w' => {
            let from = reader.mask(subtasks)?;
            (6, reader.number_in(..propositions)?, from, reader.mask(subtasks)?)
        }
        _ => return reader.wrong_letter(),
    };
    reader.end_line()?;
    let letter = capital + u16::from(letter.is_ascii_lowercase());
    Ok(Constraint::new(letter, proposition, left, from, to))
}

#[inline(never)]
fn read_plan<'a>(mut reader: Reader<'a>, header: &Header, case: &mut Case) -> Read<Reader<'a>> {
    case.plan_left = reader.0.len() as u16;
    reader.line(b'P')?;
    case.plan.extend(header.cues, || Ok(reader.number_in(..header.actions)? as u16))?;
    reader.end_line()?;
    Ok(reader)
}

#[inline(never)]
fn read_nodes<'a>(mut reader: Reader<'a>, header: &Header, nodes: &mut [Node]) -> Read<Reader<'a>> {
    for at in 0..header.nodes {
        let node = read_node(&mut reader, header)?;
        if let Some(record) = nodes.get_mut(at as usize) {
            *record = node;
        }
    }
    Ok(reader)
}

/// Reads a node line into a record, with its span if it has no subtasks.
#[inline(always)]
fn read_node(reader: &mut Reader, header: &Header) -> Read<Node> {
    let (letter, label, place, index) = match reader.letter()? {
        b'D' => (1, reader.number_in(..header.methods)?, 0, 0),
        b'E' => {
            let label = reader.number_in(..header.methods)?;
            let gap = reader.number_in(..=header.cues)?;
            (2, label, gap, 2 * gap + 1)
        }
        b'L' => {
            let label = reader.number_in(..header.actions)?;
            let position = reader.number_in(1..=header.cues)?;
            (3, label, position, 2 * position)
        }
        _ => return reader.wrong_letter(),
    };
    reader.end_line()?;
    Ok(Node { letter, label, place, start: index, end: index })
}
