//! Words of the name list and of the form, and the name list itself: numbers 17 and 18 of it.

use super::case::Case;
use super::slots::{mixed, Slots};
use super::{refuse, Checked};

/// What is left of the name list or of the form. What isn't as due is none, and the line is refused.
pub struct Words<'a>(pub &'a [u8]);

impl<'a> Words<'a> {
    /// Passes over these bytes.
    #[inline(always)]
    pub fn pass(&mut self, due: &[u8]) -> Option<()> {
        self.0 = self.0.strip_prefix(due)?;
        Some(())
    }

    /// Reads a plain number. What ends it is looked at by whoever reads on.
    #[inline(always)]
    pub fn id(&mut self) -> Option<u32> {
        let [first @ b'0'..=b'9', rest @ ..] = self.0 else {
            return None;
        };
        let mut value = u64::from(first - b'0');
        self.0 = rest;
        // A number that begins with 0 ends there.
        while let ([digit @ b'0'..=b'9', rest @ ..], 1..) = (self.0, value) {
            value = 10 * value + u64::from(digit - b'0');
            if value > u64::from(u32::MAX) {
                return None;
            }
            self.0 = rest;
        }
        Some(value as u32)
    }

    /// Reads a name, eight bytes at a time. What ends it is looked at by whoever reads on.
    #[inline(always)]
    pub fn name(&mut self) -> Option<Name<'a>> {
        let text = self.0;
        let (head, mut count) = name_bytes(text);
        let (mut hash, mut length) = (mixed(0, head), count);
        while count == 8 {
            let word;
            (word, count) = name_bytes(&text[length..]);
            hash = mixed(hash, word);
            length += count;
        }
        let (bytes, rest) = text.split_at(length);
        self.0 = rest;
        (length > 0).then_some(Name { bytes, head, hash })
    }
}

/// The bytes that a name may have from here on, up to eight, as one number, and how many they are.
#[inline(always)]
fn name_bytes(text: &[u8]) -> (u64, usize) {
    const EACH: u64 = 0x0101_0101_0101_0101;
    let word = u64::from_le_bytes(text.first_chunk().copied().unwrap_or_else(|| last_bytes(text)));
    let (over_126, comma) = (word | word.wrapping_add(EACH), word ^ (EACH * b',' as u64));
    let under_33 = word.wrapping_sub(EACH * 33) & !word;
    // The highest bit of each byte that ends a name; above the lowest such byte it may be set by a carry.
    let ends = (over_126 | under_33 | comma.wrapping_sub(EACH) & !comma) & (EACH << 7);
    let count = ends.trailing_zeros() as usize / 8;
    (if ends == 0 { word } else { word & ((1 << (8 * count)) - 1) }, count)
}

/// The last bytes of a text, fewer than eight; the zeros behind them end a name.
#[cold]
fn last_bytes(text: &[u8]) -> [u8; 8] {
    let mut bytes = [0; 8];
    bytes[..text.len()].copy_from_slice(text);
    bytes
}

/// A name, with its first eight bytes as one number: a shorter one has zeros there, which no name has.
#[derive(Clone, Copy)]
pub struct Name<'a> {
    bytes: &'a [u8],
    head: u64,
    hash: u64,
}

impl Name<'_> {
    #[inline(always)]
    fn equals(&self, other: &Name) -> bool {
        self.head == other.head
            && self.bytes.len() == other.bytes.len()
            && (self.bytes.len() <= 8 || self.bytes[8..] == other.bytes[8..])
    }
}

/// Names by their numbers, and where to look for them.
pub struct Listed<'a> {
    names: Vec<Name<'a>>,
    slots: Slots,
}

impl<'a> Listed<'a> {
    /// The number of a name, or the free slot where it would be found.
    #[inline(always)]
    fn look_up(&self, name: &Name) -> Result<usize, usize> {
        self.slots.look_up(name.hash, |number| self.names[number].equals(name))
    }

    pub fn number_of(&self, name: &Name) -> Option<usize> {
        self.look_up(name).ok()
    }

    /// Whether the name is that of this number.
    #[inline(always)]
    pub fn has(&self, number: usize, name: &Name) -> bool {
        self.names[number].equals(name)
    }

    /// Reads so many lines.
    #[inline(never)]
    fn read(words: &mut Words<'a>, first_line: usize, count: usize) -> Checked<Listed<'a>> {
        let mut listed = Listed { names: Vec::with_capacity(count), slots: Slots::of(count) };
        for number in 0..count {
            let Some(name) = read_line(words, number) else {
                return refuse(17, first_line + number, 1);
            };
            let Err(slot) = listed.look_up(&name) else {
                return refuse(18, first_line + number, 1);
            };
            listed.names.push(name);
            listed.slots.put(slot, number);
        }
        Ok(listed)
    }
}

/// Reads the line of this number.
#[inline(always)]
fn read_line<'a>(words: &mut Words<'a>, number: usize) -> Option<Name<'a>> {
    let due = words.id()? as usize == number;
    words.pass(b",").filter(|()| due)?;
    let name = words.name()?;
    words.pass(b"\n")?;
    Some(name)
}

/// The names of all tasks and of all methods.
pub struct Names<'a> {
    pub tasks: Listed<'a>,
    pub methods: Listed<'a>,
}

pub fn read_names<'a>(text: &'a [u8], case: &Case) -> Checked<Names<'a>> {
    let mut words = Words(text);
    let tasks = Listed::read(&mut words, 1, usize::from(case.tasks))?;
    let methods = Listed::read(&mut words, 1 + tasks.names.len(), case.methods.len())?;
    if !words.0.is_empty() {
        return refuse(17, 1 + tasks.names.len() + methods.names.len(), 1);
    }
    Ok(Names { tasks, methods })
}
