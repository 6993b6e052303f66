//! From an answer of a call to its words: the text is judged again, and explains the answer or nothing.

use crate::case;
use crate::form;
use crate::gaps;
use crate::judge::{judge, Judged, Spot};
use crate::labels::Labels;
use crate::names::{self, Names};
use crate::words::{details, unread_lines, Words};

/// Words for a refusal of the check call; of the write call too, which refuses the same with an output as long as a text.
pub fn checked(answer: Spot, judged: &Judged, labels: &Labels) -> Words {
    Words::of(answer, judged.spot(), || details(judged, labels))
}

/// Words for a refusal of the replay call: what it doesn't judge, it doesn't refuse.
pub fn replayed(answer: Spot, judged: &Judged, labels: &Labels) -> Words {
    let found = judged.spot().filter(|&(number, ..)| number <= 5);
    Words::of(answer, found, || details(judged, labels))
}

/// Words for a refusal of the call that finds the gaps: the check's rows but the constraints, then 15 and 16.
pub fn found(answer: Spot, judged: Judged, length: usize, labels: &Labels) -> Words {
    let judged = judged.without_constraints();
    match judged.fault {
        Some(_) => checked(answer, &judged, labels),
        None => {
            let (spot, lines) = gaps::explain(judged, length, labels);
            Words::of(answer, spot, || lines)
        }
    }
}

/// Words for a refusal of the import call: the case, the name list, the form, then the text made of them.
pub fn imported(answer: Spot, text: &[u8], names: &[u8], form: &[u8]) -> Words {
    let (case, unread) = case::read(text);
    let made = match (unread, case.header) {
        (None, Some(header)) => names::read(names, &header).and_then(|list| Ok((form::made(text, &case, &list, form)?, list))),
        (Some(unread), _) => Err(unread),
        (None, None) => return Words::of(answer, None, Vec::new),
    };
    match made {
        Err(unread) => {
            let text = match (unread.number, unread.item) {
                (..=4, _) => "in the case:",
                (_, 1) => "in the name list:",
                _ => "in the plan form:",
            };
            let spot = (unread.number, unread.line, unread.item);
            Words::of(answer, Some(spot), || under(text, unread_lines(&unread)))
        }
        Ok((made, list)) => found_in_made(answer, &made, list),
    }
}

/// Which of several texts the lines are about.
fn under(text: &str, mut lines: Vec<String>) -> Vec<String> {
    lines.insert(0, text.into());
    lines
}

fn found_in_made(answer: Spot, made: &[u8], names: Names) -> Words {
    let judged = judge(made);
    let labels = Labels::new(&judged.case, Some(names));
    let Words { rule, details } = found(answer, judged, made.len(), &labels);
    Words { rule, details: details.map(|lines| under("in the text made of the case and the form:", lines)) }
}

/// The name list by which a case's tasks and methods are called, if it goes with the case. Where the header can't be read, there is nothing to name.
pub fn labels(judged: &Judged, names: Option<&[u8]>) -> Result<Labels, Vec<String>> {
    let (Some(names), Some(header)) = (names, judged.case.header) else { return Ok(Labels::new(&judged.case, None)) };
    match names::read(names, &header) {
        Ok(list) => Ok(Labels::new(&judged.case, Some(list))),
        Err(unread) => Err(unread_lines(&unread)),
    }
}

/// Whether the plain reading found what an accepted case has: the same states and the same nodes, span for span.
pub fn agrees(judged: &Judged, states: &[u64], nodes: &[cuecheck::Node]) -> bool {
    let rows = judged.run.states.iter().flatten();
    let spans = judged.tree.nodes.iter().zip(nodes);
    judged.fault.is_none()
        && rows.zip(states).all(|(one, other)| one == other)
        && spans.into_iter().all(|(one, other)| one.span.is_some_and(|span| (span.start, span.end) == (other.start, other.end)))
}
