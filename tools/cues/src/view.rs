//! `cues view`: a case as a page.

use crate::calls::Lists;
use crate::check;
use crate::explain;
use crate::files;
use crate::judge::judge;
use crate::labels::Labels;
use crate::options::Options;
use crate::page::{page, Head};

/// Draws the case; true if it was accepted.
pub fn run(options: &Options) -> Result<bool, String> {
    files::apart(options.output.as_ref(), options.inputs())?;
    let file = &options.files[0];
    let text = files::read_case(file)?;
    let names = options.names.as_deref().map(files::read_all).transpose()?;
    let (page, accepted) = drawn(&files::name(file), &text, names.as_deref())?;
    files::put_out(options.output.as_ref(), page.as_bytes())?;
    Ok(accepted)
}

/// The page of a text, and whether the text is accepted.
pub fn drawn(file: &str, text: &[u8], names: Option<&[u8]>) -> Result<(String, bool), String> {
    let mut lists = Lists::default();
    let answer = check::answer(text, &mut lists, names, true);
    if let Some(wrong) = answer.names {
        return Err(format!("the name list does not go with {file}:\n{}", wrong.join("\n")));
    }
    let mut judged = judge(text);
    let (accepted, mut words) = (answer.spot.0 == 0, answer.words.clone());
    if accepted && !explain::agrees(&judged, &lists.states, &lists.nodes) {
        words.push("no picture: read again plainly, the text does not show what the check found; the answer stands".into());
        // Nothing of it is drawn.
        judged = judge(b"");
    }
    let labels = explain::labels(&judged, names).unwrap_or_else(|_| Labels::default());
    let head = Head {
        file,
        answer: &answer.text(),
        accepted,
        rule: answer.rule,
        words: &words,
        line: answer.spot.1,
        explained: answer.explained,
    };
    Ok((page(&head, &judged, &labels), accepted))
}
