//! The import call, on a case, a name list and a plan in the planning competition's form: prints `Y,k,n,tried,length`, the case made, with gaps 0, and for
//! each empty task its node's number from 0 and the gap found; or `R,number,line,item`.
//!
//!     import CASE NAMES FORM

use std::fs;
use std::io::{self, Write};

use cuecheck::{Node, NODES, STATES, TEXT, WORK};

fn main() -> io::Result<()> {
    let arguments: Vec<_> = std::env::args_os().skip(1).collect();
    let [text, names, form] = &arguments[..] else {
        eprintln!("arguments: CASE NAMES FORM");
        std::process::exit(2);
    };
    let (text, names, form) = (fs::read(text)?, fs::read(names)?, fs::read(form)?);

    let mut states = vec![0; STATES];
    let mut nodes = vec![Node::default(); NODES];
    let mut work = vec![0; WORK];
    // No longer text would be accepted: one is refused with 14, and its item is the length.
    let mut output = vec![0; TEXT];
    let mut out = io::stdout().lock();
    match cuecheck::import(&text, &names, &form, &mut states, &mut nodes, &mut work, &mut output).result() {
        Ok(made) => {
            writeln!(out, "Y,{},{},{},{}", made.cues, made.nodes, made.tried, made.length)?;
            out.write_all(&output[..made.length as usize])?;
            for (number, node) in nodes.iter().enumerate().filter(|(_, node)| node.letter == 2) {
                writeln!(out, "node {number}: gap {}", node.place)?;
            }
        }
        Err(refusal) => writeln!(out, "R,{},{},{}", refusal.number, refusal.line, refusal.item)?,
    }
    Ok(())
}
