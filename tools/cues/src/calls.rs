//! The proved calls, with lists as long as they ask, and their answers as they are printed.

use cuecheck::{Found, Imported, Node, Reply, Written, NODES, STATES, TEXT, WORK};

/// More than any text that the import call can make of a case and 3,000 lines, so that one is refused for its own length (2) and never for the output's (14).
const OUTPUT: usize = 4 * TEXT;

/// What is lent to the calls.
pub struct Lists {
    pub states: Vec<u64>,
    pub nodes: Vec<Node>,
    pub work: Vec<u32>,
    pub output: Vec<u8>,
}

impl Default for Lists {
    fn default() -> Lists {
        Lists { states: vec![0; STATES], nodes: vec![Node::default(); NODES], work: vec![0; WORK], output: vec![0; OUTPUT] }
    }
}

impl Lists {
    pub fn check(&mut self, text: &[u8]) -> Reply {
        cuecheck::check(text, &mut self.states, &mut self.nodes, &mut self.work)
    }

    pub fn replay(&mut self, text: &[u8]) -> Reply {
        cuecheck::replay(text, &mut self.states, &mut self.work)
    }

    pub fn write(&mut self, text: &[u8]) -> Written {
        cuecheck::write(text, &mut self.states, &mut self.nodes, &mut self.work, &mut self.output)
    }

    pub fn find_gaps(&mut self, text: &[u8]) -> Found {
        cuecheck::find_gaps(text, &mut self.states, &mut self.nodes, &mut self.work)
    }

    pub fn import(&mut self, text: &[u8], names: &[u8], form: &[u8]) -> Imported {
        cuecheck::import(text, names, form, &mut self.states, &mut self.nodes, &mut self.work, &mut self.output)
    }
}

/// `R,number,line,item`.
pub fn refused((number, line, item): (u32, u32, u32)) -> String {
    format!("R,{number},{line},{item}")
}
