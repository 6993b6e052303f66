//! Compares the fast rendering with the clear one, all calls or one (check, replay, write, gaps, import, step).
//!
//! compare_plain COUNT SEED [CALL]

use harness::compare::{self, Call, FindCall, ImportCall, WriteCall};
use harness::fast;
use harness::gen::forms::Texts;

fn main() {
    let check: Call = |text, lists, lengths| {
        let (states, nodes, work) = lists.lend(lengths);
        fast::check(text, states, nodes, work)
    };
    let replay: Call = |text, lists, lengths| {
        let (states, _, work) = lists.lend(lengths);
        fast::replay(text, states, work)
    };
    let write: WriteCall = |text, lists, lengths, output| {
        let (states, nodes, work, output) = lists.lend_all(lengths, output);
        fast::write(text, states, nodes, work, output)
    };
    let find: FindCall = |text, lists, lengths| {
        let (states, nodes, work) = lists.lend(lengths);
        fast::find_gaps(text, states, nodes, work)
    };
    let import: ImportCall = |Texts { case, names, form }, lists, lengths, output| {
        let (states, nodes, work, output) = lists.lend_all(lengths, output);
        fast::import(case, names, form, states, nodes, work, output)
    };
    let wanted = std::env::args().nth(3).filter(|word| word != "trace");
    for call in ["check", "replay", "write", "gaps", "import", "step"] {
        if wanted.as_ref().is_some_and(|wanted| wanted != call) {
            continue;
        }
        println!("{call}");
        match call {
            "check" => compare::run(compare::PLAIN_CHECK, check, "fast"),
            "replay" => compare::run(compare::PLAIN_REPLAY, replay, "fast"),
            "write" => compare::run_write(compare::PLAIN_WRITE, write, "fast"),
            "gaps" => compare::run_find(compare::PLAIN_FIND, find, "fast"),
            "import" => compare::run_import(compare::PLAIN_IMPORT, import, "fast"),
            _ => compare::run_step(fast::step, "fast"),
        }
    }
}
