//! RUSTFLAGS="-L native=target/staticlib" cargo run --release --offline --features linked --bin compare_import -- COUNT SEED
//!
//! Compares the linked import call with the plain one.

use harness::compare;
use harness::gen::forms::Texts;

fn main() {
    let linked: compare::ImportCall = |Texts { case, names, form }, lists, lengths, output| {
        let (states, nodes, work, output) = lists.lend_all(lengths, output);
        cuecheck::import(case, names, form, states, nodes, work, output)
    };
    compare::run_import(compare::PLAIN_IMPORT, linked, "linked");
}
