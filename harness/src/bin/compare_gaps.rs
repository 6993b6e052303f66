//! RUSTFLAGS="-L native=target/staticlib" cargo run --release --offline --features linked --bin compare_gaps -- COUNT SEED
//!
//! Compares the linked call that finds the gaps with the plain one.

use harness::compare;

fn main() {
    let linked: compare::FindCall = |text, lists, lengths| {
        let (states, nodes, work) = lists.lend(lengths);
        cuecheck::find_gaps(text, states, nodes, work)
    };
    compare::run_find(compare::PLAIN_FIND, linked, "linked");
}
