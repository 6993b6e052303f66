//! RUSTFLAGS="-L native=target/staticlib" cargo run --release --offline --features linked --bin compare_check -- COUNT SEED
//!
//! Compares the linked check call with the plain one, and shows how often each answer came up.

use harness::compare;

fn main() {
    let linked: compare::Call = |text, lists, lengths| {
        let (states, nodes, work) = lists.lend(lengths);
        cuecheck::check(text, states, nodes, work)
    };
    compare::run(compare::PLAIN_CHECK, linked, "linked");
}
