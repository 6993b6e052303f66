//! RUSTFLAGS="-L native=target/staticlib" cargo run --release --offline --features linked --bin compare_replay -- COUNT SEED
//!
//! Compares the linked replay call with the plain one.

use harness::compare;

fn main() {
    let linked: compare::Call = |text, lists, lengths| {
        let (states, _, work) = lists.lend(lengths);
        cuecheck::replay(text, states, work)
    };
    compare::run(compare::PLAIN_REPLAY, linked, "linked");
}
