//! RUSTFLAGS="-L native=target/staticlib" cargo run --release --offline --features linked --bin compare_write -- COUNT SEED
//!
//! Compares the linked write call with the plain one.

use harness::compare;

fn main() {
    let linked: compare::WriteCall = |text, lists, lengths, output| {
        let (states, nodes, work, output) = lists.lend_all(lengths, output);
        cuecheck::write(text, states, nodes, work, output)
    };
    compare::run_write(compare::PLAIN_WRITE, linked, "linked");
}
