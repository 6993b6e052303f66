//! RUSTFLAGS="-L native=target/staticlib" cargo run --release --offline --features linked --bin compare_step -- COUNT SEED
//!
//! Compares the linked step call with the plain one.

use harness::compare;

fn main() {
    compare::run_step(compare::LINKED_STEP, "linked");
}
