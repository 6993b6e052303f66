#!/bin/sh
# Medians of the linked calls and of both plain renderings in one run, with the ratio to the faster of the two, and what the write call takes beside
# the check call on the same input; then the call that finds the gaps, in milliseconds, beside the fast rendering, which goes by the same method; then the
# import call beside that rendering, and what it takes beside the check call of the case made; last the step call, a thousand calls together; then the stack
# that the linked calls touch. At the top of the repository:
#   sh bench/run.sh [ROUNDS]
set -eu
cd "$(dirname "$0")/.."
sh tools/staticlib.sh >/dev/null
touch bench/src/main.rs bench/src/bin/stack.rs
export RUSTFLAGS="-L native=$PWD/target/staticlib"
run="cargo run --quiet --release --offline --manifest-path bench/Cargo.toml --features linked"
$run -- "${1:-201}"
$run --bin stack
