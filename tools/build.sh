#!/bin/sh
# Proves the calls and all that they rest on, builds the static library of them and, over it, the desk's tool, and puts that beside the other programs.
# At the top of the repository:
#   sh tools/build.sh
# then target/bin/cues help
set -eu
cd "$(dirname "$0")/.."
# The gate has built it already.
[ "${LIBCAPI:-}" = built ] || sh tools/staticlib.sh
# A new archive alone does not make cargo link again.
touch tools/cues/src/main.rs
RUSTFLAGS="-L native=$PWD/target/staticlib" cargo build --quiet --release --offline --locked \
    --manifest-path tools/cues/Cargo.toml --target-dir target/cues
mkdir -p target/bin
cp target/cues/release/cues target/bin/cues
echo "target/bin/cues is there"
