#!/bin/sh
# Builds the static library of crate capi, links it with the plain rendering and compares the two, call by call; then tries what the write call
# promises of its own texts. At the top of the repository:
#   sh harness/run.sh [COUNT [SEED]]
# Each of the six comparisons ends `COUNT inputs, 0 differences`. The line before it says how many inputs were accepted, how many have 257 to 512
# propositions and how many of these were accepted, and the line before that how often each answer came up, every time that an input was compared; for the
# step call, how many apply, and how many of these compute at most two words, seven or eight, and none. The write call has a line more: how many accepted
# inputs were tidy already, and how many outputs were too short; so has the call that finds the gaps: how many inputs were accepted not with the first
# choice, how many choices were tried of all those accepted, and how often there was none; and the import call: how many inputs were accepted not with the
# first choice, and how many were refused with 17 and 18 in the name list. The last line of all ends `0 faults`.
set -eu
cd "$(dirname "$0")/.."
# The gate has built it already.
[ "${LIBCAPI:-}" = built ] || sh tools/staticlib.sh >/dev/null
for program in compare_check compare_replay compare_write compare_gaps compare_import compare_step properties; do
    touch harness/src/bin/$program.rs
    RUSTFLAGS="-L native=$PWD/target/staticlib" cargo run --quiet --release --offline --manifest-path harness/Cargo.toml \
        --features linked --bin $program -- "${1:-20000}" "${2:-1}"
done
