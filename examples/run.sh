#!/bin/sh
# Builds the static library of crate capi, links it with the examples in C and Rust and runs them on a case. At the top of the repository:
#   sh examples/run.sh [FILE [nodes]]
# Prints what both print: first the check call's answer, then the tidy text, or the write call's refusal, then the gaps found for the empty tasks, of this
# case and of examples/gaps.case, then what the import call makes of examples/panel.form with examples/panel.case and with examples/gaps.case (the answer,
# the case made, with gaps 0, and the gaps found), then two steps, each with the number of the words that it computed. Fails if they differ. Without FILE
# the case is examples/panel.case, the panel case with constraints out of order and one repeated. In examples/gaps.case "in km/h" is claimed in gap 0 and has
# to stand in gap 1: loading brings the figure in km/h with it. examples/panel.form is the panel case's plan and tree in the planning competition's form,
# examples/panel.names the name list that goes with it. For other files, after a run:
#   target/examples/import_c CASE NAMES FORM
set -eu
cd "$(dirname "$0")/.."
[ $# -gt 0 ] || set -- examples/panel.case
out=target/examples
mkdir -p $out
# The gate has built it already.
[ "${LIBCAPI:-}" = built ] || sh tools/staticlib.sh >/dev/null
for example in check tidy gaps import step; do
    "${CC:-cc}" -std=c99 -Wall -Wextra -O2 -I include examples/c/$example.c target/staticlib/libcapi.a -o $out/${example}_c
done
# A new archive alone does not make cargo link again.
touch examples/rust/src/main.rs examples/rust/src/bin/*.rs
RUSTFLAGS="-L native=$PWD/target/staticlib" cargo build --quiet --release --offline --locked \
    --manifest-path examples/rust/Cargo.toml --target-dir $out/rust
$out/check_c "$@" >$out/c.txt
$out/rust/release/check "$@" >$out/rust.txt
# A refused case is told on standard error, with status 1.
$out/tidy_c "$1" >>$out/c.txt 2>&1 || [ $? -eq 1 ]
$out/rust/release/tidy "$1" >>$out/rust.txt 2>&1 || [ $? -eq 1 ]
for case in "$1" examples/gaps.case; do
    $out/gaps_c "$case" >>$out/c.txt
    $out/rust/release/gaps "$case" >>$out/rust.txt
done
for case in examples/panel.case examples/gaps.case; do
    $out/import_c $case examples/panel.names examples/panel.form >>$out/c.txt
    $out/rust/release/import $case examples/panel.names examples/panel.form >>$out/rust.txt
done
$out/step_c >>$out/c.txt
$out/rust/release/step >>$out/rust.txt
diff $out/c.txt $out/rust.txt
cat $out/c.txt
