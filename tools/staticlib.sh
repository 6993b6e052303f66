#!/bin/sh
# Proves the crate capi and all that it rests on, and puts the static library of it into target/staticlib/libcapi.a. At the top of the repository:
#   sh tools/staticlib.sh
set -eu
cd "$(dirname "$0")/.."
(cd crates/capi && rt lib)
mkdir -p target/staticlib
cp crates/capi/out/libcapi.a target/staticlib/libcapi.a
