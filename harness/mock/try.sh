#!/bin/sh
# Builds the mock of libcapi.a and shows that the comparison links, agrees with it, and finds
# each bug that a feature of the mock puts in. Run in harness/: sh mock/try.sh [COUNT SEED]
set -eu
count=${1:-20000}
seed=${2:-1}

# build_mock FEATURES: leaves target/staticlib/libcapi.a
build_mock() {
    cargo build --quiet --release --offline -p mock --features "$1"
    mkdir -p target/staticlib
    cp target/release/libcapi.a target/staticlib/libcapi.a
}

# compare: links the programs with the archive that lies there now, and runs them
compare() {
    # Cargo doesn't watch the archive; touching the programs makes it link them anew.
    touch src/bin/compare_*.rs src/bin/properties.rs
    RUSTFLAGS="-L native=$PWD/target/staticlib" cargo build --quiet --release --offline -p harness \
        --target-dir target/linked --features linked
    for call in replay check write gaps import step; do
        printf '%s: ' "$call"
        target/linked/release/compare_$call "$count" "$seed" | cut -c1-300 || true
    done
}

echo "mock without a bug"
build_mock ""
compare
for bug in bug-answer bug-dirty-work bug-overrun; do
    echo "mock with $bug"
    build_mock "$bug"
    compare
done
# Leaves the sound mock behind, for the benchmark.
build_mock ""
compare >/dev/null
