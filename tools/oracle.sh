#!/bin/sh
# The oracle by itself: its tests, and the Rust module's answers to the recorded questions and in the samples, asked for again: tools/oracle.sh
# It needs cargo, python3 and the Rust source (oracle/README.md), and no proof.
set -eu
cd "$(dirname "$0")/.."
(cd oracle && cargo test --offline --release --quiet && cargo build --offline --release --quiet)

recorded=$(mktemp)
trap 'rm -f "$recorded"' EXIT
python3 tools/vectors.py --lines >"$recorded"
[ -s "$recorded" ] || { echo "oracle: crates/vectors holds no vector"; exit 1; }
oracle/target/release/oracle check "$recorded"

# The samples that crates/replay replays are what the oracle writes.
oracle/target/release/oracle sample Expr 1 | cmp - crates/replay/data/expressions.rec
oracle/target/release/oracle sample Unit 1 | cmp - crates/replay/data/units.rec
oracle/target/release/oracle sample Name 1 | cmp - crates/replay/data/names.rec
oracle/target/release/oracle sample State | cmp - crates/replay/data/states.rec
