#!/bin/sh
# Runs `tree` (rust/tree), which is built first where it must be: tools/tree.sh ARGUMENTS.
set -eu
rust=$(cd "$(dirname "$0")/../rust" && pwd -P)
if ! cargo --version >/dev/null 2>&1; then
    echo "tree: readable trees need cargo (Rust), which is not here; folders with tree.rec and names.txt don't" >&2
    exit 1
fi
# Built from its own folder, since cargo reads settings there; run in the folder at hand.
(cd "$rust" && cargo build --offline --release --quiet -p tree >&2)
exec "$rust/target/release/tree" "$@"
