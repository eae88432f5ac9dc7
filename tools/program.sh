#!/bin/sh
# Tells where the program `print` is: tools/program.sh
# It is proved and built first, unless it is at hand: newer than all that it is made from. `rt ci` leaves it too, so behind that nothing is proved. What is said meanwhile goes to target/program.log.
set -eu
[ $# -eq 0 ] || { echo "usage: tools/program.sh" >&2; exit 2; }
root=$(cd "$(dirname "$0")/.." && pwd -P)
program=$root/crates/print/out/print
newer() { find "$root/crates.txt" "$root"/crates/*/src "$root"/crates/*/specs "$root"/crates/*/proofs -newer "$program" -print 2>/dev/null | head -n 1; }
if [ ! -x "$program" ] || [ -n "$(newer)" ]; then
    mkdir -p "$root/target"
    [ -x "$program" ] || echo "program: print is proved first, which takes minutes (target/program.log)" >&2
    # (it also runs the program, in a folder that has no tree)
    if ! (cd "$root/crates/print" && rt run) >"$root/target/program.log" 2>&1 </dev/null; then
        cat "$root/target/program.log" >&2
        exit 1
    fi
fi
echo "$program"
