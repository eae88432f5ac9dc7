#!/bin/sh
# Writes target/native/libNAME.a, a static library of proved code for x86-64, out of the crate NAME_c, which has the C functions over the crate NAME:
#
#     tools/staticlib.sh glsl|checks               proves what is not proved yet, over what `rt check` kept (`rt lib`)
#     tools/staticlib.sh --behind-ci glsl|checks   takes the libraries that `rt ci` proved and left in crates/*/out, in a checkout that had none before it ran, as ./test knows
#
# `rt ci` leaves of each library what the crates above it can cite and its code, and `rt lib` takes no such library: it would prove all of them again. So behind `rt ci` the
# static library is built as `rt ci` checked it and as it builds a program: by the same rattle over the same libraries, which proves NAME_c and compiles what was proved.
set -eu
usage() {
    echo "usage: tools/staticlib.sh [--behind-ci] NAME" >&2
    exit 2
}
behind=no
if [ "${1:-}" = --behind-ci ]; then
    behind=yes
    shift
fi
[ $# -eq 1 ] || usage
name=$1 crate=$1_c
root=$(cd "$(dirname "$0")/.." && pwd -P)
[ -d "$root/crates/$crate" ] || usage
archive=$root/crates/$crate/out/lib$crate.a

# The libraries that crates.txt lists for a crate, and all below a crate.
listed() { sed -n "s/^$1\( staticlib\)\{0,1\}: *//p" "$root/crates.txt"; }
below() {
    waiting=$(listed "$1") found=
    while [ -n "$waiting" ]; do
        next=
        for it in $waiting; do
            case " $found " in
            *" $it "*) ;;
            *) found="$found $it" next="$next $(listed "$it")" ;;
            esac
        done
        waiting=$(echo $next)
    done
    echo $found
}

# Builds it over the libraries that rt ci left.
over_ci() {
    kit=$(dirname "$(rt doc)")
    set -- --crate-name "$crate" src/lib.rt --crate-type staticlib --links "$crate=" --extern "std=$kit/rlibs/std.rlib" -L "dependency=$kit/rlibs"
    for it in $(listed "$crate"); do
        rlib=$root/crates/$it/out/rlib/$it.rlib
        [ -d "$root/crates/$it" ] || rlib=$kit/rlibs/$it.rlib
        set -- "$@" --extern "$it=$rlib"
    done
    for it in $(below "$crate"); do
        [ -d "$root/crates/$it" ] || continue # a library of the kit
        # (a stamp is of rt's other commands, whose libraries only they keep apart from older ones)
        if [ ! -d "$root/crates/$it/out/rlib/$it.rlib" ] || [ -e "$root/crates/$it/out/rlib/stamp" ]; then
            echo "staticlib: rt ci left no library $it here"
            return 1
        fi
        set -- "$@" -L "dependency=$root/crates/$it/out/rlib"
    done
    set -- "$@" --antt-project "$kit/rattle/logic/antt-project.json" --logic-built "$kit/logic_built" --jobs 2
    mkdir -p "$root/crates/$crate/out"
    (cd "$root/crates/$crate" && "$kit/bin/rattle" build "$@" --toolchain "$kit/toolchain" --cpu x86-64 --backend llvm -o "$archive")
}

rm -f "$archive"
if [ "$behind" = no ] || ! over_ci; then
    (cd "$root/crates/$crate" && rt lib --cpu x86-64)
fi
# What it needs from outside is what docs/PROMISES.md says and no more: memcpy and memset, which LLVM calls.
if command -v nm >/dev/null 2>&1; then
    needed=$(nm -u "$archive")
    others=$(echo "$needed" | sed -n 's/^ *[Uvw] //p' | sort -u | grep -vx -e memcpy -e memset || true)
    [ -z "$others" ] || { echo "staticlib: lib$name.a needs from outside besides memcpy and memset:" $others >&2; exit 1; }
else
    echo "staticlib: no nm, so what lib$name.a needs from outside is not looked at"
fi
mkdir -p "$root/target/native"
cp "$archive" "$root/target/native/lib$name.a"
echo "target/native/lib$name.a is proved and compiled"
