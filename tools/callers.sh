#!/bin/sh
# Tries what callers are given: the header with its program in C, and the crate with its tests and its program in Rust: tools/callers.sh
# It needs the library and nothing else: target/native/libglsl.a (tools/staticlib.sh glsl), or the one that GLSL_LIB names. Without cc or cargo it says what is not tried.
set -eu
cd "$(dirname "$0")/.."
scratch=$(mktemp -d)
trap 'rm -rf "$scratch"' EXIT

# README.md shows these very programs, each as the only block of its language.
shown() { awk -v first="\`\`\`$1" '$0 == first { on = 1; next } $0 == "```" { on = 0 } on' README.md; }
shown c | cmp - examples/c/expression.c
shown rust | cmp - rust/glsl_print/examples/expression.rs

# What both programs print; the Rust one adds a refusal's words.
cat > "$scratch/c" <<'LINES'
OPEN: n - --k
TIGHT: n---k
EXPORT: n- --k
joined: yes
OPEN in 6 bytes: refused 13 at 7
LINES
sed '$s/$/: the text is longer than the room/' "$scratch/c" > "$scratch/rust"

strict='-Wall -Wextra -Werror -pedantic -Iinclude'
if command -v cc >/dev/null 2>&1; then
    cc -std=c99 $strict examples/c/expression.c "${GLSL_LIB:-target/native/libglsl.a}" -o "$scratch/program"
    "$scratch/program" | diff "$scratch/c" -
    echo "callers: C, tried"
else
    echo "callers: no cc, so the program in C is not tried"
fi
if command -v c++ >/dev/null 2>&1; then
    echo '#include "glsl_print.h"' | c++ -std=c++11 $strict -fsyntax-only -x c++ -
    echo "callers: the header as C++, tried"
else
    echo "callers: no c++, so the header is not tried as C++"
fi
if cargo --version >/dev/null 2>&1; then
    cd rust
    cargo test --offline --quiet -p glsl_print
    cargo run --offline --quiet -p glsl_print --example expression | diff "$scratch/rust" -
    echo "callers: Rust, tried"
else
    echo "callers: no cargo, so the crate for Rust is not tried"
fi
