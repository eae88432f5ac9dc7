#!/bin/sh
# Prints each examples/NAME.txt by the program `print` under OPEN, TIGHT and EXPORT and compares with NAME.open.glsl, NAME.tight.glsl and NAME.export.glsl; with --write
# it writes these. The sample that the program has in its own folder (crates/print/data) must be what examples/shader.txt makes. ./shader is tried with texts that are
# printed, under each of these settings, and with two that are refused.
set -eu
root=$(cd "$(dirname "$0")/.." && pwd -P)
folder=$(mktemp -d)
trap 'rm -rf "$folder"' EXIT

# The text of the tree in the folder, which must be printed.
printed() {
    (cd "$folder" && "$program" >text)
    case $(head -n 1 "$folder/text") in
    "refused "*)
        echo "examples: $1 is $(cat "$folder/text")"
        exit 1
        ;;
    esac
}

# Stores the text that was printed, or compares it with the stored one.
settle() {
    if [ "$write" = yes ]; then
        cp "$folder/text" "$1"
    elif ! cmp "$folder/text" "$1"; then
        echo "examples: $1 is not what is printed"
        exit 1
    fi
}

write=no
[ "${1:-}" != --write ] || write=yes
"$root/tools/tree.sh" check "$root/examples/shader.txt" "$root/crates/print/data"
program=$("$root/tools/program.sh")
count=0
for example in "$root"/examples/*.txt; do
    "$root/tools/tree.sh" write "$example" "$folder"
    rm -f "$folder/settings.rec"
    printed "$example"
    settle "${example%.txt}.open.glsl"
    # TIGHT is 21 bytes of 0.
    head -c 21 /dev/zero >"$folder/settings.rec"
    printed "$example"
    settle "${example%.txt}.tight.glsl"
    # EXPORT is TIGHT and a byte of 1.
    printf '\001' >>"$folder/settings.rec"
    printed "$example"
    settle "${example%.txt}.export.glsl"
    count=$((count + 1))
done

# refused REFUSAL LINE: ./shader says of the text in bad.txt that it is refused so, and which line it is.
refused() {
    status=0
    "$root/shader" "$folder/bad.txt" >"$folder/text" 2>"$folder/reason" || status=$?
    if [ "$status $(cat "$folder/text")" != "1 refused $1" ] || ! grep -qxF "$2" "$folder/reason"; then
        echo "examples: ./shader ends with $status: $(cat "$folder/text" "$folder/reason")"
        exit 1
    fi
}

# ./shader prints a text's tree, or says why it does not.
printf 'Unit\n  Declaration invariant "if"  # no name\n' >"$folder/bad.txt"
refused "11 at 1" 'line 2: Declaration invariant "if"'
printf 'Unit\n  Declaration prototype\n    Prototype "gl_f"  # reserved\n      Full type\n        Type\n          Keyword void\n' >"$folder/bad.txt"
refused "15 at 2" 'line 3: Prototype "gl_f"'
"$root/shader" "$root/examples/tiling.txt" | cmp - "$root/examples/tiling.open.glsl"
"$root/shader" --export "$root/examples/tiling.txt" | cmp - "$root/examples/tiling.export.glsl"
"$root/shader" --tight | cmp - "$root/examples/shader.tight.glsl"
echo "examples: $count trees, each printed in OPEN, TIGHT and EXPORT; ./shader, tried with good ones and two bad ones"
