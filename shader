#!/bin/sh
# Prints a shader: see usage below. The program is proved before it is built: at first that takes minutes, then it is at hand.
set -eu
root=$(cd "$(dirname "$0")" && pwd -P)

usage() {
    cat <<'END'
usage: ./shader [--tight | --export | --settings RECORD] [FILE or FOLDER]
  FILE     a unit as readable text (README, "Trees as text"; it needs cargo); where it is refused, the reason follows on stderr
  FOLDER   has tree.rec, a unit, and its names.txt (none: no names) and, for settings other than OPEN, settings.rec (docs/RECORDS.md)
           (the reason of a refusal: `tools/tree.sh read FOLDER >FILE`, `tools/tree.sh explain FILE N P`)
  nothing  the sample of examples/shader.txt
It is printed in OPEN, or under the FOLDER's settings.rec, unless it is told otherwise:
  --tight            in TIGHT, which asks for no space and no line. It can be read as another expression (`n---k` for `n - --k`)
  --export           in EXPORT, for what is sent to anyone: TIGHT with the spaces that are needed (`n- --k`)
  --settings RECORD  under the settings in this file, 21 or 22 bytes
The text goes to stdout as it is, with no newline behind it, or the line `refused N at P`. Exit status: 0 printed, 1 refused or failed, 2 wrong usage.
END
}

# Ends with a message, and how it is used.
misused() {
    echo "shader: $1" >&2
    usage >&2
    exit 2
}

# Ends if another option has asked for settings.
asked=
once() {
    [ -z "$asked" ] || misused "one option for settings, not $asked and $1"
    asked=$1
}

made=$(mktemp -d)
trap 'rm -rf "$made"' EXIT

# Settings that are asked for stand in the folder that is made here, to which a FOLDER's tree is copied then: nothing is written where the user has files.
given=
while [ $# -gt 0 ]; do
    case $1 in
    -h | --help)
        usage
        exit
        ;;
    --tight)
        once "$1"
        head -c 21 /dev/zero >"$made/settings.rec"
        ;;
    --export)
        once "$1"
        (head -c 21 /dev/zero && printf '\001') >"$made/settings.rec"
        ;;
    --settings)
        once "$1"
        [ $# -gt 1 ] || misused "--settings needs a file"
        if [ ! -f "$2" ] || ! cp "$2" "$made/settings.rec"; then
            echo "shader: no settings in $2" >&2
            exit 1
        fi
        shift
        ;;
    -*) misused "unknown option $1" ;;
    *)
        [ -z "$given" ] || misused "one FILE or FOLDER, not $given and $1"
        given=$1
        ;;
    esac
    shift
done
given=${given:-$root/crates/print/data}

# The number and place of a refusal; nothing where a text was printed. A refusal is the one line `refused N at P`. No text is that, though it may begin with the
# name `refused`: the text of a unit has a ; or a }, or is empty.
refusal() {
    sed -n -e '1{' -e '$s/^refused \([0-9][0-9]*\) at \([0-9][0-9]*\)$/\1 \2/p' -e '}' "$made/text"
}

folder=$made
if [ ! -d "$given" ]; then
    "$root/tools/tree.sh" write "$given" "$made"
elif [ ! -f "$given/tree.rec" ]; then
    echo "shader: $given has no tree.rec" >&2
    exit 1
elif [ ! -f "$made/settings.rec" ]; then
    folder=$given
else
    cp "$given/tree.rec" "$made/"
    [ ! -f "$given/names.txt" ] || cp "$given/names.txt" "$made/"
fi
program=$("$root/tools/program.sh")
(cd "$folder" && "$program") >"$made/text"
cat "$made/text"
refused=$(refusal)
if [ -n "$refused" ]; then
    [ -d "$given" ] || "$root/tools/tree.sh" explain "$given" "${refused% *}" "${refused#* }" >&2
    exit 1
fi
