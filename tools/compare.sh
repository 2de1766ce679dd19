#!/bin/sh
# Compares `info`, `show` and `strip` with what Erlang's own beam_lib says of installed .beam files, and
# the instructions in `disasm` with those of beam_disasm, by their names, order and count. It sees that
# `asm` of what `disasm` prints gives the file back, that each is its own `canon`, and that `cmp` finds it
# the same as itself. Literals are packed in these files, so `show literals` is also
# compared for forms that are made of them and hold the same literals unpacked, and for a form of made
# literals. It is skipped where Erlang is missing.
# Words: files, or none for those below /usr/lib and /usr/local/lib.
set -eu
top=$(CDPATH= cd -- "$(dirname -- "$0")/.." && pwd)
if ! command -v escript >/dev/null; then
    echo "skipped: Erlang is not installed"
    exit 0
fi
[ $# -gt 0 ] || set -- $(find /usr/lib /usr/local/lib -name '*.beam' -type f 2>/dev/null)
folder=$(mktemp -d)
trap 'rm -rf "$folder"' EXIT
"$top/beamkit" info "$top/crates/beam_cli/data/sample.beam" >/dev/null
program=$top/crates/beam_cli/out/beam_cli
escript "$top/tools/expected.escript" "$folder" "$@"
: >"$folder/refused"
echo same >"$folder/same"
same=0
differ=0
skipped=0

# Runs the program and compares. Words: a file with the expected output, or `any` for any output; the
# file; and the words before its name. Where `missing ID` is expected, a refusal has to name this chunk.
compare() {
    expected=$1
    file=$2
    shift 2
    status=0
    "$program" "$@" "$file" >"$folder/own" 2>"$folder/said" || status=$?
    right=no
    if [ "$expected" = any ]; then
        [ $status -ne 0 ] || right=yes
    elif id=$(grep -x 'missing ....' "$expected"); then
        said="beamkit: $file: no chunk ${id#missing }"
        [ $status -ne 3 ] || [ "$(cat "$folder/said")" != "$said" ] || right=yes
    elif [ $status -eq 0 ] && cmp -s "$folder/own" "$expected"; then
        right=yes
    fi
    [ $status -eq 0 ] || echo "$*: $(sed "s|^beamkit: $file: ||" "$folder/said")" >>"$folder/refused"
    if [ $right = yes ]; then same=$((same + 1)); else
        differ=$((differ + 1))
        echo "differs: $* $file (status $status)"
        [ "$expected" = any ] || cmp "$folder/own" "$expected" 2>&1 | sed 's|^|  |'
    fi
}

# Compares the names of the instructions in the listing.
compare_names() {
    awk '/^code /{code=1} /^chunk /{code=0} code && /^  /{print $1}' "$folder/listing" >"$folder/listed"
    if cmp -s "$folder/listed" "$1"; then same=$((same + 1)); else
        differ=$((differ + 1))
        echo "differs: instructions of $beam"
        cmp "$folder/listed" "$1" 2>&1 | sed 's|^|  |'
    fi
}

count=0
for beam in "$@"; do
    count=$((count + 1))
    compare any "$beam" disasm
    cp "$folder/own" "$folder/listing"
    compare "$beam" "$folder/listing" asm
    compare_names "$folder/$count.names"
    compare "$beam" "$beam" canon
    compare "$folder/same" "$beam" cmp "$beam"
    compare "$folder/$count.strip" "$beam" strip
    compare "$folder/$count.info" "$beam" info
    for what in atoms imports exports locals funs literals lines attributes compile; do
        if [ -f "$folder/$count.$what" ]; then
            compare "$folder/$count.$what" "$beam" show $what
        else
            skipped=$((skipped + 1))
        fi
    done
    [ ! -f "$folder/$count.beam" ] || compare "$folder/$count.plain" "$folder/$count.beam" show literals
done
compare "$folder/made.plain" "$folder/made.beam" show literals
echo "refusals:"
sort "$folder/refused" | uniq -c
echo "$count files and $(cd "$folder" && ls ./*.beam | wc -l) made forms, $(cat "$folder"/*.plain | wc -l) literals in these"
echo "$((same + differ)) outputs compared, $skipped left out for maps of more than 32 keys"
echo "$same as expected, $differ not"
[ $differ -eq 0 ]
