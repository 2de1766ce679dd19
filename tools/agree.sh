#!/bin/sh
# Sees that the manual page, the completions and the usage message have the commands, the words of `show` and
# the exit statuses that the README has, and that `mandoc` finds no fault in the page (where it is there).
set -eu
top=$(CDPATH= cd -- "$(dirname -- "$0")/.." && pwd)
cd "$top"
folder=$(mktemp -d)
trap 'rm -rf "$folder"' EXIT
page=man/beamkit.1

# Words: what is compared, and where it stands; what stands there is read from standard input.
agrees() {
    cat >"$folder/found"
    [ -s "$folder/found" ] || echo "nothing was found" >"$folder/found"
    if diff "$folder/$1" "$folder/found" >"$folder/said"; then
        echo "$1: $2 agrees with the README"
    else
        touch "$folder/wrong"
        echo "$1: $2 differs from the README:"
        cat "$folder/said"
    fi
}

sed -n '/^| Words/,/^$/s/^| `\([^`]*\)`.*/\1/p' README.md >"$folder/commands"
awk '/^\.Sh/ {if (words) print words; words = ""; inside = /SYNOPSIS/}
    inside && /^\.Nm/ {if (words) print words; words = ""}
    inside && /^\.(Cm|Ar)/ {sub(/^\.../, ""); words = words (words ? " " : "") $0}' "$page" |
    sed 's/^ //; s/  */ /g' | agrees commands "the manual page"
sed -n 's/.*b"usage: \(.*\)",$/\1/p' crates/beam_cli/src/saying.rt | tr ',' '\n' | sed 's/^ //' |
    agrees commands "the usage message"

cut -d ' ' -f 1 "$folder/commands" >"$folder/names"
sed -n 's/.*"\(info show .*\)" --.*/\1/p' completions/beamkit.bash | tr ' ' '\n' | agrees names "completion for bash"
sed -n "/^commands=/,/^)/s/^ *'\([a-z]*\):.*/\1/p" completions/beamkit.zsh | agrees names "completion for zsh"
sed -n "s/.*'__beamkit_at 1' -a \([a-z]*\) .*/\1/p" completions/beamkit.fish | agrees names "completion for fish"

grep '^| `show WHAT F`' README.md | grep -o '`[a-z]*`' | tr -d '`' >"$folder/tables"
sed -n '/^\.It Cm show/,/^\.It Cm disasm/s/^\.It Cm \([a-z]*\)$/\1/p' "$page" | agrees tables "the manual page"
sed -n 's/.*"\(atoms imports .*\)" --.*/\1/p' completions/beamkit.bash | tr ' ' '\n' | agrees tables "completion for bash"
sed -n "/^tables=/,/^)/s/^ *'\([a-z]*\):.*/\1/p" completions/beamkit.zsh | agrees tables "completion for zsh"
sed -n "s/.*'__beamkit_at 2 show' -a \([a-z]*\) .*/\1/p" completions/beamkit.fish | agrees tables "completion for fish"

sed -n '/^| Exit status/,/^$/s/^| \([0-9]\) | \(.*\) |$/\1 \2/p' README.md | tr -d '`' >"$folder/statuses"
awk '/^\.Sh/ {inside = /EXIT STATUS/}
    inside && /^\.(It|El)/ {if (line != "") print line; line = ""}
    inside && /^\.It/ {line = $2; next}
    inside && line != "" && !/^\./ {line = line " " $0}' "$page" | agrees statuses "the manual page"

if command -v mandoc >/dev/null; then
    if mandoc -Tlint "$page" 2>/dev/null; then echo "mandoc finds no fault in the manual page"; else touch "$folder/wrong"; fi
else
    echo "skipped: mandoc is not installed"
fi
[ ! -e "$folder/wrong" ]
