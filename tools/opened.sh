#!/bin/sh
# Opens every installed .beam file as a module, and prints each that is refused, with the reason, and how
# many were opened, with their functions. Words: files, or none for those below /usr/lib and
# /usr/local/lib.
set -eu
top=$(CDPATH= cd -- "$(dirname -- "$0")/.." && pwd)
[ $# -gt 0 ] || set -- $(find /usr/lib /usr/local/lib -name '*.beam' -type f 2>/dev/null)
folder=$(mktemp -d)
trap 'rm -rf "$folder"' EXIT
. "$top/tools/opened_program.sh"
"$opened" open "$@"
