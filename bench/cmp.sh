#!/bin/sh
# Makes two equal forms of 16 MiB and prints the time of `beamkit cmp` on them divided by that of
# `sha256sum` over both, and the most memory that it took divided by the size of both. Aim: below 0.5 and
# below 2.2.
. "$(dirname -- "$0")/setup.sh"
python3 -c 'import sys, files; print(files.many_chunks(sys.argv[1]), "chunks")' "$folder/first.beam"
cp "$folder/first.beam" "$folder/second.beam"
python3 -m measure "$program" cmp "$folder/first.beam" "$folder/second.beam"
