#!/bin/sh
# Makes a form of 16 MiB and prints the time of `beamkit info` on it divided by that of `sha256sum`,
# and the most memory that it took divided by the file's size. Aim: below 1 and below 3.
. "$(dirname -- "$0")/setup.sh"
python3 -c 'import sys, files; print(files.many_chunks(sys.argv[1]), "chunks")' "$folder/first.beam"
python3 -m measure "$program" info "$folder/first.beam"
