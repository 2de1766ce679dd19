# Read by each bench: builds the program where it is missing or old, and makes a folder that is removed at
# the end. It sets `program` and `folder`, and lets Python find the modules beside it.
set -eu
top=$(CDPATH= cd -- "$(dirname -- "$0")/.." && pwd)
folder=$(mktemp -d)
trap 'rm -rf "$folder"' EXIT
"$top/beamkit" info "$top/crates/beam_cli/data/sample.beam" >/dev/null
program=$top/crates/beam_cli/out/beam_cli
export PYTHONDONTWRITEBYTECODE=1 PYTHONPATH="$top/bench"
