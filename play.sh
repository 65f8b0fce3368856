#!/usr/bin/env bash
# Proves and builds the play program, then runs it in a folder that holds a game.txt: by default the sample game's.
set -euo pipefail
top=$(cd "$(dirname "$0")" && pwd)
folder=$(cd "${1:-$top/crates/play/data}" && pwd)
said=$(mktemp)
trap 'rm -f "$said"' EXIT
# This runs the program once too, in its crate, where there is no game; what it says there is left out.
(cd "$top/crates/play" && rt run >"$said" 2>&1 </dev/null) || { cat "$said" >&2; exit 1; }
cd "$folder"
"$top/crates/play/out/play"
