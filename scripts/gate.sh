#!/bin/sh
# gate.sh FOLDER: runs `rt ci`, and counts while it runs; FOLDER/ci.log gets all that it says. It fails where `rt ci` does, and where an edit of
# must-fail/ is bad, which shows nothing of a contract and which `rt ci` passes.

set -eu
folder=$1
scripts=$(dirname "$0")
log=$folder/ci.log

mkdir -p "$folder"
# What `rt ci` ends with, 1 as long as it has not ended.
echo 1 >"$folder/ci.status"
earlier=$(find crates -maxdepth 3 -path 'crates/*/out/rlib')
: >"$folder/ci.begun"
{ rt ci && echo 0 >"$folder/ci.status"; } 2>&1 | tee "$log" | "$scripts/count.sh"
if test "$(cat "$folder/ci.status")" != 0; then
    cat "$log"
    exit 1
fi

# Its line `rt: ok; ..; must-fail edits: 354 refused, 2 bad; ..` counts the bad ones, if there are any.
if ! grep -q '^rt: ok' "$log" || grep -Eq '^rt: ok.*, [0-9]+ bad' "$log"; then
    grep 'BAD EDIT' "$log" || true
    echo 'gate.sh: rt ci passed, but an edit is bad' >&2
    exit 1
fi

# Where no earlier run had left libraries, those in crates/*/out are what this one proved, of the files as they were when it began; else rt has put the
# earlier ones back. prove.sh looks at this.
test -n "$earlier" || mv "$folder/ci.begun" "$folder/ci.libraries"
