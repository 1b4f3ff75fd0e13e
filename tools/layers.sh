#!/usr/bin/env bash
# Each crate is proved from what the crates below it promise: no file of a crate names the proofs/ of another one. The lemmas
# of std are there for everybody.
set -euo pipefail
cd "$(dirname "$0")/../crates"
status=0
for crate in */; do
    crate=${crate%/}
    found=$(find "$crate" \( -name '*.rt' -o -name '*.antt' -o -name '*.edit' \) -not -path '*/out/*' -print0 |
        xargs -0r grep -noHE 'Rattle[.·][a-z0-9_]+\.proofs\b|\b[a-z0-9_]+::proofs\b' |
        grep -vE ":(Rattle[.·](std|$crate)\.|(std|crate)::)proofs$" || true)
    if [ -n "$found" ]; then
        echo "$found"
        status=1
    fi
done
if [ "$status" != 0 ]; then
    echo 'a file names the proofs of another crate' >&2
fi
exit "$status"
