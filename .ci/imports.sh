#!/usr/bin/env bash
# What crates take of one another's proofs: only what stands in the other's page
# proofs/CallerLemmas.antt. Prints each other import, and ends with 1 where there is one.
cd "$(dirname "$0")/.." || exit 1
found=$(grep -rnoE 'Rattle\.[a-z_]+\.proofs\.[A-Za-z_.]+' crates --include='*.antt' --include='*.rt' |
    awk -F: '{
        split($1, path, "/"); split($3, name, ".")
        if (name[2] != path[2] && name[2] ~ /^(ob|wh|probe)_/ && name[4] != "CallerLemmas") print
    }')
if [ -n "$found" ]; then
    echo "$found"
    echo "a crate's proofs are cited by other crates through proofs/CallerLemmas.antt alone"
    exit 1
fi
