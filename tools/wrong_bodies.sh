#!/usr/bin/env bash
# Tries wrong bodies that the gate doesn't: tools/wrong_bodies.sh [NAME..]. The edits of
# crates/NAME/wrong-bodies, which are of the form of those in must-fail, are tried by
# `rt must-fail` in a tree of its own for each crate, several side by side; without a name those
# of all crates that have some. The libraries below that tools/build.sh built aren't proved
# again. Prints what each edit came to; ends with 1 where one is not refused.
set -u
top=$(cd "$(dirname "$0")/.." && pwd)
work=$(mktemp -d)
set -m

# Ends what still runs, and takes the trees away.
clear_up() {
    {
        for group in $(jobs -p); do kill -- "-$group"; done
        wait
    } 2>/dev/null
    rm -rf "$work" "$top"/crates/*/out/edits
}
trap clear_up EXIT
trap 'exit 143' HUP INT TERM

try() {
    local name=$1 tree=$top/crates/$1/out/edits
    rm -rf "$tree"
    "$top/tools/build.sh" tree "$name" "$tree" || exit 1
    mkdir "$tree/crates/$name/must-fail"
    cp "$top/crates/$name/wrong-bodies"/*.edit "$tree/crates/$name/must-fail"
    cd "$tree" && rt must-fail "$name"
}

names=${*:-$(for name in $("$top/tools/build.sh" below); do ! compgen -G "$top/crates/$name/wrong-bodies/*.edit" >/dev/null || echo "$name"; done)}
# So many side by side, of which each takes up to some 3 GB.
places=$(awk -v most="$(nproc)" '/^MemAvailable/ { n = int($2 / 3000000); print n < 1 ? 1 : n < most ? n : most }' /proc/meminfo)
status=0
for name in $names; do
    if ! compgen -G "$top/crates/$name/wrong-bodies/*.edit" >/dev/null; then
        echo "$name has no wrong-bodies" >&2
        exit 1
    fi
    while [ "$(jobs -rp | wc -l)" -ge "$places" ]; do sleep 1; done
    { try "$name" >"$work/$name" 2>&1 || echo "$name: not every edit is refused" >>"$work/failed"; cat "$work/$name"; } &
done
wait
[ ! -f "$work/failed" ] || { cat "$work/failed"; status=1; }
exit $status
