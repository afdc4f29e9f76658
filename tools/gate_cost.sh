#!/usr/bin/env bash
# What the gate costs, crate by crate, from nothing: tools/gate_cost.sh [NAME..]. Prints a
# row of a table for each crate: the processor minutes (user and system, of all processes)
# of its proof, of its tests and of its must-fail edits, as `rt ci` would have them checked,
# one after the other and each with one job. It works in a fresh clone of what is committed
# (so nothing that was kept helps), and takes as long as it says, beside what two compilers
# and the runs of programs and tests take. With names only those crates are measured; what
# they stand on is proved first, and not counted.
#
#   proof   `rt lib` of a library, `rt check` of a program, with the libraries below built
#   tests   `rt check --test` with nothing kept of the proof: the crate again, with its tests
#   edits   `rt must-fail NAME`: a check for each edit, over what those before it proved
set -u
top=$(cd "$(dirname "$0")/.." && pwd)
work=$(mktemp -d)
trap 'rm -rf "$work"' EXIT
git clone -q "$top" "$work/clone" || exit 1
cd "$work/clone" || exit 1
export TIMEFORMAT='%U %S'

# Runs the command, and sets `minutes` to what it took; ends the script where it fails.
timed() {
    local said=$work/said
    # (the figures of bash come apart from what the command writes)
    { time "$@" >"$said" 2>&1; } 2>"$work/time" || {
        echo "failed: $*" >&2
        tail -n 20 "$said" >&2
        exit 1
    }
    minutes=$(awk '{ printf "%.1f", ($1 + $2) / 60 }' "$work/time")
}

proved() {
    cd "crates/$1" || exit 1
    if [ -f src/main.rt ]; then timed rt check --jobs 1; else timed rt lib --jobs 1; fi
    cd ../..
}

tests() {
    minutes=0.0
    grep -rqE '^ *#\[test\]' "crates/$1/src" || return 0
    cd "crates/$1" || exit 1
    # The library stays built for the crates above; the kept work goes.
    rm -rf out/incremental
    timed rt check --test --jobs 1
    cd ../..
}

edits() {
    minutes=0.0
    ls "crates/$1"/must-fail/*.edit >/dev/null 2>&1 || return 0
    timed rt must-fail "$1"
}

names=${*:-$(tools/build.sh below)}
echo '| crate | processor minutes | of these the proof | its tests | its must-fail edits |'
echo '|---|---|---|---|---|'
crates=$(for name in $names; do tools/build.sh below "$name" || exit 1; done) || exit 1
for crate in $(echo "$crates" | awk '!seen[$0]++'); do
    proved "$crate"
    case " $(echo $names) " in
    *" $crate "*) ;;
    *) continue ;;
    esac
    proof=$minutes
    tests "$crate"
    of_tests=$minutes
    edits "$crate"
    awk -v c="$crate" -v p="$proof" -v t="$of_tests" -v e="$minutes" 'BEGIN {
        printf "| %s | %.1f | %.1f | %.1f | %.1f |\n", c, p + t + e, p, t, e }' >"$work/row"
    cat "$work/row"
    cat "$work/row" >>"$work/rows"
done
awk -F'|' '{ sum += $3 } END { printf "| all | %.0f | | | |\n", sum }' "$work/rows"
