#!/usr/bin/env bash
# Compares the programs with an independent machine of the same rules:
#
#   tools/compare.sh requests [SEEDS [COUNT [STORE]]]   random streams of requests to stockd, so many in
#       each (by default 1-8 and 60), of three kinds (`mixed`, `hostile` and `orm`), on the models of
#       the machine's own module demo by all callers that it has, and what all rows hold behind
#       them; with a third word `--store` over files, and what these hold too. Where libfaketime is
#       installed both have one clock; else moments aren't compared, requests that name one are
#       left out, and no files are looked at. Prints what differs and how many streams do, for each
#       kind.
#   tools/compare.sh commands [SEEDS [COUNT]]   random creates and writes with commands on lists, so
#       many in each stream (by default 1-20 and 100), on models that have lists of each kind;
#       tools/compare_commands.py says which.
#   tools/compare.sh http [SEEDS [CONNECTIONS]]   random connections to `stockd serve`, so many of
#       each seed (by default 1-20 and 30): heads with something wrong in them, messages behind one
#       another, ends and changed bytes at any place, in pieces of any length, each with a request.
#       Prints the first connection of a seed that differs, and how many seeds do.
#   tools/compare.sh isolation [SEEDS]          reads of a caller behind a random stream, with a write
#       before them that he can't see and without it (by default of seeds 1-50): both must be answered
#       with the same bytes. Prints the first reply of a seed that differs, and how many streams do.
#   tools/compare.sh modules [SEEDS]            random module texts to stockd (by default 1-200),
#       most with something wrong in them. Prints each text that differs, how often each fault
#       came, and how many texts differ. Two differences are known: a model without `name` and
#       `inherit` that has a wrong key behind `name` (DECISIONS.md), and a file's name that is
#       longer than the host takes.
#   tools/compare.sh probe [SEED [COUNT [WORD]]]   random values to the libraries (by default 1
#       and 600), by the program probe; a word is one of those for which tools/probe makes lines,
#       and without it all are asked. `body` is
#       asked under `row`. `http_cuts` asks, whatever the seed and the count, the request of a
#       login and those near it, ended at every place and cut into pieces of every length;
#       `tables_deep` trees about as deep as they may be and rows of about as many targets. Each
#       line of `closes` has ten changes of tables; an answer is right where it holds what the
#       machine finds changed, and lies within what it finds affected. `settles` gives each of so
#       many random streams of edits to the plain program, which tests all rows and evaluates each
#       cell anew, and to an engine, which settles twelve times: the plain answer is to be the
#       machine's, and the engine's the plain one, of what is broken any; it is to evaluate no
#       fewer cells than change, and no more than can be reached. Prints the first answers that
#       differ, and how many do.
#
# The machine stands in the folder that ORACLE names (by default ../shared/oracle beside the
# repository). Where it isn't there nothing is compared, and the status is 0; where it lacks the
# functions about some words, a line says that they are skipped. Requests and modules are given
# to the proved program alone, which `rt ci` and tools/build.sh build. The status is 1 where
# something differs, or where there is no proved program.
set -u
cd "$(dirname "$0")/.." || exit 1
oracle=${ORACLE:-../shared/oracle}
what=${1:-}
[ "$#" -eq 0 ] || shift

# The state of the machine that serves what the program does.
stage=8

# Ends the script where the machine lacks what the comparison needs of it.
needs() {
    [ -f "$oracle/$1" ] || { echo "no machine to compare with in $oracle: skipped"; exit 0; }
}

# The streams of a kind without what names a moment, since the two have a clock each: timeless PROFILE.
timeless() {
    local seed failed=0 stream
    stream=$(mktemp)
    for ((seed = ${seeds%-*}; seed <= ${seeds#*-}; seed++)); do
        python3 "$oracle/fuzz.py" --seed "$seed" --stage $stage --count "$count" --profile "$1" | grep -v -e create_date -e write_date >"$stream"
        python3 "$oracle/compare.py" --mask --stage $stage --load demo --whole --stream "$stream" -- "$program" || failed=1
    done
    rm -f "$stream"
    return $failed
}

case $what in
requests)
    needs compare.py
    seeds=${1:-1-8} count=${2:-60} store=${3:-}
    program=$(tools/build.sh proved stockd) || exit 1
    status=0
    for profile in mixed hostile orm; do
        echo "$profile: seeds $seeds, $count requests each"
        if compgen -G '/usr/lib/*/faketime/libfaketime.so.1' >/dev/null; then
            python3 "$oracle/compare.py" --stage $stage --seeds "$seeds" --count "$count" --profile "$profile" --whole $store -- "$program" || status=1
        else
            timeless "$profile" || status=1
        fi
    done
    exit $status
    ;;
commands)
    needs compare.py
    program=$(tools/build.sh proved stockd) || exit 1
    exec python3 tools/compare_commands.py "$oracle" "$program" "${1:-1-20}" "${2:-100}"
    ;;
http)
    needs compare_http.py
    program=$(tools/build.sh proved stockd) || exit 1
    exec python3 "$oracle/compare_http.py" --mask --stage $stage --seeds "${1:-1-20}" --connections "${2:-30}" -- "$(realpath "$program")"
    ;;
isolation)
    needs isolation.py
    program=$(tools/build.sh proved stockd) || exit 1
    exec python3 "$oracle/isolation.py" --stage $stage --seeds "${1:-1-50}" -- "$program"
    ;;
modules)
    needs fuzz_modules.py
    program=$(tools/build.sh proved stockd) || exit 1
    exec python3 "$oracle/fuzz_modules.py" --stage 11 --seeds "${1:-1-200}" -- "$program"
    ;;
probe)
    needs stockd_oracle/codec.py
    exec python3 tools/probe/ask.py "$oracle" "${1:-1}" "${2:-600}" ${3:+"$3"}
    ;;
*)
    echo 'usage: tools/compare.sh requests|commands|http|isolation|modules|probe ..; its head says more' >&2
    exit 2
    ;;
esac
