#!/usr/bin/env bash
# Measures: bench/run.sh NAME.., of the names in the table below. README.md says what each prints,
# and what was read. SIZE and TIMES, where they are set, stand for the table's. By the proved
# programs, which `tools/build.sh PROGRAM` builds, or by the one whose path PROGRAM is, where that
# is set. The probe makes each call as often as its input says: reading the line and telling the
# answer are taken off. The least of five runs counts. Figures, no test.
set -euo pipefail
top=$(cd "$(dirname "$0")/.." && pwd)

# The size of what is asked, and how often (of codec the rows and the values, of http the small
# requests and the bodies, of store the creates and the rows of a file that is opened, of search the
# rows and the searches, of write the writes and the runs, of settle the rows and the calls, of serve
# the requests and the runs).
table='
name         program       size     times
call         stockd        500      1
store        stockd        500      100000
search       stockd        100000   20
write        stockd        5000     3
settle       stockd        200000   1000
serve        stockd        50000    5
codec        probe         5000000  1000000
expr         probe         1        2000
schema       probe         256      6
load         probe         31       40
trigger      probe         1000     200
domain       probe         1000     300
access       probe         100      2000
stock_parts  probe         10000    300
http         probe         200000   100
'
work=$(mktemp -d)
trap 'rm -rf "$work"' EXIT

lines() { python3 "$top/bench/lines.py" "$@"; }

# What a run of stockd takes on a file, with further words: seconds FILE [WORD..].
seconds() { timed "$program" call --modules "$top/modules" --load demo "${@:2}" <"$1"; }

# What the command takes by the clock.
timed() { local TIMEFORMAT=%R; { time "$@" >/dev/null; } 2>&1; }

# What the command takes of a processor, so that other work beside it counts little; without
# the host's part, or with it.
user() { local TIMEFORMAT=%U; { time "$@" >/dev/null; } 2>&1; }
both() { local TIMEFORMAT='%U %S'; { time "$@" >/dev/null; } 2>&1 | awk '{ print $1 + $2 }'; }

on() { "$program" <"$1"; }

least() { for _ in 1 2 3 4 5; do user on "$1"; done | sort -n | head -n 1; }

# What all calls but one take, of so many: calls CALL SIZE [TIMES].
calls() {
    lines "$1" "$2" >"$work/once"
    sed "s/^/times ${3:-$times} /" "$work/once" >"$work/often"
    awk -v often="$(least "$work/often")" -v once="$(least "$work/once")" 'BEGIN { print often - once }'
}

instructions() {
    valgrind --tool=callgrind --callgrind-out-file=/dev/null "$program" <"$1" 2>&1 >/dev/null | awk '/Collected/ { print $NF }'
}

# The instructions of one call: work_of CALL SIZE.
work_of() {
    lines "$1" "$2" >"$work/once"
    sed 's/^/times 2 /' "$work/once" >"$work/twice"
    echo $(($(instructions "$work/twice") - $(instructions "$work/once")))
}

# How many times as many instructions a call takes for twice the size.
work_ratio() {
    if ! command -v valgrind >/dev/null; then
        echo 'not counted, without valgrind'
        return
    fi
    awk -v a="$(work_of "$1" "$2")" -v b="$(work_of "$1" $((2 * $2)))" 'BEGIN { printf "%.2f", b / a }'
}

# Prints a form with what a call takes at a size (a) and at twice it (b), and the ratio of the
# instructions, where it tells that: doubled CALL SIZE FORM [TIMES].
doubled() {
    awk -v what="$1" -v n="$2" -v m="${4:-$times}" -v a="$(calls "$1" "$2" "${4:-$times}")" -v b="$(calls "$1" $((2 * $2)) "${4:-$times}")" -v counted="$([[ $3 != *counted* ]] || work_ratio "$1" "$2")" "BEGIN { m -= 1; $3 }"
}

bench_call() {
    local n t told=()
    for n in "$size" $((2 * size)); do
        lines requests "$n" >"$work/requests"
        t=$(seconds "$work/requests")
        told+=("$t")
        awk -v n="$n" -v t="$t" 'BEGIN {
            reads = int(n / 100)
            printf "%d creates and %d reads: %.2f s, %.0f requests a second\n", n, reads, t, (n + reads) / t }'
    done
    awk -v a="${told[0]}" -v b="${told[1]}" 'BEGIN { printf "ratio: %.2f\n", b / a }'
}

bench_store() {
    local rows memory bare
    lines requests "$size" >"$work/requests"
    memory=$(seconds "$work/requests")
    rows=$(seconds "$work/requests" --store "$work/rows")
    bare=$(timed python3 "$top/bench/rows.py" upserts "$work/bare" "$size")
    awk -v n="$size" -v r="$rows" -v m="$memory" -v b="$bare" 'BEGIN {
        printf "%d creates in a file: %.2f s, %.0f a second; in memory %.2f s; what a file adds: %.2f ms each\n", n, r, n / r, m, (r - m) / n * 1000
        printf "as many upserts by python, a transaction each: %.2f s, %.0f a second; ratio of what a file adds %.2f\n", b, n / b, (r - m) / b }'
    lines requests 1 | "$program" call --modules "$top/modules" --load demo --store "$work/many" >/dev/null
    python3 "$top/bench/rows.py" fill "$work/many" "$times"
    awk -v n="$times" -v o="$(seconds /dev/null --store "$work/many")" -v a="$(timed "$program" audit --modules "$top/modules" --load demo --store "$work/many")" 'BEGIN {
        printf "%d rows: opened in %.2f s, audited in %.2f s\n", n, o, a }'
}

# The same searches of a file of rows, without what opening it takes, and of SQLite in memory.
bench_search() {
    local call opened
    lines requests 1 | "$program" call --modules "$top/modules" --load demo --store "$work/many" >/dev/null
    python3 "$top/bench/rows.py" vary "$work/many" "$size"
    opened=$(seconds /dev/null --store "$work/many")
    for call in found ordered counted; do
        lines "$call" "$times" >"$work/searches"
        awk -v what="$call" -v n="$size" -v m="$times" -v o="$opened" -v s="$(seconds "$work/searches" --store "$work/many")" -v p="$(python3 "$top/bench/rows.py" ask "$size" "$call" "$times")" 'BEGIN {
            printf "%s: %.1f ms of %d rows; SQLite %.1f ms; ratio %.1f\n", what, (s - o) / m * 1000, n, p * 1000, (s - o) / m / p }'
    done
}

# Seconds of a processor that one of so many changes takes: each CALL PROGRAM [WORD..].
each() {
    lines "$1" 0 >"$work/none"
    lines "$1" "$size" >"$work/some"
    local input run
    for input in none some; do
        for ((run = 0; run < times; run++)); do user "${@:2}" <"$work/$input"; done | sort -n | head -n 1
    done | awk -v n="$size" 'NR == 1 { none = $1 } END { print ($1 - none) / n }'
}

# Writes of one row among 2,000, and the same changes staged, settled and flushed by an engine.
bench_write() {
    local written settled
    written=$(each writes "$program" call --modules "$top/modules" --load demo)
    settled=$(each settles "$("$top/tools/build.sh" proved probe)")
    awk -v w="$written" -v s="$settled" 'BEGIN {
        printf "a write of one row among 2,000: %.2f ms; the engine alone: %.2f ms; ratio %.2f\n", w * 1000, s * 1000, w / s }'
}

# A new file of so many lines: kept COUNT.
kept() {
    rm -f "$work/kept"*
    lines requests 1 | "$program" call --modules "$top/modules" --load demo --store "$work/kept" >/dev/null
    python3 "$top/bench/rows.py" fill "$work/kept" "$1"
}

# What bench/apart.py prints of calls to stockd: apart CALL SIZE BATCHES [WORD..].
apart() {
    lines "$1" "$2" >"$work/asked"
    python3 "$top/bench/apart.py" "$work/asked" "$3" "$program" call --modules "$top/modules" --load demo "${@:4}"
}

# Creates and writes among the rows of a file, without what opening it takes; moves in a tree of 1,000
# rows, and a create of many rows, in memory.
bench_settle() {
    local rows
    for rows in $((size / 200)) $((size / 100)) $((size / 20)) $((size / 2)) "$size"; do
        kept "$rows"
        echo "$rows $(apart creates "$times" 5 --store "$work/kept")"
    done >"$work/creates"
    awk '{
        printf "%d rows kept: %.0f creates a second of a processor, %.0f by the clock; %.3f ms each\n", $1, 1 / $2, 1 / $3, $2 * 1000
        rows[NR] = $1; took[NR] = $2; rest[NR] = $4; most[NR] = $5
    } END {
        printf "ratio of a create among %d rows to one among %d: %.2f\n", rows[5], rows[2], took[5] / took[2]
        printf "memory: %.0f bytes a row, %.0f while rows are opened\n", 1024 * (rest[5] - rest[2]) / (rows[5] - rows[2]), 1024 * (most[5] - most[2]) / (rows[5] - rows[2])
    }' "$work/creates"
    apart changes "$times" 5 --store "$work/kept" | awk -v n="$size" '{ printf "a write of one row among %d: %.3f ms\n", n, $1 * 1000 }'
    apart moves $((times / 50)) 5 | awk '{ printf "a move of 1,000 rows of a tree: %.1f ms\n", $1 * 1000 }'
    apart objects $((size / 20)) 1 | awk -v n=$((size / 20)) '{ printf "a create of %d rows in one call: %.2f s, %.3f ms a row\n", n, $1, $1 * 1000 / n }'
}

# A message over HTTP with this body.
post() { printf 'POST /jsonrpc HTTP/1.1\r\nHost: 127.0.0.1:8069\r\nContent-Type: application/json\r\nContent-Length: %d\r\n\r\n%s' "${#1}" "$1"; }

# The body of a call of a line: line METHOD ARGUMENTS.
line() { echo "{\"jsonrpc\":\"2.0\",\"method\":\"call\",\"params\":{\"service\":\"object\",\"method\":\"execute_kw\",\"args\":[\"stock\",2,\"admin\",\"demo.line\",\"$1\",$2]},\"id\":1}"; }

free_port() { python3 -c 'import socket; it = socket.socket(); it.bind(("127.0.0.1", 0)); print(it.getsockname()[1])'; }

# Starts a server, whose processor seconds are noted when it ends: start NOTE WORD..
start() {
    local TIMEFORMAT='%U %S'
    { time "${@:2}" >/dev/null; } 2>>"$1" &
}

# Reads of one row on one connection, and as many messages of that length that a server in C answers
# with as many bytes, by the same client, by turns.
bench_serve() {
    local turn port
    cc -O2 -o "$work/wire" "$top/bench/wire.c"
    post "$(line create '[{"name":"bolt","qty":3,"price":25}]')" >"$work/create"
    post "$(line read '[[1],["name","qty","price","subtotal"]]')" >"$work/read"
    for ((turn = 0; turn < times; turn++)); do
        port=$(free_port)
        start "$work/cost_served" "$program" serve --modules "$top/modules" --load demo --listen "127.0.0.1:$port" --connections 2
        "$work/wire" ask "$port" "$work/create" 0 "$work/created" >/dev/null
        "$work/wire" ask "$port" "$work/read" "$size" "$work/reply" >>"$work/served"
        wait
        port=$(free_port)
        start "$work/cost_echoed" "$work/wire" echo "$port" "$(wc -c <"$work/read")" "$work/reply" $((2 * size))
        "$work/wire" ask "$port" "$work/read" "$size" "$work/echo" >>"$work/echoed"
        wait
    done
    for turn in served echoed; do
        sort -n "$work/$turn" | awk -v n="$size" -v what="$turn" -v cost="$(awk '{ print $1 + $2 }' "$work/cost_$turn" | sort -n | head -n 1)" 'NR == 1 {
            printf "%s: %.0f requests a second, %.1f microseconds of a processor each\n", what, n / $1, cost / (1.1 * n) * 1e6 }'
    done
    awk -v s="$(sort -n "$work/served" | head -n 1)" -v e="$(sort -n "$work/echoed" | head -n 1)" 'BEGIN { printf "ratio of the requests a second: %.0f %%\n", e / s * 100 }'
    paste "$work/served" "$work/echoed" | awk '{ printf "%s%.0f %%", (NR > 1 ? ", " : "run by run: "), $2 / $1 * 100 } END { print "" }'
}

bench_codec() {
    local call
    for call in row body; do lines $call "$size" >"$work/$call"; done
    lines json "$times" >"$work/json"
    awk -v m="$size" -v n="$times" -v b=47 -v r="$(user on "$work/row")" -v w="$(user on "$work/body")" -v t="$(user on "$work/json")" -v p="$(user lines told "$times")" 'BEGIN {
        printf "rows read: %.1f million a second\n", m / r / 1e6
        printf "rows written: %.1f million a second\n", m / w / 1e6
        printf "JSON values: %.0f MB a second; python: %.0f MB a second; ratio %.1f\n", b * n / t / 1e6, b * n / p / 1e6, p / t }'
}

bench_expr() {
    local call n nodes often form
    while read -r call n nodes often; do
        form='printf "%s: %.0f a second of %d parts, %.0f of %d; %.0f ns a node; ratio %.2f\n", what, m / a, n, m / b, 2 * n, b / m / (2 * n * NODES) * 1e9, b / a'
        doubled "$call" $((n * size)) "${form/NODES/$nodes}" $((times * often))
    done <<<$'checked 81 9 1\nchosen 20 7 40\nsummed 1000 3 1'
}

bench_schema() {
    doubled registry "$size" 'printf "schema: %.0f ns a field of %d models, %.0f ns of %d; ratio of the times %.2f, of the instructions %s\n", a / m / (n * 256) * 1e9, n, b / m / (2 * n * 256) * 1e9, 2 * n, b / a, counted'
}

# Milliseconds that a run of stockd with these words takes on a file; the least of 11.
least_start() {
    local from to input=$1
    shift
    for _ in {1..11}; do
        from=$(date +%s%N)
        "$@" <"$input" >/dev/null
        to=$(date +%s%N)
        echo $((to - from))
    done | sort -n | awk 'NR == 1 { printf "%.2f", $1 / 1e6 }'
}

bench_load() {
    local server
    if server=$("$top/tools/build.sh" proved stockd); then
        echo '{"jsonrpc":"2.0","method":"call","params":{"service":"object","method":"execute_kw","args":["stock",2,"admin","demo.line","read",[[],["qty"]]]},"id":1}' >"$work/request"
        echo "start: $(least_start "$work/request" "$server" call --modules "$top/modules" --load demo) ms to the first reply with demo, $(least_start /dev/null "$server" call) ms for an empty call"
    else
        echo 'start: not measured, the proved program stockd is not there'
    fi
    doubled modules "$size" "size = $(lines bytes "$size"); "'printf "load: %.0f modules a second, %.1f MB of TOML; ratio of the times for %d and %d modules %.2f, of the instructions %s\n", n / (a / m), size / (a / m) / 1e6, n, 2 * n, b / a, counted'
}

bench_trigger() {
    local call rows
    while read -r call rows; do
        doubled "$call" $((rows * size)) 'printf "%s: %.2f ms at %d rows, %.2f ms at %d; ratio of the times %.2f, of the instructions %s\n", what, a / m * 1e3, n, b / m * 1e3, 2 * n, b / a, counted'
    done <<<$'chains 1\ntree 1\nfan 10\nothers 10'
}

bench_domain() {
    local call
    for call in equality range pattern dotted child_of; do
        doubled "$call" "$size" 'printf "%s: %.1f million rows a second, %.0f ns a row; ratio of the times for %d and %d rows %.2f, of the instructions %s\n", what, n * m / a / 1e6, b / m / (2 * n) * 1e9, n, 2 * n, b / a, counted'
    done
    awk -v m="$times" -v a="$(calls criteria 400)" 'BEGIN { printf "read: %.0f domains of 400 criteria a second\n", (m - 1) / a }'
}

bench_access() {
    local call others
    for call in admissions rights; do
        for others in 1 10 100; do
            awk -v what="$call" -v n="$others" -v m="$times" -v a="$(calls "$call" "$others")" 'BEGIN { printf "%s: %.2f million a second with %d rules and lines on other models\n", what, 100 * (m - 1) / a / 1e6, n }'
        done
    done
    doubled groups "$size" 'printf "groups: %.2f microseconds for %d groups in a chain; ratio of the times for %d and %d %.2f, of the instructions %s\n", a / (100 * m) * 1e6, n, n, 2 * n, b / a, counted'
}

bench_stock_parts() {
    local call
    for call in takes move_lines pull_chain; do
        doubled "$call" "$size" 'printf "%s: %.1f million items a second at %d, %.1f million at %d; ratio of the times %.2f, of the instructions %s\n", what, n * m / a / 1e6, n, 2 * n * m / b / 1e6, 2 * n, b / a, counted'
    done
}

# What all calls but one take of a processor and the host: pieces CALL CUT TIMES.
pieces() {
    lines "$1" "$2" >"$work/once"
    sed "s/^/times $3 /" "$work/once" >"$work/often"
    awk -v often="$(both on "$work/often")" -v once="$(both on "$work/once")" 'BEGIN { print often - once }'
}

bench_http() {
    local call requests often name bytes
    while read -r call requests often name; do
        bytes=$((($(lines "$call" whole | wc -c) - 14) / 2))
        awk -v name="$name" -v n=$((requests * (often - 1))) -v b=$((bytes * (often - 1))) -v w="$(pieces "$call" whole "$often")" -v p="$(pieces "$call" 1 "$often")" 'BEGIN {
            printf "%s: %.0f a second, %.1f MB a second; in pieces of a byte %.0f, %.1f MB; ratio %.1f\n", name, n / w, b / w / 1e6, n / p, b / p / 1e6, p / w }'
    done <<<"small 100 $((size / 100)) small requests
large 1 $times bodies of 1 MiB"
}

[ "$#" -gt 0 ] || { echo "usage: bench/run.sh NAME.., of:$table" >&2; exit 2; }
for name; do
    read -r found program size times <<<"$(awk -v name="$name" '$1 == name' <<<"$table")"
    [ -n "$found" ] || { echo "no bench of the name $name; there are:$table" >&2; exit 2; }
    size=${SIZE:-$size} times=${TIMES:-$times}
    program=${PROGRAM:-$("$top/tools/build.sh" proved "$program")}
    "bench_$name"
done
