#!/usr/bin/env bash
# What the process of the proved program ends with: tools/standards.sh. `main` has no clause,
# and what a shut standard, a file or a folder does is the host's: so the statuses of
# docs/CALL.md that come without a whole request are looked at here, on the program itself.
# Ends with 1 where one differs, and tells it. The gate runs it.
set -u
top=$(cd "$(dirname "$0")/.." && pwd)
program=$("$top/tools/build.sh" proved stockd) || exit 1
demo=(call --modules "$top/modules" --load demo)
usage='usage: stockd call|serve|audit|gen [options]'
failed=0

# Compares what a case wrote, with its status behind it, with what is wanted.
case_is() {
    if [ "$2" != "$3" ]; then
        printf '%s: %s, and not %s\n' "$1" "$2" "$3" >&2
        failed=1
    fi
}

# The stored run of the program has a copy of the module.
if ! cmp -s "$top/modules/demo.toml" "$top/crates/stockd/data/modules/demo.toml"; then
    echo 'modules/demo.toml and its copy in crates/stockd/data differ' >&2
    failed=1
fi
case_is 'an empty input' "$("$program" call </dev/null; echo "$?")" 0
case_is 'an empty input, with a module' "$("$program" "${demo[@]}" </dev/null; echo "$?")" 0
case_is 'other words' "$("$program" later </dev/null; echo "$?")" "$usage"$'\n2'
case_is 'words that are no text' "$("$program" call $'\xff' </dev/null; echo "$?")" "$usage"$'\n2'
case_is 'an option without its value' "$("$program" call --load </dev/null; echo "$?")" "$usage"$'\n2'
case_is 'a module of another form' "$("$program" call --load=Demo </dev/null; echo "$?")" "$usage"$'\n2'
case_is 'two folders' "$("$program" "${demo[@]}" --modules "$top/modules" </dev/null; echo "$?")" "$usage"$'\n2'
case_is 'a module that is not there' "$("$program" "${demo[@]}" --load none </dev/null; echo "$?")" $'module none: Absent text\n3'
case_is 'a folder that is not there' "$("$program" call --modules "$top/none" --load demo </dev/null; echo "$?")" $'module demo: Absent text\n3'
case_is 'a file in place of the folder' "$("$program" call --modules "$top/README.md" --load demo </dev/null; echo "$?")" $'read fault\n4'
computed='demo.line.subtotal demo.order.total demo.place.parent_path product.category.complete_name product.category.parent_path
    stock.location.complete_name stock.location.parent_path stock.move.quantity stock.move.line.done stock.picking.name stock.picking.state'
case_is 'an audit of nothing' "$("$program" audit "${demo[@]:1}" <&-; echo "$?")" "$(printf '%s 0 equal\n' $computed)"$'\naudit equal\n0'
case_is 'two stores' "$("$program" "${demo[@]}" --store "$top/none/a" --store "$top/none/b" </dev/null; echo "$?")" "$usage"$'\n2'
case_is 'a folder in place of a store' "$("$program" "${demo[@]}" --store "$top" </dev/null; echo "$?")" $'keeper fault\n6'
case_is 'help among other words' "$("$program" call --help --cache 15 <&- | grep -c -e '--modules' -e '--listen'; echo "${PIPESTATUS[0]}")" $'2\n0'
case_is 'the version' "$("$program" later --version <&-; echo "$?")" $'stockd 0.1.0\n0'
case_is 'a shut output of help' "$("$program" --help 2>&1 >&-; echo "$?")" 5
case_is 'a shut input' "$("$program" "${demo[@]}" <&-; echo "$?")" $'read fault\n4'
case_is 'a shut output' "$("$program" "${demo[@]}" <"$top/examples/first.jsonl" 2>&1 >&-; echo "$?")" 5
case_is 'other words and a shut output' "$("$program" later 2>&1 >&-; echo "$?")" 2
case_is 'a shut output of an audit' "$("$program" audit "${demo[@]:1}" 2>&1 >&-; echo "$?")" 5
exit "$failed"
