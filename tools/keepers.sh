#!/usr/bin/env bash
# Gives the keeper in SQLite and the one in memory more random lists of changes than the gate does:
# tools/keepers.sh LISTS [SEED]. The room `keepers` of host_tests (its head says what it compares) is
# put by itself into a tree of its own, crates/host_tests/out/keepers, with these numbers in place of
# its own, is proved there, the first time in some minutes, and run. Each list goes to a database in
# memory, to files in memory and to a file. Ends with 1 where an answer differs; the test prints
# both then.
set -u
top=$(cd "$(dirname "$0")/.." && pwd)
lists=${1:?how many lists} seed=${2:-1}
[[ $lists$seed =~ ^[0-9]+$ ]] || { echo 'usage: tools/keepers.sh LISTS [SEED]' >&2; exit 2; }
place=$top/crates/host_tests/out
tree=$place/keepers own=$place/keepers/crates/host_tests

# The tree is made anew, but for what an earlier run has proved.
mkdir -p "$place" && rm -rf "$place/proved" || exit 1
[ ! -d "$own/out" ] || mv "$own/out" "$place/proved" || exit 1
rm -rf "$tree"
"$top/tools/build.sh" tree host_tests "$tree" || exit 1
[ ! -d "$place/proved" ] || { rm -rf "$own/out" && mv "$place/proved" "$own/out"; } || exit 1

# Of the other rooms the one that tells is needed. Each file of the tree is the repository's own by a
# second name, so a changed one is written anew.
rm -rf "$own/src" && mkdir "$own/src" && cp "$top/crates/host_tests/src/told.rt" "$own/src" || exit 1
awk '/^mod / && $2 != "keepers;" && $2 != "told;" { held = ""; next } held != "" { print held; held = "" } /^#\[cfg\(test\)\]$/ { held = $0; next } { print }' \
    "$top/crates/host_tests/src/lib.rt" >"$own/src/lib.rt"
sed "s/^const LISTS: u32 = .*;/const LISTS: u32 = $lists;/; s/^const SEED: u64 = .*;/const SEED: u64 = $seed;/" \
    "$top/crates/host_tests/src/keepers.rt" >"$own/src/keepers.rt"
for line in "const LISTS: u32 = $lists;" "const SEED: u64 = $seed;"; do
    grep -qx "$line" "$own/src/keepers.rt" || { echo "keepers.rt has no line '$line'" >&2; exit 1; }
done
cd "$own" && RT_SECONDS=${RT_SECONDS:-3600} rt test
