#!/usr/bin/env bash
# The README's two commands name files that exist, each path that a document names in backquotes is there, and so is each source
# that docs/ARCHITECTURE.md names in the section of a crate.
set -u
cd "$(dirname "${BASH_SOURCE[0]}")/.." || exit 1
status=0
miss() { echo "$1"; status=1; }

grep -q '^\$ ./deltak examples/orders show$' README.md || miss "README.md doesn't have the command on the example table"
grep -q '^\$ rt ci$' README.md || miss "README.md doesn't have the command rt ci"
[ -x deltak ] || miss "deltak can't be run"
[ -d examples/orders/_delta_log ] || miss "examples/orders has no log"
[ -f crates.txt ] || miss "crates.txt is missing"

for document in README.md docs/*.md; do
    while read -r path; do
        [ -e "$path" ] || miss "$document names $path, which isn't there"
    done < <(grep -oE '`(crates|docs|examples|checks|bench)/[A-Za-z0-9_./-]+`' "$document" | tr -d '`' | sort -u)
done

while read -r crate source; do
    [ -n "$(find "crates/$crate/src" -path "*/$source")" ] || miss "docs/ARCHITECTURE.md names $source of $crate, which isn't there"
done < <(awk '/^### / { crate = $2 } /^## / { crate = "" } crate { while (match($0, /`[a-z_]+\.rt`/)) {
    print crate, substr($0, RSTART + 1, RLENGTH - 2); $0 = substr($0, RSTART + RLENGTH) } }' docs/ARCHITECTURE.md | sort -u)
exit "$status"
