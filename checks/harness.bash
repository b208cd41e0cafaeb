# What the checks over the built program share; they source it. It goes to the top of the repository, and leaves the program's path in
# `program`, a folder that goes at the end in `work`, and the number of what failed in `failed`.
set -u
cd "$(dirname "${BASH_SOURCE[0]}")/.." || exit 1
program=$PWD/crates/deltak/out/deltak
[ -x "$program" ] || { echo "$program isn't there: run rt ci first"; exit 1; }
work=$(mktemp -d)
trap 'rm -rf "$work"' EXIT
failed=0

# fail WORDS: tells what failed, and counts it
fail() { echo "$1"; failed=$((failed + 1)); }
