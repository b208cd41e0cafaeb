#!/usr/bin/env bash
# The commands that the README shows print what stands behind them there; and it shows each example table.
. "$(dirname "${BASH_SOURCE[0]}")/harness.bash"
for folder in examples/*/; do
    grep -qxF "\$ ./deltak ${folder%/} show" README.md || fail "README.md doesn't show ${folder%/}"
done
python3 checks/examples_print.py "$program" "$work" || fail 'README.md is to be mended'
[ "$failed" -eq 0 ]
