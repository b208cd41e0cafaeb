#!/usr/bin/env bash
# The worked cases of checks/cases.txt over the built program: what it prints, says and ends with for folders that
# other writers left, and for inputs of its own.
. "$(dirname "${BASH_SOURCE[0]}")/harness.bash"
python3 checks/cases.py "$program" checks/cases.txt "$work"
