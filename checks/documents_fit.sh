#!/usr/bin/env bash
# The lines of README.md and docs/ are short enough to read, the README's table has each document, and it says of how many
# crates the program is made.
cd "$(dirname "${BASH_SOURCE[0]}")/.." || exit 1
python3 checks/documents_fit.py
