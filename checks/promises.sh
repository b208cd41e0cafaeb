#!/usr/bin/env bash
# Each crate, function, clause, definition, law and file that docs/PROMISES.md names is in the sources.
cd "$(dirname "${BASH_SOURCE[0]}")/.." || exit 1
python3 checks/promises.py
