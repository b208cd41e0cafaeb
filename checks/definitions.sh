#!/usr/bin/env bash
# docs/DEFINITIONS.md says of each definition that a public contract names what the comment above it says. Where it has
# fallen behind, `python3 checks/definitions.py --write` writes it anew.
cd "$(dirname "${BASH_SOURCE[0]}")/.." || exit 1
python3 checks/definitions.py
