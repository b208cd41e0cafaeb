#!/usr/bin/env bash
# The checkpoints of other producers are those that their generator makes from the documents of the formats.
cd "$(dirname "${BASH_SOURCE[0]}")/.." || exit 1
python3 checks/checkpoint_files.py --check && echo "the checkpoints of other producers are as they are generated"
