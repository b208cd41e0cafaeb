#!/usr/bin/env bash
# The Parquet files in the styles of several writers are those that their generator makes from the format's documents.
cd "$(dirname "${BASH_SOURCE[0]}")/.." || exit 1
python3 checks/parquet_files.py --check && echo "the files in the styles of several writers are as they are generated"
