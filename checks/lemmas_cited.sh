#!/usr/bin/env bash
# Each lemma that docs/PROVING.md names is in proofs/ of its crate, and what it says to cite is public.
cd "$(dirname "${BASH_SOURCE[0]}")/.." || exit 1
python3 checks/lemmas_cited.py
