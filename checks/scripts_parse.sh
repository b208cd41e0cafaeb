#!/usr/bin/env bash
# Every shell script of the repository parses.
set -u
cd "$(dirname "${BASH_SOURCE[0]}")/.." || exit 1
status=0
for script in .ci/run deltak checks/*.sh checks/*.bash; do
    case $script:$(head -n 1 "$script") in
        *bash | *.bash:*) shell=bash ;;
        *) shell=sh ;;
    esac
    "$shell" -n "$script" || { echo "$script does not parse"; status=1; }
done
exit "$status"
