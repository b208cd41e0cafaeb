#!/usr/bin/env bash
# What the program adds to the proved top call, where the table checks/cases.txt can't show it: folders that aren't there,
# entries that are no files, streams that fail, and sizes over the limits. Each has its exit status, its one line on
# standard error and nothing on standard output. That the clock or the random source fails isn't tried.
. "$(dirname "${BASH_SOURCE[0]}")/harness.bash"
tried=0

# compare NAME STATUS LINE GOT: what the last run left in out and err, and the status that it ended with
compare() {
    tried=$((tried + 1))
    if [ "$4" -ne "$2" ] || [ "$(cat "$work/err")" != "$3" ] || [ -s "$work/out" ]; then
        fail "$1: status $4, not $2; standard error '$(cat "$work/err")'"
    fi
}

# expect NAME STATUS LINE WORDS..: runs the program on the words, over what is standard input here
expect() {
    name=$1 wanted=$2 line=$3
    shift 3
    "$program" "$@" >"$work/out" 2>"$work/err"
    compare "$name" "$wanted" "$line" $?
}

first=_delta_log/00000000000000000000.json
protocol='{"protocol":{"minReaderVersion":1,"minWriterVersion":2}}'
metadata='{"metaData":{"id":"t","schemaString":"{}"}}'
# the folder of a table of one commit, with more of its lines
table() {
    mkdir -p "$work/$1/_delta_log"
    printf '%s\n' "$protocol" "$metadata" "${@:2}" >"$work/$1/$first"
}
exec </dev/null

# ---- words that aren't those of a command, beside the table
mkdir "$work/empty"
expect 'no folder' 2 'deltak: {"usage":{}}'
expect 'a word that is no text' 2 'deltak: {"usage":{}}' "$work/empty" $'\xff'

# ---- folders and entries
touch "$work/file"
expect 'a folder that is absent' 3 'deltak: {"store":{}}' "$work/absent" show
expect 'a commit to a folder that is absent' 3 'deltak: {"store":{}}' "$work/absent" commit
expect 'a file in place of the folder' 3 'deltak: {"store":{}}' "$work/file" show
table folder
mkdir "$work/folder/_delta_log/00000000000000000001.json"
cp "$work/folder/$first" "$work/folder/_delta_log/00000000000000000002.json"
expect 'a folder is no commit' 4 'deltak: {"missing":{"path":"_delta_log/00000000000000000001.json"}}' "$work/folder" show
table link
ln -s nowhere "$work/link/_delta_log/00000000000000000001.json"
expect 'a commit that is a link to nowhere' 3 'deltak: {"store":{}}' "$work/link" show
table locked
exec 9<"$work/locked"
flock 9
expect 'a folder that another program holds' 3 'deltak: {"store":{}}' "$work/locked" show
exec 9<&-

# ---- streams
table streams
expect 'an input that is a folder' 11 'deltak: {"source":{}}' "$work/streams" commit <"$work/empty"
"$program" "$work/streams" show >/dev/full 2>"$work/err"
got=$?
: >"$work/out"
compare 'an output that takes nothing' 10 'deltak: {"sink":{}}' "$got"

# ---- sizes
expect 'a line too many' 8 'deltak: {"limit":{"value":1000001,"which":"InputLines"}}' "$work/streams" commit < <(yes '' | head -n 1000001)
expect 'a line that is too long' 8 'deltak: {"limit":{"value":16777217,"which":"InputLine"}}' "$work/streams" commit \
    < <(head -c 16777217 /dev/zero | tr '\0' ' ')
expect 'an input that is too long' 8 'deltak: {"limit":{"value":268435457,"which":"Input"}}' "$work/streams" commit \
    < <(yes "$(printf '%4095s' '')" | head -c 268435457)
table large
truncate -s 268435457 "$work/large/_delta_log/00000000000000000001.json"
expect 'an object that is too large' 8 'deltak: {"limit":{"value":268435457,"which":"Object"}}' "$work/large" show
expect 'a commit after an object that is too large' 8 'deltak: {"limit":{"value":268435457,"which":"Object"}}' "$work/large" commit

echo "$((tried - failed)) of $tried refusals as wanted"
[ "$failed" -eq 0 ]
