#!/usr/bin/env bash
# What counts as an object in a real folder. A folder and a name without a meaning are passed over; what is named as a
# part of the log and can't be read is a fault, whether a command reads or writes, and never looks absent or present.
. "$(dirname "${BASH_SOURCE[0]}")/harness.bash"
tried=0
second=_delta_log/00000000000000000001.json
add='{"add":{"path":"one","size":1,"modificationTime":5}}'

# answers NAME COMMAND STATUS: what the command answers over the folder in `table`
answers() {
    echo "$add" | "$program" "$table" "$2" >"$work/out" 2>"$work/err"
    got=$?
    tried=$((tried + 1))
    [ "$got" -eq "$3" ] || fail "$1: $2 has status $got, not $3; standard error '$(cat "$work/err")'"
    if [ "$3" -eq 3 ]; then
        [ "$(cat "$work/err")" = 'deltak: {"store":{}}' ] || fail "$1: $2 says '$(cat "$work/err")'"
    fi
}

# row NAME SHOW COMMIT COMMAND..: a table of one commit, where the command, run in its folder, makes one thing more
row() {
    name=$1 show=$2 commit=$3
    shift 3
    table=$work/table
    mkdir "$table"
    printf '%s\n' '{"protocol":{"minReaderVersion":1,"minWriterVersion":2}}' '{"metaData":{"id":"t","schemaString":"{}"}}' |
        "$program" "$table" commit >"$work/out" || fail "$name: the first commit has status $?"
    (cd "$table" && "$@") || fail "$name: '$*' has status $?"
    answers "$name" show "$show"
    answers "$name" commit "$commit"
    chmod -R u+rwX "$table" 2>/dev/null
    rm -rf "$table"
}

copy_commit() { cp _delta_log/00000000000000000000.json elsewhere && ln -s ../elsewhere "$second"; }
hide_commit() { echo "$add" >"$second" && chmod 000 "$second"; }
hide_beside() { mkdir hidden && echo "$add" >hidden/commit && ln -s ../hidden/commit "$second" && chmod 000 hidden; }
replace_log() { rm -r _delta_log && touch _delta_log; }
lead_log_nowhere() { rm -r _delta_log && ln -s nowhere _delta_log; }

row 'a link that leads nowhere, named as a commit' 3 3 ln -s nowhere "$second"
row 'a link that leads round, named as a commit' 3 3 ln -s 00000000000000000001.json "$second"
row 'a pipe named as a commit' 3 3 mkfifo "$second"
row 'a folder named as a commit' 0 3 mkdir "$second"
row 'a link to a folder, named as a commit' 0 3 ln -s .. "$second"
row 'a link to a commit' 0 0 copy_commit
row 'a link that leads nowhere, named as a checkpoint' 3 3 ln -s nowhere _delta_log/00000000000000000000.checkpoint.parquet
row 'a link that leads nowhere, with a name without a meaning' 0 0 ln -s nowhere _delta_log/notes
row 'a link that leads round, with a name without a meaning' 0 0 ln -s round _delta_log/round
row 'a pipe with a name without a meaning' 0 0 mkfifo _delta_log/pipe
row 'a file in place of the log' 3 3 replace_log
row 'a link that leads nowhere in place of the log' 3 3 lead_log_nowhere
if [ "$(id -u)" -ne 0 ]; then
    row 'a commit that may not be read' 3 3 hide_commit
    row 'a link into a folder that may not be looked into' 3 3 hide_beside
fi

echo "$tried answers over folders, $failed failed"
[ "$failed" -eq 0 ]
