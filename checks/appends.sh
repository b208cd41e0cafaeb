#!/usr/bin/env bash
# Twenty processes, each of which appends to one table in a loop until all its commits are acknowledged. Each acknowledged
# commit stands exactly once, at its version, and there are no others.
. "$(dirname "${BASH_SOURCE[0]}")/harness.bash"

processes=20
each=5
tries=500
table=$work/table
mkdir "$table"
printf '%s\n%s\n' '{"protocol":{"minReaderVersion":1,"minWriterVersion":2}}' '{"metaData":{"id":"t","schemaString":"{}"}}' |
    "$program" "$table" commit >/dev/null || fail "the first commit: status $?"

# Who isn't given the lock has status 3, and who was too late twice has status 14: both begin again.
append() {
    for number in $(seq "$each"); do
        path=file-$1-$number
        status=3
        for _ in $(seq "$tries"); do
            printf '{"add":{"path":"%s","size":1,"modificationTime":5}}\n' "$path" |
                "$program" "$table" commit >"$work/answer-$1" 2>"$work/error-$1"
            status=$?
            echo "$status" >>"$work/tries-$1"
            case $status in
                3 | 14) sleep "0.0$((RANDOM % 9 + 1))" ;;
                *) break ;;
            esac
        done
        [ "$status" -eq 0 ] || { echo "$path: status $status: $(cat "$work/error-$1")" >>"$work/refused"; return; }
        echo "$(sed -n 's/^{"committed":{"version":\([0-9]*\)}}$/\1/p' "$work/answer-$1") $path" >>"$work/made-$1"
    done
}
for process in $(seq "$processes"); do
    append "$process" &
done
wait

[ -e "$work/refused" ] && fail "$(cat "$work/refused")"
cat "$work"/made-* >"$work/made"
[ "$(wc -l <"$work/made")" -eq $((processes * each)) ] || fail "$(wc -l <"$work/made") of $((processes * each)) were acknowledged"
[ "$(cut -d ' ' -f 1 "$work/made" | sort -nu | wc -l)" -eq $((processes * each)) ] || fail "two commits were acknowledged at one version"
while read -r version path; do
    commit=$(printf '%s/_delta_log/%020d.json' "$table" "$version")
    grep -q "\"path\":\"$path\"" "$commit" || fail "$path isn't at its version $version"
    [ "$(cat "$table"/_delta_log/*.json | grep -c "\"path\":\"$path\"")" -eq 1 ] || fail "$path doesn't stand once"
done <"$work/made"
[ "$(ls "$table/_delta_log" | grep -c '^[0-9]*\.json$')" -eq $((processes * each + 1)) ] || fail "there are other commits than those that were acknowledged"
"$program" "$table" show >"$work/shown" || fail "show: status $?"
[ "$(grep -c '^{"add":' "$work/shown")" -eq $((processes * each)) ] || fail "show has other files than those that were acknowledged"

echo "$processes processes: $(wc -l <"$work/made") commits acknowledged in $(cat "$work"/tries-* | wc -l) tries; $failed failed"
[ "$failed" -eq 0 ]
