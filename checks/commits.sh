#!/usr/bin/env bash
# Commits over a real folder: the table that the README's words make, twenty programs at once, a writer that takes no lock, and
# programs that are killed. Each acknowledged commit stands once, at its version, whole; none is overwritten.
. "$(dirname "${BASH_SOURCE[0]}")/harness.bash"

protocol='{"protocol":{"minReaderVersion":1,"minWriterVersion":1}}'
metadata='{"metaData":{"id":"t","schemaString":"{}"}}'
add() { printf '{"add":{"path":"%s","size":1,"modificationTime":5}}\n' "$1"; }
# the table's first commit
begin() { mkdir -p "$1" && printf '%s\n%s\n' "$protocol" "$metadata" | "$program" "$1" commit >/dev/null; }
# the path of a version's commit
commit_of() { printf '%s/_delta_log/%020d.json' "$1" "$2"; }
# the version of an answer
version_of() { sed -n 's/^{"committed":{"version":\([0-9]*\)}}$/\1/p' "$1"; }

# a first commit, a second, and what show says
table=$work/first
begin "$table" || fail "the first commit: status $?"
add one | "$program" "$table" commit >"$work/out" || fail "the second commit: status $?"
[ "$(cat "$work/out")" = '{"committed":{"version":1}}' ] || fail "the second commit answered $(cat "$work/out")"
head -n 1 "$(commit_of "$table" 1)" | grep -q '^{"commitInfo":{"engineInfo":"deltak","timestamp":[0-9]*,"txnId":"[0-9a-f-]*"}}$' ||
    fail "the second commit begins with $(head -n 1 "$(commit_of "$table" 1)")"
"$program" "$table" show | grep -q '"path":"one"' || fail "show doesn't have the second commit's file"
"$program" "$table" show --at 0 | grep -q '"path":"one"' && fail "version 0 has the second commit's file"
printf '[1]' | "$program" "$table" commit >"$work/out" 2>"$work/err"
[ $? -eq 7 ] && [ "$(cat "$work/err")" = 'deltak: {"damaged":{"path":"-","place":1}}' ] || fail "a damaged input: $(cat "$work/err")"
printf '%s\n' "$(add two)" "$(add two)" | "$program" "$table" commit >"$work/out" 2>"$work/err"
[ $? -eq 12 ] && [ "$(cat "$work/err")" = 'deltak: {"invalid":{"rule":3}}' ] || fail "a broken rule: $(cat "$work/err")"
[ "$(ls "$table/_delta_log" | wc -l)" -eq 2 ] || fail "a refused commit left something: $(ls "$table/_delta_log")"

# twenty programs at once: who isn't given the lock has status 3
table=$work/many
begin "$table"
for i in $(seq 20); do
    ( add "file-$i" | "$program" "$table" commit >"$work/answer-$i" 2>"$work/answer-$i.err"; echo $? >"$work/status-$i" ) &
done
wait
acknowledged=0
for i in $(seq 20); do
    status=$(cat "$work/status-$i")
    case $status in
        0)
            acknowledged=$((acknowledged + 1))
            version=$(version_of "$work/answer-$i")
            grep -q "\"path\":\"file-$i\"" "$(commit_of "$table" "$version")" || fail "commit $i isn't at its version $version"
            [ "$(cat "$table"/_delta_log/*.json | grep -c "\"path\":\"file-$i\"")" -eq 1 ] || fail "commit $i doesn't stand once" ;;
        3) grep -q "\"path\":\"file-$i\"" "$table"/_delta_log/*.json && fail "commit $i stands and was refused" ;;
        *) fail "commit $i: status $status" ;;
    esac
done
[ "$acknowledged" -ge 1 ] || fail "none of twenty was acknowledged"
[ "$(ls "$table/_delta_log" | wc -l)" -eq $((acknowledged + 1)) ] || fail "there are other commits than the acknowledged ones"
"$program" "$table" show >"$work/out" || fail "show after twenty: status $?"
[ "$(grep -c '^{"add":' "$work/out")" -eq "$acknowledged" ] || fail "show has other files than the acknowledged ones"

# a writer that takes no lock makes the next names while commits run
table=$work/foreign
begin "$table"
(
    for i in $(seq 40); do
        add "foreign-$i" >"$work/foreign-text"
        next=$(ls "$table/_delta_log" | grep -c '^[0-9]*\.json$')
        ln "$work/foreign-text" "$(commit_of "$table" "$next")" 2>/dev/null && echo "$next foreign-$i" >>"$work/foreign-made"
        rm -f "$work/foreign-text"
    done
) &
foreign=$!
for i in $(seq 40); do
    add "own-$i" | "$program" "$table" commit >"$work/out" 2>/dev/null && echo "$(version_of "$work/out") own-$i" >>"$work/own-made"
done
wait "$foreign"
touch "$work/own-made" "$work/foreign-made"
[ -s "$work/own-made" ] || fail "no own commit beside the other writer"
while read -r version path; do
    grep -q "\"path\":\"$path\"" "$(commit_of "$table" "$version")" || fail "$path isn't at its version $version"
done < <(cat "$work/own-made" "$work/foreign-made")
[ "$(ls "$table/_delta_log" | grep -c '^[0-9]*\.json$')" -eq $(($(cat "$work/own-made" "$work/foreign-made" | wc -l) + 1)) ] ||
    fail "beside the other writer there are other commits than those that were made"
"$program" "$table" show >/dev/null || fail "show beside the other writer: status $?"

# programs that are killed leave the whole commit or none
table=$work/killed
begin "$table"
killed=0
for i in $(seq 100); do
    before=$(ls "$table/_delta_log" | grep -c '^[0-9]*\.json$')
    seq 2000 | sed "s|.*|{\"add\":{\"path\":\"killed-$i-&\",\"size\":1,\"modificationTime\":5}}|" >"$work/input"
    "$program" "$table" commit <"$work/input" >/dev/null 2>&1 &
    child=$!
    sleep "0.0$(printf '%02d' $((i % 25)))"
    kill -9 "$child" 2>/dev/null && killed=$((killed + 1))
    wait "$child" 2>/dev/null
    after=$(ls "$table/_delta_log" | grep -c '^[0-9]*\.json$')
    "$program" "$table" show >"$work/out" 2>"$work/err" || fail "show after kill $i: $(cat "$work/err")"
    has=$(grep -c "\"path\":\"killed-$i-" "$work/out")
    [ "$has" -eq $((2000 * (after - before))) ] || fail "kill $i left $after commits after $before, and $has of its files"
done

echo "twenty at once: $acknowledged acknowledged; beside another writer: $(wc -l <"$work/own-made") own, $(wc -l <"$work/foreign-made") foreign; $killed of 100 killed; $failed failed"
[ "$failed" -eq 0 ]
