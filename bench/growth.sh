#!/usr/bin/env bash
# Tells how what PROGRAM (./rman) takes grows with what there is, and tries what it then answers:
#     bench/growth.sh [PROGRAM]
# The opening of a catalog of 32,768 records and of twice as many, which are marks that sqlite3 writes; the reading of scripts of
# 1, 2 and 4 MiB, whose WRITEs are refused since there is no database; 10,000 WRITEs over no archived log and over 16,000; and the
# DELETE EXPIRED of 1,000 of these logs in one list of edits, beside sqlite3's shell, which deletes the same 1,000 rows by their
# keys. Each figure is the shortest of five sessions, less the shortest of five without what is measured, each over what the
# sessions before left. The folder and the catalog file lie in memory where there is /dev/shm. At the end a log is filled.
set -euo pipefail
cd "$(dirname "$0")/.."
program=${1:-./rman}
room=$(mktemp -d)
place=$room
[ ! -w /dev/shm ] || place=$(mktemp -d -p /dev/shm)
trap 'rm -rf "$room" "$place"' EXIT

run() {
    "$program" --store "$place/objects" --catalog "$place/catalog"
}

: | run > /dev/null

# What the next sessions begin with is what stands now.
keep() {
    rm -rf "$place/kept"
    mkdir "$place/kept"
    cp "$place/catalog"* "$place/kept"
    [ ! -d "$place/objects" ] || cp -r "$place/objects" "$place/kept"
}

again() {
    rm -rf "$place/objects" "$place/catalog"*
    cp -r "$place/kept/." "$place"
}

# The shortest of five sessions of a script, each over what was kept. What the last one wrote is in out, and what it left stays.
shortest() {
    local best=
    for _ in 1 2 3 4 5; do
        local start end micros
        again
        start=$(date +%s%N)
        run < "$1" > "$room/out" || true
        end=$(date +%s%N)
        micros=$(((end - start) / 1000))
        [ -n "$best" ] && [ "$best" -le "$micros" ] || best=$micros
    done
    echo "$best"
}

# A database of one datafile, as it was saved, over nothing.
begin() {
    rm -rf "$place/objects" "$place/catalog"*
    echo 'CREATE DATABASE; CREATE DATAFILE BLOCKS 1;' | run > /dev/null
}

rows() {
    sqlite3 "$place/catalog" "SELECT count(*) FROM record${1:+ WHERE $1};"
}

# What was wanted, and what came.
same() {
    [ "$1" = "$2" ] || { echo "DIFFERENT: $1, and it is $2" >&2; exit 1; }
}

percent() {
    echo "$(($1 * 100 / $2)) %"
}

echo 'SHOW ALL;' > "$room/show"

# The opening of a catalog of so many records, the most of them marks of the first mark's bytes.
opening() {
    begin
    sqlite3 "$place/catalog" "INSERT INTO record SELECT number, 6, value, body FROM record, generate_series(2, 1 + $1 - $(rows)) WHERE kind = 6 AND id = 1;"
    same "$1" "$(rows)"
    keep
    shortest "$room/show"
}

begin
keep
few=$(shortest "$room/show")
once=$(($(opening 32768) - few))
twice=$(($(opening 65536) - few))
echo "opening: 32768 records $once us, 65536 $twice us, second / first $(percent "$twice" "$once")"

# A script of so many bytes: one statement again and again, and line feeds behind the last.
script() {
    awk -v bytes="$1" 'BEGIN {
        line = "WRITE DATAFILE 1 BLOCK 0 VALUE '\''AA'\'';"
        for (left = bytes; left > length(line); left -= length(line) + 1) print line
        for (; left > 0; left--) print ""
    }'
}

rm -rf "$place/objects" "$place/catalog"*
run < /dev/null
keep
: > "$room/nothing"
none=$(shortest "$room/nothing")
before=
for bytes in 1048576 2097152 4194304; do
    script "$bytes" > "$room/script"
    same "$bytes" "$(wc -c < "$room/script")"
    took=$(($(shortest "$room/script") - none))
    same "$((bytes / 37))" "$(grep -c '^RM-02: no database$' "$room/out")"
    echo "script: $bytes bytes, $((bytes / 37)) statements refused $took us${before:+, beside half as many bytes $(percent "$took" "$before")}"
    before=$took
done

# So many WRITEs.
writes() {
    awk -v count="$1" 'BEGIN { for (i = 0; i < count; i++) print "WRITE DATAFILE 1 BLOCK 0 VALUE '\''A'\'';" }'
}

# How long 10,000 WRITEs take over what was kept.
written() {
    local show
    show=$(shortest "$room/show")
    echo "$(($(shortest "$room/writes") - show))"
    same 10000 "$(grep -c '^scn ' "$room/out")"
}

writes 10000 > "$room/writes"
begin
keep
over_none=$(written)
awk 'BEGIN { for (i = 0; i < 16000; i++) print "WRITE DATAFILE 1 BLOCK 0 VALUE '\''A'\''; ALTER SYSTEM SWITCH LOGFILE;" }' | run > /dev/null
same 16000 "$(rows 'kind = 4')"
keep
over_many=$(written)
echo "writes: 10000 WRITEs over no log $over_none us, over 16000 logs $over_many us, second / first $(percent "$over_many" "$over_none")"

# Each sixteenth log is lost, and a crosscheck finds it so.
again
sqlite3 "$place/catalog" 'SELECT id FROM record WHERE kind = 4 ORDER BY id;' | awk 'NR % 16 == 0' > "$room/lost"
same 1000 "$(wc -l < "$room/lost")"
sed "s|^|$place/objects/log_|" "$room/lost" | xargs rm
echo 'CROSSCHECK ARCHIVELOG ALL;' | run > /dev/null
keep
(echo 'BEGIN;' && sed 's/.*/DELETE FROM record WHERE number = 0 AND kind = 4 AND id = &;/' "$room/lost" && echo 'COMMIT;') > "$room/deletes"
bare=
for _ in 1 2 3 4 5; do
    again
    start=$(date +%s%N)
    sqlite3 "$place/catalog" < "$room/deletes"
    end=$(date +%s%N)
    micros=$(((end - start) / 1000))
    [ -n "$bare" ] && [ "$bare" -le "$micros" ] || bare=$micros
done
left="kind = 4 ORDER BY id"
wanted=$(sqlite3 "$place/catalog" "SELECT id, hex(body) FROM record WHERE $left;" | sha256sum)
show=$(shortest "$room/show")
echo 'DELETE EXPIRED ARCHIVELOG ALL;' > "$room/expired"
took=$(($(shortest "$room/expired") - show))
same "$wanted" "$(sqlite3 "$place/catalog" "SELECT id, hex(body) FROM record WHERE $left;" | sha256sum)"
echo "drops: 1000 of 16000 logs deleted in $took us, by sqlite3 $bare us, $(percent "$took" "$bare"); the opening $((show - few)) us"

# A log takes 65,536 changes and no more, and after a switch it takes more. (The parts of the saved site have the ids 1 and 2.)
begin
(writes 65537 && echo 'ALTER SYSTEM SWITCH LOGFILE;' && writes 1) | run > "$room/out" || true
same 'RM-11: limit log records 65536
log 3 thread 1 sequence 1 first 1 next 65538
scn 65538' "$(tail -n 3 "$room/out")"
echo 'a log: 65536 changes fill it'
