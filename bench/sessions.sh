#!/usr/bin/env bash
# Tells what sessions of PROGRAM (./rman) cost, over a folder and a catalog file below TMPDIR:
#     bench/sessions.sh [PROGRAM]
# A session of 1,000 WRITEs, each of which puts the base facts with its moment, beside 1,000 bare transactions of the sqlite3
# shell, each of which puts a row of as many bytes, by a write-ahead log and one flush as ours; and the opening of a catalog of
# 65,536 records beside that of one of few. A figure is the shortest of five runs. The many records are marks, which sqlite3
# writes.
set -euo pipefail
cd "$(dirname "$0")/.."
program=${1:-./rman}
room=$(mktemp -d)
trap 'rm -rf "$room"' EXIT
: | "$program" --store "$room/none" --catalog "$room/nothing" > /dev/null

# A database of one datafile, as it was saved.
begin() {
    rm -rf "$room/objects" "$room/catalog"*
    echo 'CREATE DATABASE; CREATE DATAFILE BLOCKS 64;' | "$program" --store "$room/objects" --catalog "$room/catalog" > /dev/null
}

# Many marks more, of the first mark's bytes.
with_marks() {
    sqlite3 "$room/catalog" "INSERT INTO record SELECT number, 6, value, body FROM record, generate_series(2, $1) WHERE kind = 6 AND id = 1;"
}

# The shortest of five sessions of this script, each over a database as it was made by the words behind it.
shortest() {
    local script=$1 best=
    shift
    for _ in 1 2 3 4 5; do
        local start end micros
        "$@"
        start=$(date +%s%N)
        "$program" --store "$room/objects" --catalog "$room/catalog" < "$script" > "$room/out"
        end=$(date +%s%N)
        micros=$(((end - start) / 1000))
        [ -n "$best" ] && [ "$best" -le "$micros" ] || best=$micros
    done
    echo "$best"
}

large() {
    begin
    with_marks 65531
}

writes() {
    awk 'BEGIN { for (i = 0; i < 1000; i++) printf "WRITE DATAFILE 1 BLOCK %d VALUE '\''%d'\'';\n", i % 64, i }'
}

transactions() {
    echo 'PRAGMA journal_mode = WAL; PRAGMA synchronous = FULL; CREATE TABLE t (k INTEGER PRIMARY KEY, body BLOB NOT NULL) STRICT;'
    awk 'BEGIN { for (i = 0; i < 1000; i++) print "BEGIN; INSERT OR REPLACE INTO t VALUES (1, randomblob(31)); COMMIT;" }'
}

echo 'SHOW ALL;' > "$room/show"
writes > "$room/writes"
transactions > "$room/transactions"
show=$(shortest "$room/show" begin)
written=$(shortest "$room/writes" begin)
bare=
for _ in 1 2 3 4 5; do
    rm -f "$room/bare"*
    start=$(date +%s%N)
    sqlite3 "$room/bare" < "$room/transactions" > /dev/null
    end=$(date +%s%N)
    micros=$(((end - start) / 1000))
    [ -n "$bare" ] && [ "$bare" -le "$micros" ] || bare=$micros
done
echo "a session of 1000 WRITEs: $((written - show)) us, 1000 bare transactions $bare us, $(((written - show) * 100 / bare)) %"
opened=$(shortest "$room/show" large)
grep -q '^retention' "$room/out"
echo "opening: of a catalog of few records, with the program's start, $show us; of 65,536 records $opened us"
