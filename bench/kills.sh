#!/usr/bin/env bash
# Kills the program at random moments of a session, over a folder and a catalog file:
#     bench/kills.sh [TIMES] [PROGRAM]
# TIMES is how often (100), PROGRAM what is killed (./rman). Before each kill a whole session made a backup of two datafiles.
# After it the next session opens, VALIDATE ALL finds no bad object, and the backup tells its checkpoint: a recovery until it, as
# a test, has no gap. What the killed session answered with `piece` is listed. Each third time the killed session itself is one
# that goes on. Each second kill comes after the first reply, the others may come while the site is opened.
set -euo pipefail
cd "$(dirname "$0")/.."
times=${1:-100}
program=${2:-./rman}
room=$(mktemp -d)
trap 'rm -rf "$room"' EXIT
: | "$program" --store "$room/none" --catalog "$room/nothing" > /dev/null

run() {
    "$program" --store "$room/objects" --catalog "$room/catalog"
}

# Many statements of each kind that puts objects or applies edits.
busy() {
    for i in $(seq 1 40); do
        echo "WRITE DATAFILE $((i % 2 + 1)) BLOCK $((i * 7 % 64)) VALUE 'k$i'; BACKUP DATABASE; WRITE DATAFILE 1 BLOCK 1 VALUE 'x$i';"
        echo "ALTER SYSTEM ARCHIVE LOG CURRENT; BACKUP ARCHIVELOG ALL;"
    done
}

fail() {
    echo "FAILED at kill $1: $2"
    cat "$room/next"
    exit 1
}

await_reply() {
    for _ in $(seq 1 500); do
        [ ! -s "$room/killed" ] || return 0
        sleep 0.01
    done
}

begin() {
    rm -rf "$room/objects" "$room/catalog"*
    {
        echo "CREATE DATABASE; CREATE DATAFILE BLOCKS 64; CREATE DATAFILE BLOCKS 64;"
        echo "WRITE DATAFILE 1 BLOCK 0 VALUE 'A'; WRITE DATAFILE 2 BLOCK 0 VALUE 'B'; BACKUP DATABASE;"
    } | run > "$room/first"
}

begin
acknowledged=0
opened=0
for k in $(seq 1 "$times"); do
    [ $((k % 3)) -eq 0 ] || begin
    : > "$room/killed"
    { busy | run > "$room/killed"; } 2> /dev/null &
    [ $((k % 2)) -eq 0 ] || await_reply
    sleep "0.$(printf '%03d' $((RANDOM % 300)))"
    pkill -9 -f -- "--store $room/objects" || true
    wait 2> /dev/null || true
    status=0
    printf 'VALIDATE ALL; LIST BACKUP; RECOVER DATABASE UNTIL SCN 5 TEST;\n' | run > "$room/next" || status=$?
    [ "$status" -eq 0 ] || fail "$k" "the next session ended with $status"
    grep -q ' checked, 0 bad$' "$room/next" || fail "$k" 'a bad object'
    grep -q '^until 5 of incarnation 1: files 2$' "$room/next" || fail "$k" 'no recovery'
    grep -o '^piece [0-9]*' "$room/killed" > "$room/told" || true
    while read -r piece; do
        grep -q "^$piece " "$room/next" || fail "$k" "$piece was answered and is gone"
    done < "$room/told"
    acknowledged=$((acknowledged + $(wc -l < "$room/told")))
    opened=$((opened + 1))
done
echo "$opened kills, $acknowledged pieces that were answered, none bad or lost"
