#!/usr/bin/env bash
# Tells the time of scripts from end to end, run by PROGRAM (./rman):
#     bench/scripts.sh [PROGRAM]
# It is the shortest of five runs of each script, less the shortest of the same
# script without the statements that are measured. Beside BACKUP, by 1, 2 and 4 channels, and RECOVER of a database of
# 8 MB stands the shortest of five runs of sha256sum on a file as long as the two pieces. Then the database is lost: beside its RESTORE and
# RECOVER, from a level 0 and a log of 65,536 records, stands sha256sum of these objects; then come RECOVER from 1, 4 and 16 logs of 4,096
# records each, and RECOVER and RECOVER COPY over 1, 4 and 16 level 1s of 4,096 blocks each, without a log. These are sessions of their
# own over what an earlier one left, the shortest of seven, less one that only shows the settings: what they save at their end is in it.
set -euo pipefail
cd "$(dirname "$0")/.."
program=${1:-./rman}
room=$(mktemp -d)
place=$room
[ ! -w /dev/shm ] || place=$(mktemp -d -p /dev/shm)
trap 'rm -rf "$room" "$place"' EXIT
: | "$program" --store "$place/objects" --catalog "$place/catalog" > /dev/null

# The shortest of five runs of a command, in microseconds.
shortest() {
    local best=
    for _ in 1 2 3 4 5; do
        local start end
        start=$(date +%s%N)
        "$@" > /dev/null || true
        end=$(date +%s%N)
        local micros=$(((end - start) / 1000))
        [ -n "$best" ] && [ "$best" -le "$micros" ] || best=$micros
    done
    echo "$best"
}

# With the number of channels, if there is one.
run_script() {
    rm -rf "$place/objects" "$place/catalog"*
    "$program" --store "$place/objects" --catalog "$place/catalog" ${2:+--channels "$2"} < "$1"
}

database() {
    echo 'CREATE DATABASE; CREATE DATAFILE BLOCKS 65536; CREATE DATAFILE BLOCKS 65536;'
}

database > "$room/none"
(database && echo 'BACKUP DATABASE;') > "$room/backup"
(database && echo 'BACKUP DATABASE; SHUTDOWN; RECOVER DATABASE;') > "$room/recover"
head -c 9961636 /dev/urandom > "$room/bytes"
none=$(shortest run_script "$room/none")
backup=$(shortest run_script "$room/backup")
recover=$(shortest run_script "$room/recover")
digest=$(shortest sha256sum "$room/bytes")
echo "backup: 131072 blocks in $((backup - none)) us, sha256sum of 9961636 bytes $digest us, $(((backup - none) * 100 / digest)) %"
for channels in 2 4; do
    by_channels=$(shortest run_script "$room/backup" "$channels")
    recover_by=$(shortest run_script "$room/recover" "$channels")
    echo "backup by $channels channels: 131072 blocks in $((by_channels - none)) us, $(((by_channels - none) * 100 / digest)) %"
    echo "recover by $channels channels: 131072 blocks in $((recover_by - by_channels)) us, $(((recover_by - by_channels) * 100 / digest)) %"
done
echo "recover: 131072 blocks in $((recover - backup)) us, sha256sum of 9961636 bytes $digest us, $(((recover - backup) * 100 / digest)) %"

# Writes number $1 to $2 - 1, over both datafiles.
writes() {
    awk -v from="$1" -v to="$2" 'BEGIN {
        for (i = from; i < to; i++)
            printf "WRITE DATAFILE %d BLOCK %d VALUE '\''%d'\'';\n", i % 2 + 1, i * 40503 % 65536, i
    }'
}

lose() {
    echo 'HOST LOSE DATAFILE 1; HOST LOSE DATAFILE 2; STARTUP FORCE MOUNT;'
}

# The shortest of seven sessions of this statement alone, each over what the session before left.
next_session() {
    local best=
    for _ in 1 2 3 4 5 6 7; do
        rm -rf "$place/objects" "$place/catalog"* && cp -r "$place/before/." "$place"
        local start end micros
        start=$(date +%s%N)
        echo "$1" | "$program" --store "$place/objects" --catalog "$place/catalog" > /dev/null
        end=$(date +%s%N)
        micros=$(((end - start) / 1000))
        [ -n "$best" ] && [ "$best" -le "$micros" ] || best=$micros
    done
    echo "$best"
}

# What the next sessions begin with is what this script leaves.
begin_with() {
    run_script "$1" > /dev/null
    rm -rf "$place/before" && mkdir "$place/before" && cp -r "$place/objects" "$place/catalog"* "$place/before"
    show=$(next_session 'SHOW ALL;')
}

(database && echo 'BACKUP INCREMENTAL LEVEL 0 DATABASE;' && writes 0 65536 && echo 'ALTER SYSTEM ARCHIVE LOG CURRENT;' && lose) > "$room/lost"
(cat "$room/lost" && echo 'RESTORE DATABASE;') > "$room/restored"
head -c 15204586 /dev/urandom > "$room/bytes"
digest=$(shortest sha256sum "$room/bytes")
begin_with "$room/lost"
restore=$(($(next_session 'RESTORE DATABASE;') - show))
echo "restore of a lost database: $restore us, sha256sum of 15204586 bytes $digest us, $((restore * 100 / digest)) %"
begin_with "$room/restored"
recover=$(($(next_session 'RECOVER DATABASE;') - show))
echo "recover of a lost database: $recover us, sha256sum of 15204586 bytes $digest us, $((recover * 100 / digest)) %"

for logs in 1 4 16; do
    (database && echo 'BACKUP DATABASE;'
        for k in $(seq 0 $((logs - 1))); do
            writes $((k * 4096)) $((k * 4096 + 4096))
            echo 'ALTER SYSTEM SWITCH LOGFILE;'
        done
        lose && echo 'RESTORE DATABASE;') > "$room/restored"
    begin_with "$room/restored"
    echo "recover from $logs logs of 4096 records: $(($(next_session 'RECOVER DATABASE;') - show)) us"
done

for level1s in 1 4 16; do
    (database && echo 'BACKUP INCREMENTAL LEVEL 1 FOR RECOVER OF COPY WITH TAG inc DATABASE;'
        for k in $(seq 0 $((level1s - 1))); do
            writes $((k * 4096)) $((k * 4096 + 4096))
            echo 'BACKUP INCREMENTAL LEVEL 1 FOR RECOVER OF COPY WITH TAG inc DATABASE;'
        done
        echo 'HOST LOSE LOG THREAD 1;' && lose && echo 'RESTORE DATABASE;') > "$room/restored"
    begin_with "$room/restored"
    recover=$(next_session 'RECOVER DATABASE;')
    renewed=$(next_session 'RECOVER COPY OF DATABASE WITH TAG inc;')
    echo "recover from $level1s level 1s of 4096 blocks: $((recover - show)) us; recover copy over them: $((renewed - show)) us"
done
