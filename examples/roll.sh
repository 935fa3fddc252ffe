#!/bin/sh
# Rolls a standby forward, for cron: run it in the folder that has ./rman, objects/, catalog and standby/.
standby() {
    ./rman standby --store objects --to standby --catalog catalog "$@"
}
scn=$(standby --dump | sed -n 's/^until \([0-9]*\) .*/\1/p')
[ -n "$scn" ] || exit 1
echo "ALTER SYSTEM ARCHIVE LOG CURRENT; BACKUP INCREMENTAL FROM SCN $scn DATABASE;" > roll.rman
roll=$(./rman --store objects --catalog catalog < roll.rman | sed -n 's/^roll \([0-9]*\) .*/\1/p')
[ -n "$roll" ] || exit 1
standby --roll "$roll" && rm "objects/roll_$roll"
