#!/bin/sh
# The backup of a night, for cron: run it in the folder that has ./rman, examples/, objects/ and catalog. What it copies
# to kept/, which is better on another disk, stands there for a week: kept/1 is of Monday.
script=examples/every_night.rman
day=$(date +%u)
[ "$day" -ne 7 ] || script=examples/every_sunday.rman
mkdir -p kept
./rman --store objects --catalog catalog < "$script" >> kept/replies
status=$?
[ $status -le 1 ] || exit $status
rm -rf kept/new && mkdir kept/new && cp -r objects catalog* kept/new || exit 1
rm -rf "kept/$day" && mv kept/new "kept/$day" && exit $status
