#!/usr/bin/env bash
# Runs what the papers show, by PROGRAM (./rman), and compares what stands there:
#     bench/papers.sh [PROGRAM] [PAPER ..]
# PAPERs are README.md and docs/*.md, if none is named. A block is run that begins with one of these:
#     ```session [next] [status N] [examples/NAME.rman]
#         lines with `> ` are a script, the others the replies to it. The status is N, or 0. Where a script of examples/ is named, the block
#         has its lines.
#     ```shell [next]
#         a line with `$ ` is a command, and behind it stands all that it writes.
# Each is run in a fresh folder that has ./rman and examples/, or with `next` in the folder of the block before. It prints how many
# blocks there are; the status is 1 where one shows something else than what comes. At last docs/TRUSTED.md is compared to its sources,
# the rows of the gate to the sessions that they are made of, and links and the length of lines are looked at.
set -uo pipefail
cd "$(dirname "$0")/.." || exit 1
top=$PWD
program=$(readlink -f "${1:-./rman}")
[ $# -eq 0 ] || shift
[ $# -gt 0 ] || set -- README.md docs/*.md
room=$(mktemp -d)
trap 'rm -rf "$room"' EXIT
blocks=0 wrong=0

fresh_folder() {
    rm -rf "$room/here" && mkdir "$room/here"
    ln -s "$program" "$room/here/rman"
    ln -s "$top/examples" "$room/here/examples"
}

# The lines of the block $room/block with this mark, without it; and those without it that are not empty.
marked() {
    sed -n "s/^$1 \{0,1\}//p" "$room/block"
}

unmarked() {
    grep -v -e "^$1" -e '^$' "$room/block"
}

run_session() {
    local status=0
    marked '>' > "$room/script"
    (cd "$room/here" && ./rman --store objects --catalog catalog < "$room/script" 2>&1) > "$room/out" || status=$?
    [ "$status" -eq "$1" ] || echo "(the status is $status, not $1)" >> "$room/out"
    [ -z "$2" ] || cmp -s "$room/script" "$2" || echo "(the script is not $2)" >> "$room/out"
    unmarked '>' > "$room/shown"
}

run_shell() {
    local line
    unmarked '$.' > "$room/shown"
    marked '\$' > "$room/commands"
    while IFS= read -r line; do
        (cd "$room/here" && bash -c "$line" < /dev/null 2>&1)
    done < "$room/commands" > "$room/out"
}

# Runs the block that begins with the words behind PLACE.
run_block() {
    local place=$1 kind=$2 status=0 script='' is_next=no
    shift 2
    while [ $# -gt 0 ]; do
        case $1 in
            next) is_next=yes ;;
            status) status=$2 && shift ;;
            *) script=$1 ;;
        esac
        shift
    done
    [ "$is_next" = yes ] || fresh_folder
    if [ "$kind" = session ]; then run_session "$status" "$script"; else run_shell; fi
    blocks=$((blocks + 1))
    diff "$room/shown" "$room/out" > "$room/diff" && return
    wrong=$((wrong + 1))
    echo "$place: the paper shows <, and what comes is >"
    cat "$room/diff"
}

run_paper() {
    local line words='' at=0 begun=0
    while IFS= read -r line; do
        at=$((at + 1))
        case $line in
            '```session'* | '```shell'*) words=${line#'```'} begun=$at && : > "$room/block" ;;
            '```') [ -z "$words" ] || run_block "$1:$begun" $words; words='' ;;
            *) [ -z "$words" ] || printf '%s\n' "$line" >> "$room/block" ;;
        esac
    done < "$1"
}

for paper in "$@"; do
    run_paper "$paper"
done
echo "$blocks blocks of papers, $wrong of them wrong"
bench/trusted.py --check || wrong=$((wrong + 1))
bench/paper_rows.py --check || wrong=$((wrong + 1))
bench/links.py || wrong=$((wrong + 1))
[ "$wrong" -eq 0 ]
