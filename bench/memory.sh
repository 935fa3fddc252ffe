#!/usr/bin/env bash
# Lets each allocation of a session fail in turn, over a folder and a catalog file:
#     bench/memory.sh PROGRAM [ROW ..]
# PROGRAM is the program as it was built, and not the script ./rman. A ROW is one of crates/rm_test_rows/data, whose lines with `>` are its
# sessions; with none, those of sessions, backups and branches are run, by as many channels as CHANNELS says, if it is set. Each session is run once for each of its allocations, of which
# that one fails, over what the sessions before it left. What it writes is the beginning of what it writes with ample memory; its status
# is 7, or that of a device that failed for it (sqlite may call it a fault of the file), or the same; and the next session finds the records
# as they are behind the statements that were answered, or behind one more. It needs cc. The clock stands still. The threads of a BACKUP
# allocate in any order, and a block that is written meanwhile is read before or after its write: `high` is left out of what is compared.
set -euo pipefail
cd "$(dirname "$0")/.."
program=$(readlink -f "${1:?the built program}")
shift
[ $# -gt 0 ] || set -- two_sessions third_put_fails sessions_of_a_mounted_database merge_then_stays resetlogs_branch copy_cut_short backups_of_logs during settings
room=$(mktemp -d)
trap 'rm -rf "$room"' EXIT
probe='LIST BACKUP; LIST COPY; LIST ARCHIVELOG ALL; LIST INCARNATION; SHOW ALL; VALIDATE ALL;'

# Allocation FAILS_AT fails, and at the end ALLOCATIONS has how many there were.
cc -shared -fPIC -O2 -o "$room/failing.so" -x c - << 'END'
#include <errno.h>
#include <stdio.h>
#include <stdlib.h>
#include <sys/syscall.h>
#include <time.h>
#include <unistd.h>
extern void *__libc_malloc(size_t), *__libc_realloc(void *, size_t);
static long at, count;
__attribute__((constructor)) static void begin(void) { const char *s = getenv("FAILS_AT"); at = s ? atol(s) : 0; }
__attribute__((destructor)) static void end(void) {
    const char *name = getenv("ALLOCATIONS");
    at = 0;
    FILE *file = name ? fopen(name, "w") : 0;
    if (file) { fprintf(file, "%ld\n", count); fclose(file); }
}
__attribute__((noreturn)) void _exit(int status) { end(); for (;;) syscall(SYS_exit_group, status); }
static int fails(void) { if (__atomic_add_fetch(&count, 1, __ATOMIC_SEQ_CST) != at) return 0; errno = ENOMEM; return 1; }
void *malloc(size_t n) { return fails() ? 0 : __libc_malloc(n); }
void *realloc(void *p, size_t n) { return fails() ? 0 : __libc_realloc(p, n); }
int clock_gettime(clockid_t id, struct timespec *t) {
    if (id != CLOCK_REALTIME) return (int)syscall(SYS_clock_gettime, id, t);
    t->tv_sec = 1700000000;
    t->tv_nsec = 0;
    return 0;
}
END

# The statements of a session of a row, a line each.
statements() {
    awk -v session="$2" -v quote="'" '
        /^-- session/ { k++ }
        /^> / && k == session { text = text " " substr($0, 3) }
        END {
            for (i = 1; i <= length(text); i++) {
                c = substr(text, i, 1)
                one = one c
                if (c == quote) quoted = !quoted
                if (quoted) continue
                depth += (c == "{") - (c == "}")
                if (depth == 0 && (c == ";" || c == "}" && one ~ /^ *RUN/)) { print one; one = "" }
            }
        }' "crates/rm_test_rows/data/$1.row"
}

# Runs a script over what stands in `now`, where that allocation fails, and leaves its status in `status`.
run() {
    status=0
    FAILS_AT=$1 ALLOCATIONS=$room/allocations LD_PRELOAD=$room/failing.so \
        "$program" --store "$room/now/objects" --catalog "$room/now/catalog" ${CHANNELS:+--channels "$CHANNELS"} < "$2" > "$3" || status=$?
}

# What stands in `now` becomes what stood before the session.
again() {
    rm -rf "$room/now"
    cp -r "$room/before" "$room/now"
}

look() {
    echo "$probe" > "$room/probe"
    run 0 "$room/probe" "$1"
    sed -i 's/ high [0-9]*/ high ?/' "$1"
}

# How the records stand behind each number of statements, and what is written up to there.
prepare() {
    local all=$1
    for j in $(seq 0 "$all"); do
        again
        head -n "$j" "$room/script" > "$room/some"
        run 0 "$room/some" "$room/written.$j"
        usual=$status
        allocations=$(cat "$room/allocations")
        rm -rf "$room/after"
        cp -r "$room/now" "$room/after"
        look "$room/records.$j"
    done
}

# How many statements were answered by so many bytes.
answered() {
    local j=0
    while [ "$j" -lt "$2" ] && [ "$(stat -c %s "$room/written.$((j + 1))")" -le "$1" ]; do
        j=$((j + 1))
    done
    echo "$j"
}

fail() {
    echo "FAILED: $1"
    failures=$((failures + 1))
}

# One allocation fails.
try() {
    local name=$1 n=$2 all=$3 bytes j
    again
    run "$n" "$room/script" "$room/written"
    bytes=$(stat -c %s "$room/written")
    if [ "$status" -ge 3 ] && [ "$status" -le 7 ]; then
        stops[status]=$((stops[status] + 1))
    elif [ "$status" -ne "$usual" ] || [ "$bytes" -ne "$(stat -c %s "$room/written.$all")" ]; then
        fail "$name, allocation $n: status $status"
    fi
    cmp -s -n "$bytes" "$room/written" "$room/written.$all" || fail "$name, allocation $n: other replies"
    j=$(answered "$bytes" "$all")
    look "$room/records"
    cmp -s "$room/records" "$room/records.$j" || cmp -s "$room/records" "$room/records.$((j + 1))" \
        || fail "$name, allocation $n: other records behind $j statements"
}

failures=0
for row in "$@"; do
    rm -rf "$room/before"
    mkdir "$room/before"
    for session in $(seq 0 "$(grep -c '^-- session' "crates/rm_test_rows/data/$row.row" || true)"); do
        statements "$row" "$session" > "$room/script"
        all=$(wc -l < "$room/script")
        stops=(0 0 0 0 0 0 0 0)
        prepare "$all"
        for n in $(seq 1 "$allocations"); do
            try "$row, session $session" "$n" "$all"
        done
        echo "$row, session $session: $allocations allocations; status 3 ${stops[3]}, 4 ${stops[4]}, 5 ${stops[5]}, 6 ${stops[6]}, 7 ${stops[7]} times"
        rm -rf "$room/before"
        mv "$room/after" "$room/before"
        rm -f "$room"/written.* "$room"/records.*
    done
done
echo "$failures failures"
[ "$failures" -eq 0 ]
