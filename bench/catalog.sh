#!/usr/bin/env bash
# Tries the catalog file and the folder of objects on real files, and tells figures:
#     bench/catalog.sh [DIR [KILLS]]
# DIR is a folder on the disk that is measured (a new one by default); KILLS is how often the program is killed while
# it applies (20). It needs sqlite3. The full disk needs the right to mount. A ratio is of two times that were taken
# one after the other; its median is of five.
set -euo pipefail
made=
if [ $# -gt 0 ]; then
    mkdir -p "$1"
    dir=$(cd "$1" && pwd)
else
    dir=$(mktemp -d)
    made=$dir
fi
kills=${2:-20}

clean() {
    cd /
    ! mountpoint -q "$dir/small" || umount "$dir/small"
    [ -z "$made" ] || rm -rf "$made"
}
trap clean EXIT

cd "$(dirname "$0")/../crates/rm_test_outside"
program=$PWD/out/rm_test_outside
# It is built where something has changed, and then only looks into a folder.
rt run -- names "$dir/none" 0 x > /dev/null 2> "$dir/built" || { cat "$dir/built"; exit 1; }
cd "$dir"

micros() { sed -n 's/.* in \([0-9]*\) us/\1/p' "$1"; }
millis() { awk -v us="$1" 'BEGIN {printf "%.1f ms", us / 1000}'; }
ratio() { awk -v a="$1" -v b="$2" 'BEGIN {printf "%.2f\n", a / b}'; }
median() { sort -n "$1" | sed -n 3p; }
timed() { local start end; start=$(date +%s%N); "$@"; end=$(date +%s%N); echo $(((end - start) / 1000)); }

# What the program writes stands in the file out.
call() { "$program" "$@" > out; }

# A call that is to succeed.
done_by() {
    call "$@"
    grep -q '^done in' out || { echo "FAILED: $*"; cat out; exit 1; }
}

check() {
    [ "$(sqlite3 "$1" 'pragma integrity_check')" = ok ] || { echo "NOT WHOLE: $1"; exit 1; }
}

echo '-- what sqlite3 reads'
rm -f read.db*
done_by applies read.db 3 x
sqlite3 read.db 'pragma integrity_check'
sqlite3 read.db 'select kind, id from record where number = 0' | tr '\n' ' '
echo
sqlite3 read.db 'select kind, id, hex(body) from record limit 2'
stat -c '%n %a' read.db

echo '-- 1,000 edits in one apply, beside sqlite3 with the text of the same rows'
: > ratios
: > wholes
for _ in 1 2 3 4 5; do
    rm -f one.db* two.db*
    whole=$(timed call logs one.db 1000 x)
    ours=$(micros out)
    {
        echo 'pragma journal_mode = wal; pragma synchronous = full; begin;'
        sqlite3 one.db '.schema record'
        sqlite3 one.db "select 'insert into record values (' || number || ',' || kind || ',' || id || ',x''' || hex(body) || ''');' from record"
        echo 'commit;'
    } > text
    theirs=$(timed sqlite3 two.db '.read text' | tail -1)
    [ "$(sqlite3 two.db 'select count(*) from record')" = 1000 ] || { echo 'sqlite3 wrote other rows'; exit 1; }
    ratio "$ours" "$theirs" >> ratios
    ratio "$whole" "$theirs" >> wholes
    echo "$(millis "$ours"), its program $(millis "$whole"), beside $(millis "$theirs"): $(ratio "$ours" "$theirs"), $(ratio "$whole" "$theirs")"
done
echo "median $(median ratios), of the whole program $(median wholes)"

# 500 transactions of three rows of the sizes of the base facts, a log and a mark.
transactions() {
    echo 'pragma journal_mode = wal; pragma synchronous = full;'
    sqlite3 one.db '.schema record'
    awk 'BEGIN {
        for (i = 0; i < 500; i++) {
            print "begin;"
            printf "insert or replace into record values (0, 1, 0, randomblob(31));\n"
            printf "insert or replace into record values (0, 4, %d, randomblob(68));\n", i
            printf "insert or replace into record values (0, 6, %d, randomblob(20));\n", i
            print "commit;"
        }
    }'
}

echo '-- 500 applies of three edits, beside as many transactions of sqlite3 of three rows of the same sizes'
: > ratios
for _ in 1 2 3 4 5; do
    rm -f one.db* two.db*
    done_by applies one.db 500 x
    ours=$(micros out)
    transactions > text
    theirs=$(timed sqlite3 two.db '.read text' | tail -1)
    [ "$(sqlite3 two.db 'select count(*) from record')" = 1001 ] || { echo 'sqlite3 wrote other rows'; exit 1; }
    ratio "$ours" "$theirs" >> ratios
    echo "$(millis "$ours") beside $(millis "$theirs"): $(ratio "$ours" "$theirs")"
done
echo "median $(median ratios)"

echo '-- 65,536 records: one apply, and a load'
: > applies
: > loads
for _ in 1 2 3 4 5; do
    rm -f one.db*
    done_by logs one.db 65536 x
    micros out >> applies
    done_by load one.db 0 x
    micros out >> loads
    echo "apply $(millis "$(tail -1 applies)"), load $(millis "$(tail -1 loads)")"
done
echo "median of apply $(millis "$(median applies)"), of load $(millis "$(median loads)")"
check one.db

echo '-- a put of 10 MB, beside cp and sync; its get'
head -c 10000000 /dev/urandom > ten
: > ratios
for _ in 1 2 3 4 5; do
    rm -rf objects copy
    mkdir copy
    done_by put objects 10000000 piece_1
    ours=$(micros out)
    theirs=$(timed sh -c 'cp ten copy/ten && sync copy/ten && sync copy')
    done_by get objects 0 piece_1
    ratio "$ours" "$theirs" >> ratios
    echo "$(millis "$ours") beside $(millis "$theirs"): $(ratio "$ours" "$theirs"); get $(millis "$(micros out)")"
done
echo "median $(median ratios)"
stat -c '%n %a %s' objects objects/piece_1

echo '-- a name in the folder that is no text'
touch "objects/$(printf 'x\377')"
"$program" names objects 0 x

echo '-- a FIFO is not there, and is not replaced; another program has the folder'
mkfifo objects/piece_3
"$program" get objects 0 piece_3 | tr '\n' ' '
"$program" put objects 10 piece_3 | tr '\n' ' '
stat -c %F objects/piece_3
flock objects/.rman-lock "$program" names objects 0 x

echo '-- a second program while the first applies'
rm -f one.db*
"$program" applies one.db 100000 x > first &
first=$!
until grep -q '^applied' first; do sleep 0.01; done
"$program" load one.db 0 x | tr '\n' ' '
sqlite3 one.db 'select count(*) from record' 2>&1 | tr '\n' ' ' || true
echo
kill -9 "$first"
wait "$first" 2> /dev/null || true

echo '-- killed while it applies'
bad=0
least=
most=0
for ((i = 0; i < kills; i++)); do
    rm -f kill.db*
    "$program" applies kill.db 100000 x > first 2>&1 &
    pid=$!
    sleep "0.$(printf '%03d' $((RANDOM % 300 + 5)))"
    kill -9 "$pid"
    wait "$pid" 2> /dev/null || true
    told=$(grep -c '^applied' first || true)
    done_by load kill.db 0 x
    check kill.db
    # (killed early it has not made its table yet)
    rows=$(sqlite3 kill.db 'select count(*) from record' 2> /dev/null || echo 0)
    # Each apply leaves two rows more, and the first one the base facts too. The last may not be told yet.
    applied=$((rows == 0 ? 0 : (rows - 1) / 2))
    if [ "$rows" != $((applied == 0 ? 0 : 2 * applied + 1)) ] || [ "$applied" -lt "$told" ] || [ "$applied" -gt $((told + 1)) ]; then
        echo "HALF OR LOST: rows $rows, acknowledged $told"
        bad=$((bad + 1))
    fi
    [ -n "$least" ] && [ "$least" -le "$told" ] || least=$told
    [ "$most" -ge "$told" ] || most=$told
done
echo "kills $kills after $least to $most applies, half or lost $bad"

echo '-- a full disk'
mkdir -p small
if mount -t tmpfs -o size=400k tmpfs small 2> /dev/null; then
    "$program" put small/objects 1000000 piece_1 | tr '\n' ' '
    echo "names $(find small/objects -type f ! -name '.*' | wc -l)"
    "$program" put small/objects 10000 piece_1 | tr '\n' ' '
    echo "names $(ls small/objects)"
    "$program" logs small/one.db 10000 x | tr '\n' ' '
    "$program" logs small/one.db 3 x | tr '\n' ' '
    echo "rows $(sqlite3 small/one.db 'select count(*) from record')"
    check small/one.db
else
    echo 'not tried: no right to mount'
fi
