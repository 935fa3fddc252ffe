#!/bin/sh
# Tells the lines of the page of figures:
#     bench/run.sh [PROGRAM [KERNELS]] | tee LINES | bench/page.py
# PROGRAM is the program as it was built (./rman), and KERNELS rm_bench, which is proved and built where it is not named. First come the
# kernels beside plain loops, the bytes of pieces and logs beside SHA-256 alone, gathering and planning, turns of a live database and
# its copies by channels; then sha256sum alone, and what PROGRAM takes: scripts.sh, growth.sh, sessions.sh, drill.py, sets.py and channels.py in time
# (this one of a program as it was built), then peak.py in memory, and level1.py, mending.py, functions.py and looking.py in instructions (likewise; they want valgrind).
# It takes some twenty minutes.
set -eu
cd "$(dirname "$0")/.."
program=${1:-./rman}
if [ $# -gt 1 ]; then
    "$2" large
else
    (cd crates/rm_bench && rt run -- large)
fi

size=4980818
file=$(mktemp)
trap 'rm -f "$file"' EXIT
head -c "$size" /dev/urandom > "$file"
files=
for _ in 1 2 3 4 5 6 7 8 9 10 11 12 13 14 15 16 17 18 19 20; do
    files="$files $file"
done
start=$(date +%s%N)
# shellcheck disable=SC2086
sha256sum $files > /dev/null
end=$(date +%s%N)
micros=$(((end - start) / 20000))
echo "sha256sum: $size bytes, $micros us, $((size / micros)) MB/s"

bench/scripts.sh "$program"
bench/growth.sh "$program"
bench/sessions.sh "$program"
bench/drill.py 0 "$program"
bench/sets.py --figures "$program"
if [ "$program" != ./rman ]; then
    bench/channels.py "$program" 9 "${2:-crates/rm_bench/out/rm_bench}"
    bench/peak.py "$program"
fi
if [ "$program" != ./rman ] && command -v valgrind > /dev/null; then
    bench/level1.py "$program"
    bench/mending.py --figures "$program"
    bench/functions.py "$program"
    bench/looking.py "$program"
fi
