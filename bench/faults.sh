#!/usr/bin/env bash
# Tries the edge of the program from outside: a disk that fails, power cuts, two processes at once, full disks and wanting rights.
#     bench/faults.sh [PART [NUMBER [PROGRAM]]]
# PART is one of these, or all (the default); NUMBER is how often (else what stands behind the part), and PROGRAM the program as it was
# built (that of ./rman). Four sessions are run: one makes datafiles, writes and a level 0, one level 1s, archived logs and copies, one
# restores, recovers, opens with RESETLOGS and deletes, and one has sets, thread switches, tracking, writes meanwhile and a mended block.
# What the next session finds, and what comes of its way back, is held to what a stop of a session without a fault leaves behind the
# statements that were answered, or behind one more; and that to what replies tell.
#     calls   each call on a file of the store and the catalog fails, in each way: EIO, ENOSPC, EINTR, from there on all, half a write.
#             The status is that of the device, and a line names it. Each second time what a failed sync was to make safe is lost, and
#             a call of the next session fails (about 10,600)
#     cuts    the power is cut: a third keep what syncs made safe alone, a third all, a third some sectors of each write and any name that
#             a folder had since its sync. Each fourth time the next session is cut too, each fourth the one that goes on. A fifth
#             session is so long that the log of the catalog file is brought into it midway (1,000)
#     pairs   two sessions at once, by one catalog and by two: one has the folder, the other ends with 5 or 6 at once (200)
#     disks   a limit on files, and where it can be mounted a tmpfs with a few pages, of all or of the store alone; then the next session
#             asks where there is none (300)
#     rights  the folder, its parents, its lock, objects and the catalog without rights, for a user who is not root (69)
#     many    so many objects in the folder (65,536)
#     wrong   sessions that are begun wrongly: without standard streams, with a catalog in the folder under the name of an object, with a
#             file that is no catalog. What is refused leaves all files as they were
#     duplicates  each call of one fails, in each way, and the power is cut: the source is as it was, the new number has all of its records
#             or none, and the same words once more make it, or tell of what is taken (about 1,200)
#     standbys    each call of one that is made, and of one that is rolled, fails, in each way, and the power is cut, also between its put and
#             what it takes away: the database is as it was, the standby that of before or of after, and the same words once more make it
#     controls    the four sessions with a control file, and a long one: their calls fail, the power is cut, or the catalog alone fails from some
#             call on, so that up to 100 lists wait, and is back for the next session, which brings them (2,000)
# Each prints a line with its figures, and of each problem the first three; the status is 1 where one is bad, and FAULTS_SEED draws the
# same again; CHANNELS=4 runs all sessions by 4 channels. It wants python3 and cc, which builds bench/faults.c, and ends with 0 where there is none. TMPDIR has the files, or /dev/shm.
set -uo pipefail
cd "$(dirname "$0")/.." || exit 1
part=${1:-all}
case $part in
    all) parts='calls cuts pairs disks rights many wrong duplicates standbys controls' ;;
    calls | cuts | pairs | disks | rights | many | wrong | duplicates | standbys | controls) parts=$part ;;
    *)
        echo "$0: there is no part $part" >&2
        exit 2
        ;;
esac
for tool in cc python3; do
    if ! command -v "$tool" > /dev/null; then
        echo "there is no $tool on this machine: nothing was tried"
        exit 0
    fi
done

place=${TMPDIR:-/dev/shm}
[ -w "$place" ] || place=/tmp
room=$(mktemp -d -p "$place")
# shellcheck disable=SC2317
clean() {
    for disk in "$room/now/objects" "$room/now"; do
        ! mountpoint -q "$disk" || umount "$disk"
    done
    rm -rf "$room"
}
trap clean EXIT
chmod 755 "$room"
program=${3:-$(./rman --version | sed -n 's/^path //p')}
if [ -z "$program" ] || ! cp "$program" "$room/rman" || ! cc -shared -fPIC -O2 -o "$room/faults.so" bench/faults.c; then
    echo "$0: there is no program, or bench/faults.c can't be built" >&2
    exit 2
fi

status=0
for part in $parts; do
    case $part in
        duplicates) python3 -B bench/faults_duplicate.py "$room/rman" "$room/faults.so" "$room" "${2:-0}" ;;
        standbys) python3 -B bench/faults_standby.py "$room/rman" "$room/faults.so" "$room" "${2:-0}" ;;
        *) python3 -B bench/faults.py "$room/rman" "$room/faults.so" "$room" "$part" "${2:-0}" ;;
    esac || status=1
done
exit "$status"
