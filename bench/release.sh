#!/usr/bin/env bash
# Renews release/ from what `rt ci` built:
#     bench/release.sh [FOLDER]
# FOLDER is the checkout in which it ran, this one if left out. It is refused where the sources there have another sum than those
# here, or changed since that run began. The status is 0 where release/ is renewed, 1 where it is refused, and stays as it was.
set -uo pipefail

top=$(dirname "$(dirname "$(readlink -f "$0")")")
# shellcheck source=release/sources.sh
source "$top/release/sources.sh" || exit 1

refuse() {
    printf 'release: %s\n' "$*" >&2
    exit 1
}

# Whether a file of the program's sources in the checkout $1 is younger than the file $2, which that gate has had open since its start.
changed_since() {
    local crate found
    while IFS= read -r crate; do
        found=$(find "$1/crates.txt" "$1/crates/$crate"/{src,specs,proofs} -newer "$2" -print -quit 2> /dev/null)
        [ -z "$found" ] || return 0
    done < <(program_crates "$1")
    return 1
}

# Refuses what is not, by all signs, what `rt ci` made of these sources in the checkout $1.
check_built() {
    local built=$1/crates/rman/out/rman began=$1/.git/rt-ci.lock
    [ -f "$1/crates.txt" ] || refuse "$1 is no checkout of this repository"
    [ "$(sum_of_sources "$1")" = "$sum" ] || refuse "the sources in $1 are not those here: their sums differ"
    [ -x "$built" ] || refuse "there is no $built: rt ci has not built it"
    [ -f "$began" ] || refuse "rt ci did not run in $1, or in a worktree: run it in a clone"
    [ ! -f "$built.stamp" ] || refuse "$built was built by rt run: run rt ci"
    [ -f "$1/crates/rman/out/stdout" ] || refuse "rt ci has not run the program in $1 yet: wait for its last line"
    ! changed_since "$1" "$began" || refuse "the sources in $1 changed since rt ci began there: run it again"
    "$built" < /dev/null > /dev/null 2>&1
    [ $? -eq 2 ] || refuse "$built does not refuse a call without words by status 2, by which ./rman sees that it runs"
}

# What the program needs of the system: the newest version of the C library that it names.
needs_of() {
    echo "Linux on x86-64 with $(grep -aoE 'GLIBC_[0-9]+\.[0-9]+' "$1" | LC_ALL=C sort -uV | tail -n 1 | sed 's/GLIBC_/glibc /')"
}

write_manifest() {
    printf '%s\n' \
        "sources $sum" \
        "kit $kit" \
        "program $(sum_of_file "$1")" \
        "needs $(needs_of "$1")" \
        "built by rt ci of that kit, which proved these sources; LLVM's build, packed by gzip -n -9"
}

folder=$(readlink -f "${1:-$top}") || refuse "there is no $1"
sum=$(sum_of_sources "$top") || refuse 'crates.txt names no program, or its sources can not be read'
kit=$(kit_identity) || refuse 'the command rt of the kit that ran rt ci is not on the PATH'
check_built "$folder"

new=$(mktemp -d "$top/release/new-XXXXXX") || refuse "release/ can't be written"
trap 'rm -rf "$new"' EXIT
if ! { gzip -n -9 -c < "$folder/crates/rman/out/rman" > "$new/rman.gz" && gzip -dc < "$new/rman.gz" > "$new/rman" && write_manifest "$new/rman" > "$new/manifest"; }; then
    refuse "the program can't be packed"
fi
cmp -s "$new/rman" "$folder/crates/rman/out/rman" || refuse 'the program changed while it was packed'
chmod 644 "$new/rman.gz" "$new/manifest"
mv -f "$new/rman.gz" "$new/manifest" "$top/release/" || refuse "release/ can't be written"
cat "$top/release/manifest"
