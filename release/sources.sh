# shellcheck shell=bash
# What ./rman, .ci/run and bench/release.sh have in common, read by `source`: of which sources the program is made, and
# what release/manifest tells of the program in release/rman.gz. Nothing here wants the kit but kit_identity.

# The program's crate and those below it, one a line, by crates.txt of the checkout $1. Status 1 where there are none.
program_crates() {
    awk '{ sub(/#.*/, ""); gsub(/,/, " "); split($0, part, ":"); split(part[1], word, " ") }
        word[1] != "" { uses[word[1]] = part[2] }
        END {
            if (!("rman" in uses)) exit 1
            next_ones = "rman"
            while (split(next_ones, now, " ")) {
                next_ones = ""
                for (i in now) {
                    if (now[i] in seen) continue
                    seen[now[i]]
                    print now[i]
                    split(uses[now[i]], use, " ")
                    for (j in use) if (use[j] in uses) next_ones = next_ones " " use[j]
                }
            }
        }' "$1/crates.txt" | LC_ALL=C sort
}

# The lines that crates.txt of the checkout $1 has for the crates that follow, in their order.
lines_of() {
    local checkout=$1 crate
    shift
    for crate in "$@"; do
        grep "^${crate}[ :]" "$checkout/crates.txt" || return
    done
}

# SHA-256 of what the program is made of in the checkout $1: the lines of crates.txt for its crates, and then what sha256sum says of
# each file of their src, specs and proofs, by names that are sorted as bytes. What an editor leaves beside a file is no source.
sum_of_sources() (
    set -o pipefail
    mapfile -t crates < <(program_crates "$1")
    [ "${#crates[@]}" -gt 0 ] && cd "$1" || exit
    folders=()
    for crate in "${crates[@]}"; do
        for part in src specs proofs; do
            [ ! -d "crates/$crate/$part" ] || folders+=("crates/$crate/$part")
        done
    done
    [ "${#folders[@]}" -gt 0 ] || exit
    {
        lines_of . "${crates[@]}" &&
            find "${folders[@]}" -type f ! -name '.*' ! -name '*~' ! -name '#*#' -print0 | LC_ALL=C sort -z | xargs -0 sha256sum
    } | sha256sum | cut -d ' ' -f 1
)

sum_of_file() {
    sha256sum < "$1" | cut -d ' ' -f 1
}

# What the manifest of the checkout $1 has for the key $2; nothing where it has none.
manifest_of() {
    sed -n "s/^$2 //p" "$1/release/manifest" 2> /dev/null
}

# The line that `rt version` prints: out of the kit's file, which takes no time, or else by asking it. Status 1 without a kit.
kit_identity() {
    local rt
    rt=$(command -v rt) || return 1
    cat "$(dirname "$(dirname "$(readlink -f "$rt")")")/KIT-ID" 2> /dev/null || rt version
}
