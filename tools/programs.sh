#!/bin/bash
# Compares the program in bin/ with the one that `rt ci` left in crates/ccq/out, byte for byte.
#
# Usage: tools/programs.sh
#        tools/programs.sh --sums
#        tools/programs.sh --update LOG
#
# bin/x86_64-unknown-linux-gnu has `ccq` as LLVM built it, and PROOF: its sum, the sum of the sources that it is built
# of, and the line by which `rt ci` proved it. Then ./play and ./show answer by it, with no rt on the path.
# --sums builds nothing and needs no rt: it compares the sums in PROOF with the program and the sources as they stand.
# --update copies the program into bin/. LOG is the output of the `rt ci` that proved it just now.
# Exit status 0 if all is the same.
set -u
top=$(cd "$(dirname "$0")/.." && pwd) || exit 1
name=programs
. "$top/tools/building.sh"
cd "$top" || exit 1
kept=bin/x86_64-unknown-linux-gnu
program=crates/ccq/out/ccq

# The lines of PROOF with the sums.
sums() {
    echo "sha256 of ccq: $(sum_of "$kept/ccq")"
    echo "sha256 of the sources of ccq: $(sum_of_sources $(crates_of ccq))"
}

# The line by which `ccq` was proved, in the output of `rt ci`.
proof_in() {
    awk '$0 == "== ccq" { here = 1 } here && /^logic=proved / { print; exit }' "$1"
}

update() {
    local proof
    proof=$(proof_in "$1")
    [ -n "$proof" ] || { echo "programs: $1 doesn't prove ccq" >&2 && exit 1; }
    mkdir -p "$kept"
    cp "$program" "$kept/" || exit 1
    cat >"$kept/PROOF" <<END
The program for x86_64 Linux with the GNU C library, as \`rt ci\` proved and built it.
docs/TRUST.md says what each word of a proof's line means.

$(sums)
toolchain: $(rt version)
proof of ccq: $proof
END
    echo "programs: $kept has the program that rt ci left"
}

# Whether ./play and ./show run this program, with no rt on the path.
answer() {
    local path=/usr/bin:/bin report=$'E 0 s1 send 7 -> accepted 0\nD 0 r1 take -> got 0 s1 1 7\naudit clean'
    [ "$(PATH=$path ./play examples/one_item.json)" = "$report" ] &&
        cmp <(PATH=$path ./show examples/one_item.json) <("$program" show examples/one_item.json)
}

built() { [ -e "$program" ] || { echo "programs: there is no $program: run \`rt ci\` first" >&2 && exit 1; }; }

case ${1-} in
'')
    built
    if ! cmp "$kept/ccq" "$program"; then
        echo "programs: $kept/ccq isn't what the gate built: tools/programs.sh --update LOG copies it" >&2
        exit 1
    fi
    answer || { echo 'programs: ./play or ./show gives another answer' >&2 && exit 1; }
    echo "programs: $kept has what the gate built, byte for byte, and ./play and ./show run it"
    ;;
-h | --help) sed -n '2,/^[^#]/s/^# \{0,1\}//p' tools/programs.sh ;;
--sums)
    diff <(grep '^sha256 of ' "$kept/PROOF") <(sums) && exit
    echo "programs: $kept/PROOF isn't of these sources and this program: tools/programs.sh --update LOG writes it" >&2
    exit 1
    ;;
--update) built && update "${2?the output of rt ci}" ;;
*) echo 'usage: tools/programs.sh [--sums | --update LOG]' >&2 && exit 64 ;;
esac
