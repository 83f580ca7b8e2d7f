# What ./play and ./show share: which plan is read, and the program `ccq`: the one in bin/, or one that is proved and
# built here, or tried. Each says before it reads this by `.`: `top`, the top of the repository, and `name`, its name
# and the task of `ccq`.
. "$top/tools/building.sh" || exit 69
program=$top/crates/ccq/out/ccq
prebuilt=$top/bin/x86_64-unknown-linux-gnu/ccq
words=("$name")

say() { echo "$name: $*" >&2; }

# Whether the program in bin/ runs on this machine, and is of the sources as they stand.
is_prebuilt() {
    [ "$(uname -sm)" = 'Linux x86_64' ] && [ -x "$prebuilt" ] &&
        grep -qxF "sha256 of the sources of ccq: $(sum_of_sources $(crates_of ccq))" "${prebuilt%/*}/PROOF"
}

# Whether a source of the program is newer than it is.
is_old() {
    local one sources=()
    for one in $(crates_of ccq); do
        sources+=("$top/crates/$one"/{src,specs,proofs})
    done
    [ -n "$(find "${sources[@]}" "$top/crates.txt" -type f -newer "$program" -print -quit 2>/dev/null)" ]
}

# Leaves the program there: builds it where it isn't, or is older than its sources.
have_program() {
    if [ -x "$program" ] && ! is_old; then return; fi
    if ! command -v rt >/dev/null; then
        [ -x "$program" ] &&
            say 'sources are newer than the program, and rt is not on the path: this runs the old one' && return
        say "the command rt isn't on the path. It is the toolchain that proves and builds this program, and"
        say 'nothing else does: ./test --quick checks what needs no proof.'
        exit 69
    fi
    if [ -x "$program" ]; then
        say 'sources are newer than the program: building it again'
    else
        say 'proving and building ccq, this once: 25 minutes of one fast processor, or 15 on four, up to three times'
        say 'that on slow ones; and 2.9 GB. With --try it answers sooner, without proofs'
    fi
    # The help is asked for since rt has no other way to build a program than to run it
    build_with_those_below ccq rt run -- --help </dev/null || exit 69
    # Sources that are newer, but the same, lead to no new file
    touch "$program"
    clean_up
    trap - EXIT
}

# Runs the program by `rt try`, which proves and keeps nothing, and says every five seconds that it is at it.
try_program() {
    local status start=$SECONDS told=0
    command -v rt >/dev/null ||
        { say 'the command rt is not on the path, which compiles and runs the sources' && exit 69; }
    say "compiling $(functions_of $(crates_of ccq)) functions with checks at indices and sums, without their proofs"
    scratch=$(mktemp -d) || exit 69
    trap clean_up EXIT
    trap 'exit 130' INT TERM HUP
    (cd "$top/crates/ccq" && TMPDIR=$scratch exec rt try -- "${words[@]}") <&0 2>"$scratch/log" &
    running=$!
    while kill -0 "$running" 2>/dev/null; do
        sleep 0.2
        ((SECONDS - start >= told + 5)) && told=$((SECONDS - start)) && say "$told s"
    done
    wait "$running"
    status=$?
    running=
    grep -vE '^(checked: |races: |run=)' "$scratch/log" >&2
    if ! grep -q '^run=ended ' "$scratch/log"; then
        say "rt try ended with status $status, and the program had not ended"
        exit 69
    fi
    say "tried, and nothing of it is proved: no contract was looked at. ./$name --prove proves the program first"
    exit "$status"
}

# Does what the words of the line ask for.
run_plan() {
    local how=
    case ${1-} in
    -h | --help) printf '%s\n' "$help" && exit ;;
    --prove | --try) how=$1 && shift ;;
    esac
    if [ "$name" = show ] && { [ "${1-}" = --trace ] || [ "${2-}" = --trace ]; }; then
        words+=(--trace)
        [ "$1" = --trace ] && shift || set -- "$1" "${@:3}"
    fi
    if [ "$#" -gt 1 ]; then
        echo "usage: ./$name [--prove | --try] [PLAN], or with the plan on standard input; ./$name --help says more" >&2
        exit 64
    fi
    if [ "$#" -eq 1 ]; then
        if [ -d "$1" ] || [ ! -r "$1" ]; then
            say "there is no plan that can be read at $1"
            exit 64
        fi
        exec <"$1"
    fi
    if [ "$name" = show ] && [ "${#words[@]}" -eq 1 ] && [ -t 1 ]; then
        say 'the page goes to standard output, for a browser: ./show PLAN > page.html'
        exit 64
    fi
    case $how in
    --try) try_program ;;
    --prove) have_program ;;
    *) if is_prebuilt; then program=$prebuilt; else have_program; fi ;;
    esac
    exec "$program" "${words[@]}"
}
