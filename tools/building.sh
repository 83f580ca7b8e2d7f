# What the scripts share that have rt prove and build something; each reads it by `.` and says before: `top`, the top of
# the repository, and `name`, what its lines begin with.

# A crate and those that it stands on, each behind those below it. The kit's crates have no line in crates.txt.
crates_of() {
    awk -F: -v top="$1" '
        function add(it, n, k, below) {
            if (!(it in uses) || it in seen) return
            seen[it]
            n = split(uses[it], below, " ")
            for (k = 1; k <= n; k++) add(below[k])
            print it
        }
        { split($1, word, " "); uses[word[1]] = $2 }
        END { add(top) }' "$top/crates.txt"
}

sum_of() { sha256sum "$@" | cut -d' ' -f1; }

# The sum of what these crates are built of and what is proved of them: the code with its contracts, and the
# definitions.
sum_of_sources() {
    local crate
    for crate; do
        grep -E "^$crate[ :]" "$top/crates.txt"
        (cd "$top" && find "crates/$crate"/{src,specs} -type f 2>/dev/null | LC_ALL=C sort | xargs -rd '\n' sha256sum)
    done | sum_of
}

# How many functions these crates have.
functions_of() {
    local crate
    for crate; do cat "$top/crates/$crate"/src/{,*/}*.rt 2>/dev/null; done |
        grep -cE '^ *(pub(\([a-z]+\))? )?(extern "C" )?(const )?fn '
}

# Runs a command in a crate's folder, and says every 20 seconds how far it is. What it writes goes into $scratch/log.
run_in() {
    local crate=$1 start=$SECONDS at functions status
    shift
    functions=$(functions_of "$crate")
    (cd "$top/crates/$crate" && TMPDIR=$scratch exec "$@") <&0 >"$scratch/log" 2>&1 &
    running=$!
    while kill -0 "$running" 2>/dev/null; do
        sleep 0.2
        if ((SECONDS - start >= 20)); then
            start=$SECONDS
            at=$(grep -ao '^so far: [0-9]* of [0-9]*' "$scratch/log" | tail -n 1)
            echo "$name: $crate, ${at:+$at functions of it; }$left functions are left with it, after $SECONDS s" >&2
        fi
    done
    wait "$running"
    status=$?
    running=
    left=$((left - functions))
    return "$status"
}

# Ends what runs, and leaves no file behind. What ran may still write for a moment.
clean_up() {
    if [ -n "$running" ]; then
        kill "$running" 2>/dev/null
        wait "$running" 2>/dev/null
    fi
    for _ in 1 2 3 4 5; do
        rm -rf "$scratch" 2>/dev/null && break
        sleep 0.2
    done
}

# Proves and builds a crate, by the command that is given, behind those that it stands on: says at each how many
# functions are left. Where one isn't proved it shows what rt wrote, and its status is 1.
build_with_those_below() {
    local last=$1 crates one
    shift
    mapfile -t crates < <(crates_of "$last")
    left=$(functions_of "${crates[@]}")
    running=
    scratch=$(mktemp -d) || return 1
    trap clean_up EXIT
    trap 'echo "$name: interrupted; the next call goes on with what is proved by now" >&2; exit 130' INT TERM HUP
    for one in "${crates[@]}"; do
        echo "$name: proving $one; $left functions are left with it" >&2
        if [ "$one" = "$last" ]; then run_in "$one" "$@"; else run_in "$one" rt lib </dev/null; fi && continue
        echo "$name: $one was not built; what rt wrote:" >&2
        tail -n "${shown:-12}" "$scratch/log" >&2
        return 1
    done
    trap - INT TERM HUP
}
