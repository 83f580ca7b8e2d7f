# What the scripts share that test step by step; each reads it by `.` behind its `cd`, and says in `tests` what its
# lines begin with. It makes a folder `room` for the time of the script, and counts in `done` and `failed` the steps
# that were done, and those of them that failed.
room=$(mktemp -d) || exit 1
trap 'rm -rf "$room"' EXIT
export room
failed=0 done=0

# Does a step: its name, and a command, which has five minutes or as many seconds as `limit` says. A machine with other
# work to do is slower: with a load of 25 on four processors a twentieth of the rounds of the crate's tests took 285 s.
# So the command has its seconds twice, and once more for each whole unit of the load of one processor. Its output is
# shown if it fails. With the exit status 77 it has said by a line with SKIPPED why it did nothing.
step() {
    local name=$1 start=$SECONDS status times
    shift
    times=$(awk -v processors="$(nproc)" '{ print 2 + int($1 / processors) }' /proc/loadavg)
    timeout "$((times * ${limit:-300}))" "$@" >"$room/log" 2>&1 </dev/null
    status=$?
    [ "$status" != 124 ] ||
        echo "$tests: $name: stopped after $((SECONDS - start)) s; the load is $(cut -d ' ' -f 1-3 /proc/loadavg)"
    case $status in
    0) echo "$tests: $name: passed ($((SECONDS - start)) s)" ;;
    77) grep ': SKIPPED: ' "$room/log" && return ;;
    *)
        echo "$tests: $name: FAILED (status $status); its last lines:"
        tail -n 60 "$room/log"
        failed=$((failed + 1))
        ;;
    esac
    done=$((done + 1))
}

skip() { echo "$tests: $1: SKIPPED: $2"; }

has() { command -v "$1" >/dev/null; }

# Does a command that has to print just these lines.
prints() {
    local printed
    printed=$("${@:2}") || return
    [ "$printed" = "$1" ] || { echo "it printed '$printed' in place of '$1'"; return 1; }
}
export -f prints

# Ends the script: with status 1 if a step failed, and 77 if none was done.
end_steps() {
    [ "$done" = 0 ] && exit 77
    [ "$failed" = 0 ] && exit
    echo "$tests: $failed steps failed"
    exit 1
}
