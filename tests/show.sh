#!/bin/bash
# Tests `ccq show`: its traces are what tests/derive.py derives; the page in docs/pages is what the program writes of
# the plan beside it; the page reads plans as `ccq play` does; what it says of a state, and each field of a sentence, is
# decided by a second program; what is ahead of a pass that waits obeys the laws of progress; its exercises have the
# shortest solutions; random steps by hand lead to the plan and the report of the page; and in a browser without a
# window, Chromium, each page is stepped through, driven and looked at, each screen of its lectures too
# (tests/show/pages.py says how). So are pages of `ccq judge --page`.
#
# Usage: tests/show.sh
#
# The program is the one that `rt run` in crates/ccq has built, or else the one in bin/, if that is of these sources, or
# the one that the variable CCQ names. Prints a line for each step; what the machine
# doesn't have is skipped, and its line says so. The exit status is 0 if no step failed, 77 if none could be done.
set -u
cd "$(dirname "$0")/.." || exit 1
case ${1-} in
'') ;;
-h | --help) sed -n '2,/^[^#]/s/^# \{0,1\}//p' tests/show.sh && exit ;;
*) echo 'usage: tests/show.sh' >&2 && exit 64 ;;
esac
tests=show
. tests/steps.sh

step 'the pages are the texts of the program' tools/page_text.py
if has node; then
    step 'the plans of tests/rows.py, read by the page' tests/show/pages.py plans
    step 'each state of the lessons and exercises, and each field of a sentence' tests/show/reads.py
    step 'what is ahead of passes that wait, by the laws of progress' tests/show/progress.py
    step 'shortest solutions of the exercises' tests/show/pages.py shortest
fi
export CCQ=${CCQ:-crates/ccq/out/ccq}
if [ ! -x "$CCQ" ] && tools/programs.sh --sums >/dev/null 2>&1; then CCQ=bin/x86_64-unknown-linux-gnu/ccq; fi
if [ ! -x "$CCQ" ]; then
    skip 'traces and pages' "crates/ccq/out/ccq isn't there, and the program in bin/ isn't of these sources"
    end_steps
fi
CCQ=$(realpath "$CCQ")
step 'traces of examples/ and of the rows' tests/trace.py
is_page() { "$CCQ" show docs/pages/plan.json | cmp - docs/pages/index.html; }
export -f is_page
step 'docs/pages has the page that the program writes' bash -c is_page

if has node; then
    step '1,000 steps by hand of the machine alone' tests/show/pages.py by_node
    step 'the tour, the scenarios and the broken queues' tests/show/pages.py lessons
else
    skip 'steps by hand of the machine alone' "node isn't on this machine"
fi
. tools/browser.sh
export browser
if [ -z "$browser" ]; then
    skip 'pages in a browser' 'neither chromium nor chromium-browser nor google-chrome is on this machine'
    end_steps
fi
step 'the pages of examples/, step by step' tests/show/pages.py walks
step '1,000 steps by hand' tests/show/pages.py by_hand
step 'lessons, side by side, exercises, own plans, links and keys' tests/show/pages.py learns
step 'lectures, a lesson of ten minutes, motion, and a site' tests/show/pages.py lectures
step 'pages of judged logs' tests/show/pages.py judged
step 'views, keys, sizes and contrasts' tests/show/pages.py looks
step '20,000 events' tests/show/pages.py many
end_steps
