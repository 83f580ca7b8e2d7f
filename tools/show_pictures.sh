#!/bin/bash
# The pictures of docs/pictures that show a page as a browser without a window draws it: docs/pages/index.html at a
# screen of a lecture and at one event of each of four scenarios, and docs/pages/fault.html. docs/pictures/show.sums
# tells of each its page, the part of it, its size, and a sum of the page that it was drawn from; so a picture that
# isn't of today's page is found without a browser.
#
# Usage: tools/show_pictures.sh [--write]
#
# Compares the sums: exit status 0 where every picture is there and current. With `--write` it draws them anew, by
# Chromium.
set -u
cd "$(dirname "$0")/.." || exit 1
room=$(mktemp -d) || exit 1
trap 'rm -rf "$room"' EXIT
folder=docs/pictures
record=$folder/show.sums

# The pictures: the name, the page, the part of it, and how high the window is.
pictures='show-lecture index.html #lecture=three&screen=5 768
show-combining index.html #lesson=bodies_of_words&event=75&view=run 740
show-freed index.html #lesson=full&event=85&view=run 740
show-close index.html #lesson=close_and_drain&event=44&view=run 740
show-groups index.html #lesson=two_groups&event=101&view=run 740
judge-fault fault.html # 468'

# What the record has to be.
record_of() {
    local picture page part height
    while read -r picture page part height; do
        printf '%s %s %s %s %s\n' "$picture" "$page" "$part" "$height" \
            "$(sha256sum <"docs/pages/$page" | cut -d' ' -f1)"
    done <<<"$pictures"
}

# Draws all pictures.
draw() {
    local picture page part height
    while read -r picture page part height; do
        "$1" --headless --no-sandbox --disable-gpu --hide-scrollbars --force-device-scale-factor=1 \
            --force-prefers-reduced-motion \
            --user-data-dir="$room/profile" --window-size="1366,$height" --virtual-time-budget=2000 \
            --screenshot="$PWD/$folder/$picture.png" "file://$PWD/docs/pages/$page$part" \
            >"$room/log" 2>&1 </dev/null || return 1
        echo "$folder/$picture.png: $page$part"
    done <<<"$pictures"
}

case ${1-} in
--write)
    . tools/browser.sh
    [ -n "$browser" ] && draw "$browser" && record_of >"$record" && exit
    echo 'show_pictures: no picture was drawn: is there a Chromium?' >&2
    exit 1
    ;;
'')
    while read -r picture _; do
        if [ ! -s "$folder/$picture.png" ]; then
            echo "show_pictures: $folder/$picture.png isn't there" >&2
            exit 1
        fi
    done <<<"$pictures"
    if ! record_of | diff "$record" - >&2; then
        echo 'show_pictures: a picture is of another page; tools/show_pictures.sh --write draws them' >&2
        exit 1
    fi
    ;;
-h | --help) sed -n '2,/^[^#]/s/^# \{0,1\}//p' tools/show_pictures.sh ;;
*)
    echo 'usage: tools/show_pictures.sh [--write]' >&2
    exit 64
    ;;
esac
