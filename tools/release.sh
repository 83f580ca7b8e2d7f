#!/bin/bash
# Makes the files of a release, as other people get them without this repository:
#
#   vahepito-c-VERSION.tar.gz       the library for C, its headers, manual page, and files for pkg-config and CMake
#   vahepito-VERSION.crate          the crate for Rust, as cargo packs it
#   ccq-VERSION-x86_64-linux.tar.gz the program `ccq`, its manual page, completions and the line of its proof
#   SHA256SUMS                      their sums
#
# Usage: tools/release.sh                    makes them twice in folders for temporary files: twice with the same bytes
#        tools/release.sh --write FOLDER     writes them into a folder, which has to be empty or not there
#
# It builds nothing but the shared library and the queue for C: the archives and the program are those in
# bindings/rust/lib and bin. It needs make, cc and cargo, and no network. The exit status is 77 without one of these.
# CONTRIBUTING.md says how a release is made.
set -u
cd "$(dirname "$0")/.." || exit 1
target=x86_64-unknown-linux-gnu
version=$(sed -n 's/^version = "\(.*\)"$/\1/p' bindings/rust/Cargo.toml)

# Packs the one folder in a folder, with nothing in the archive that depends on the day, the machine or the user.
pack() {
    tar -C "$1" --sort=name --mtime=@0 --owner=0 --group=0 --numeric-owner --mode=u+w,go+r-w -cf - "$2" | gzip -n9 >"$3"
}

# Makes all files in a folder.
make_all() {
    local into=$1 room
    room=$(mktemp -d "$work/XXXX") && mkdir -p "$into" &&
        make -s -C bindings/c dist OUT="$room/c" >/dev/null && cp "$room/c/vahepito-c-$version.tar.gz" "$into" &&
        CARGO_TARGET_DIR=$room/crate cargo package --quiet --offline --locked --no-verify --allow-dirty \
            --manifest-path bindings/rust/Cargo.toml 2>"$room/said" &&
        cp "$room/crate/package/vahepito-$version.crate" "$into" &&
        make -s install PREFIX=/usr/local DESTDIR="$room/ccq" && mv "$room/ccq/usr/local" "$room/ccq/ccq-$version" &&
        cp "bin/$target/PROOF" CHANGELOG.md "$room/ccq/ccq-$version" &&
        pack "$room/ccq" "ccq-$version" "$into/ccq-$version-x86_64-linux.tar.gz" &&
        (cd "$into" && sha256sum -- *.tar.gz *.crate >SHA256SUMS)
}

for program in make cc cargo; do
    command -v "$program" >/dev/null || { echo "release: SKIPPED: $program is not on this machine" && exit 77; }
done
work=$(mktemp -d) || exit 1
trap 'rm -rf "$work"' EXIT
case "$#-${1-}" in
0-)
    make_all "$work/one" && sleep 1 && make_all "$work/two" && diff -r "$work/one" "$work/two" ||
        { echo 'release: FAILED' && exit 1; }
    echo "release: $version, twice with the same bytes: $(cd "$work/one" && echo *)"
    ;;
2---write)
    [ -z "$(ls -A "$2" 2>/dev/null)" ] || { echo "release: $2 isn't empty" >&2 && exit 64; }
    make_all "$2" || { echo 'release: FAILED' >&2 && exit 1; }
    cat "$2/SHA256SUMS"
    ;;
1--h | 1---help) sed -n '2,/^[^#]/s/^# \{0,1\}//p' tools/release.sh ;;
*) sed -n '2,/^[^#]/s/^# \{0,1\}//p' tools/release.sh >&2 && exit 64 ;;
esac
