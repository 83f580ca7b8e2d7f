#!/bin/bash
# Proves and builds the static library from the sources, for each target, and compares it with the archives in
# bindings/rust/lib, byte for byte.
#
# Usage: tools/build_library.sh [--target TARGET] [--over-gate] [--update]
#        tools/build_library.sh --sums
#
# The targets are x86_64-unknown-linux-gnu and aarch64-unknown-linux-gnu; --target chooses one. The toolchain's compiler
# has both, so that no program for aarch64 is needed.
#
# `rt lib` proves and builds what is below crates/cc_capi, and `rattle build`, which `rt lib` calls, that itself, for
# each target. In its archive, and in the functions for memory, the three symbols that don't begin with vahepito_ are
# renamed; all else stays as it was built. That is libvahepito_strict.a. Beside it module.ll.xz is what the toolchain's
# compiler read, as text: PROOF says with which words the compiler was called. In that text tools/mark_module.py has
# asked for what debuggers and CET need.
#
# For x86-64 tools/release_stores.py makes a second text of that one, in which some stores are release stores, and the
# same compiler makes libvahepito.a of it by the same words. For aarch64 there is no such archive: both kinds of store
# are one instruction there. tests/module.py compiles both texts by another compiler.
#
# The functions for memory are the toolchain's for x86-64 (liblibc_c.a), and those of bindings/c/heap.c for aarch64.
#
# --over-gate takes the libraries below cc_capi as `rt ci` left them in this folder a moment ago: `rt lib` would prove
# them once more. Both ways give the same bytes.
# --update writes what was built into bindings/rust/lib.
# --sums builds nothing: it compares the sums in each PROOF with the archives and the sources as they are, and looks for
# paths of a host in the archives. Exit status 0 if bindings/rust/lib is what was built.
set -u
top=$(cd "$(dirname "$0")/.." && pwd) || exit 1
name=library
. "$top/tools/building.sh"
cd "$top" || exit 1
targets=(x86_64-unknown-linux-gnu aarch64-unknown-linux-gnu)
over_gate= update= only_sums= scratch=
mapfile -t crates < <(crates_of cc_capi)

fail() { echo "library: FAILED: $*" >&2 && exit 1; }

# The archives of a target.
archives_of() {
    case $1 in
    x86_64-*) echo libvahepito.a libvahepito_strict.a libvahepito_heap.a ;;
    *) echo libvahepito_strict.a libvahepito_heap.a ;;
    esac
}

# The lines of PROOF with the sums of what a folder has for a target, and of the sources.
sums() {
    local archive
    for archive in $(archives_of "$1"); do
        echo "sha256 of $archive: $(sum_of "$2/$archive")"
    done
    echo "sha256 of module.ll: $(python3 -c 'import lzma, sys; sys.stdout.buffer.write(lzma.open(sys.argv[1]).read())' \
        "$2/module.ll.xz" | sum_of -)"
    echo "sha256 of the sources: $(sum_of_sources "${crates[@]}")"
    [[ $1 != x86_64-* ]] || echo "sha256 of the law of release stores and their script: $(sum_of_law)"
}

# The sum of what libvahepito.a rests on beside.
sum_of_law() { { sum_of_sources cc_x86 && sum_of "$top"/tools/{release_stores,module_filter}.py; } | sum_of -; }

compare_sums() {
    local target kept status=0
    for target in "${targets[@]}"; do
        kept=bindings/rust/lib/$target
        diff <(grep '^sha256 of ' "$kept/PROOF") <(sums "$target" "$kept") && continue
        echo "library: $kept/PROOF isn't of these sources and archives:" \
            "tools/build_library.sh --update builds them again" >&2
        status=1
    done
    tests/host_paths.py bindings/rust/lib/*/ && return "$status"
}

while [ $# != 0 ]; do
    case $1 in
    -h | --help) sed -n '2,/^[^#]/s/^# \{0,1\}//p' tools/build_library.sh && exit ;;
    --over-gate) over_gate=yes ;;
    --update) update=yes ;;
    --sums) only_sums=yes ;;
    --target)
        [[ " ${targets[*]} " == *" ${2-} "* ]] || { echo "library: the targets are ${targets[*]}" >&2 && exit 64; }
        targets=("$2") && shift
        ;;
    *) echo 'usage: tools/build_library.sh [--target TARGET] [--over-gate] [--update] | --sums' >&2 && exit 64 ;;
    esac
    shift
done
if [ -n "$only_sums" ]; then compare_sums && exit || exit 1; fi
if ! command -v rt >/dev/null; then
    echo 'library: the command rt is not on the path: it proves and builds the library, and nothing else does' >&2
    exit 1
fi
kit=$(dirname "$(dirname "$(realpath "$(command -v rt)")")")
clang=$kit/toolchain/bin/clang

# Each function begins at a multiple of 64 bytes, 2^6, so that its loops have the same place in the cache lines of each
# program. The compiler's own choice is 16: then a linker decides whether a jump of a loop lies across 32 bytes, where
# some processors are slower. The words change no instruction of a function.
aligned=(-mllvm -align-all-functions=6)

# A folder of the toolchain for a target, whose clang marks the module that rattle gives it, and keeps what it is given,
# and by which words, with those above before them. rattle takes the folder for aarch64's by the name of this file,
# which nothing reads: a static library is linked with nothing.
make_toolchain() {
    watched=$top/out/toolchain/$1
    rm -rf "$watched" && mkdir -p "$watched"/{bin,lib,kept} &&
        ln -s "$kit"/toolchain/bin/* "$watched/bin/" && rm "$watched/bin/clang" || return 1
    case $1 in
    x86_64-*) ln -s "$kit"/toolchain/lib/* "$watched/lib/" ;;
    *) : >"$watched/lib/ld-linux-aarch64.so.1" ;;
    esac
    cat >"$watched/bin/clang" <<END
#!/bin/bash
set -- ${aligned[*]} "\$@"
echo "\$*" >>"$watched/kept/words"
for word; do
    [[ \$word != *.bc ]] || {
        "$clang" --target=$1 -Werror -S -emit-llvm -Xclang -disable-llvm-passes -x ir "\$word" \
            -o "$watched/unmarked.ll" &&
            "$top/tools/mark_module.py" <"$watched/unmarked.ll" >"\$word" || exit 1
    }
    [ ! -f "\$word" ] || cp "\$word" "$watched/kept/"
done
exec "$clang" "\$@"
END
    chmod +x "$watched/bin/clang"
}

# Proves and builds cc_capi for a target, and before the first one what is below. `rt lib` doesn't let one choose the
# toolchain, and the libraries of `rt ci` lack the stamp that it asks for.
build() {
    local rattle=("$kit/bin/rattle" build --crate-name cc_capi src/lib.rt --extern "std=$kit/rlibs/std.rlib")
    local crate folder
    rattle+=(-L "dependency=$kit/rlibs")
    for crate in "${crates[@]}"; do
        [ "$crate" = cc_capi ] || rattle+=(-L "dependency=$top/crates/$crate/out/rlib")
    done
    for crate in $(sed -n 's/^cc_capi .*: //p' crates.txt); do
        folder=$top/crates/$crate/out/rlib
        [ -d "crates/$crate" ] || folder=$kit/rlibs
        rattle+=(--extern "$crate=$folder/$crate.rlib")
    done
    rattle+=(--antt-project "$kit/rattle/logic/antt-project.json" --logic-built "$kit/logic_built" --jobs 1)
    rattle+=(--links cc_capi= --crate-type staticlib --backend llvm --target "$1" --toolchain "$watched")
    rattle+=(-o out/libcc_capi.a)
    if [ -z "$over_gate$scratch" ]; then
        build_with_those_below cc_capi "${rattle[@]}" </dev/null
        return
    fi
    left=$(functions_of cc_capi) running=
    [ -n "$scratch" ] || { scratch=$(mktemp -d) && trap clean_up EXIT; } || return 1
    run_in cc_capi "${rattle[@]}" </dev/null || { tail -n 60 "$scratch/log" >&2 && return 1; }
}

# The toolchain's three names for memory, as the library's own: of the same lengths, so that no other byte changes.
renamed='s/rattle_alloc/vahepito_mem/g; s/rattle_realloc/vahepito_renew/g; s/rattle_dealloc/vahepito_freed/g'

# The object of a module's text, with the library's names.
compile() { "$clang" $words -c -x ir "$1" -o "$2" && LC_ALL=C sed -i "$renamed" "$2"; }

# The module as the compiler read it, as text, and `words`: those that say how it compiles it, without the names of
# files. For aarch64 rattle calls it twice, and looks at the module in between; one call has to give the same. Without
# the toolchain's folder clang would find a libgcc of the machine there, and call its atomics in place of writing them.
keep_module() {
    words=$(head -n 1 "$watched/kept/words")
    words=$(sed -E 's/--sysroot=\S+ //; s/ -x ir module\.bc//; s/ -o \S+//; s/ -c( |$)/ /; s/ -S -emit-llvm.*//
        s/  */ /g; s/^ | $//g' <<<"$words")
    [[ $1 == x86_64-* ]] || words+=' -mno-outline-atomics'
    (cd "$watched/kept" && "$clang" --target="$1" -Werror -S -emit-llvm -Xclang -disable-llvm-passes -x ir module.bc \
        -o "$top/$made/module.ll") &&
        compile "$made/module.ll" "$made/again.o" &&
        "$kit/toolchain/bin/llvm-ar" p "$made/libvahepito_strict.a" | cmp - "$made/again.o" &&
        xz -9e -T1 -c "$made/module.ll" >"$made/module.ll.xz" && rm "$made/again.o"
}

# Makes libvahepito.a: the strict archive's module with release stores, compiled, under the strict object's name.
release() {
    local member
    member=$("$kit/toolchain/bin/llvm-ar" t "$made/libvahepito_strict.a") &&
        tools/release_stores.py <"$made/module.ll" >"$made/released.ll" &&
        compile "$made/released.ll" "$made/$member" &&
        "$kit/toolchain/bin/llvm-ar" rcsD "$made/libvahepito.a" "$made/$member" &&
        rm "$made/$member" "$made/released.ll"
}

# The functions for memory. `realloc` shares bytes with a name in the toolchain's, so that one is renamed by its table.
# Large blocks begin where a line of the cache does.
make_heap() {
    local compile=("$clang" --target="$1" -std=c11 -O2 -fPIC -g0 -c) objects=(blocks)
    case $1 in
    x86_64-*)
        compile+=(-fcf-protection=full)
        objcopy -D --redefine-sym rattle_alloc=vahepito_mem --redefine-sym rattle_realloc=vahepito_renew \
            --redefine-sym rattle_dealloc=vahepito_freed --redefine-sym malloc=vahepito_block \
            "$kit/c/liblibc_c.a" "$made/libvahepito_heap.a" || return 1
        ;;
    *) objects+=(heap) ;;
    esac
    for object in "${objects[@]}"; do
        "${compile[@]}" "bindings/c/$object.c" -o "$made/$object.o" &&
            "$kit/toolchain/bin/llvm-ar" rcsD "$made/libvahepito_heap.a" "$made/$object.o" &&
            rm "$made/$object.o" || return 1
    done
}

# What PROOF says below its sums.
closing_of() {
    case $1 in
    x86_64-*) echo "libvahepito_strict.a is what was proved and built. libvahepito.a is compiled of the same module, \
in which tools/release_stores.py
has made release stores of those that are proved to be allowed to be early: crates/cc_x86 has the law of x86-TSO.
The proofs end at the exports of these two. The crate, the headers and libvahepito_heap.a are not proved." ;;
    *) echo "libvahepito_strict.a is what was proved and built: the same source and contracts as for x86-64. \
docs/TRUST.md says what is trusted
on this machine. The proofs end at the exports. The crate, the headers and libvahepito_heap.a are not proved." ;;
    esac
}

# Proves and builds the library for a target, and compares it, or writes it.
make_for() {
    local target=$1 start=$SECONDS proof watched words archive
    local kept=bindings/rust/lib/$target made=out/lib/$target
    rm -rf "$made" && mkdir -p "$made" crates/cc_capi/out && make_toolchain "$target" || exit 1
    build "$target" || fail "$target, after $SECONDS s"
    proof=$(grep -a '^logic=proved ' "$scratch/log" | tail -n 1)
    [[ $proof == *" target=$target "* ]] && [ "$(sum_of_sources "${crates[@]}")" = "$sources" ] ||
        fail "no line logic=proved was seen for $target, or the sources have changed meanwhile"
    LC_ALL=C sed "$renamed" crates/cc_capi/out/libcc_capi.a >"$made/libvahepito_strict.a"
    keep_module "$target" || fail 'the module that was kept as text is not what was compiled'
    [[ $target != x86_64-* ]] || release || fail 'the module with release stores was not made'
    rm "$made/module.ll"
    make_heap "$target" || exit 1
    if nm -g --format=just-symbols "$made"/*.a |
        grep -vxE 'vahepito_.*|.*\.o:|mem(cpy|move|set)|malloc|posix_memalign|realloc|free|'; then
        fail 'these symbols are neither of the library nor what it needs of the C library'
    fi
    tests/host_paths.py "$made" || exit 1
    cat >"$made/PROOF" <<END
Vahepito $(sed -n 's/^version = "\(.*\)"$/\1/p' bindings/rust/Cargo.toml) for $target: \
the library, and its functions for memory.
docs/TRUST.md in the repository says what each word of the proof's line means, and how to compare a second build.

$(sums "$target" "$made")
crates: ${crates[*]}
toolchain: $(rt version)
proof: $proof
compiler: $("$clang" --version | head -n 1), $words

$(closing_of "$target")
END
    # `rt ci` refuses a tree that has links.
    rm -r "$watched"
    if [ -n "$update" ]; then
        mkdir -p "$kept" && cp "$made"/* "$kept/" && echo "library: $kept is what was built, in $((SECONDS - start)) s"
        return
    fi
    for archive in $(archives_of "$target"); do cmp "$kept/$archive" "$made/$archive" || return 1; done
    diff <(grep -vE '^(proof|toolchain): ' "$kept/PROOF") <(grep -vE '^(proof|toolchain): ' "$made/PROOF") &&
        echo "library: proved and built in $((SECONDS - start)) s, and $kept is the same, byte for byte"
}

sources=$(sum_of_sources "${crates[@]}")
for target in "${targets[@]}"; do
    make_for "$target" && continue
    echo "library: bindings/rust/lib/$target isn't what was built of these sources:" \
        "tools/build_library.sh --update writes it" >&2
    exit 1
done
