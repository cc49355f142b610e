#!/bin/sh
# Writes the proved core of clients as WebAssembly: `sh tools/wasm.sh`, or `make wasm`. The gate proves the crate
# client_web as a static library of this machine; here it is copied with the crates that it uses to a folder of its
# own, proved again for wasm64-unknown-unknown, built by LLVM, and its memory lowered to 32 bits by wasm-opt, so that
# every browser takes it:
#
#   dist/client_web.wasm            the module, without imports
#   dist/client_web.wasm.sha256     its SHA-256, for `sha256sum -c` in dist/
#   dist/client_web.sources         the hash of what it was proved from (tools/sources.sh client_web)
#   dist/client_web.toolchain       what proved, built and lowered it
#
# `sh tools/wasm.sh --verify` builds it again and compares, and writes nothing. Its status is 0 where the bytes are
# equal, 1 where they are not, or where dist/ is damaged or of other sources, 2 where a command is missing, and 3
# where only the toolchain is another one. What rt proved is kept in the folder `quaestor/wasm` of the user's cache, so
# that the next run proves what changed; with `--anew` behind that, or alone, all is proved again.
cd "$(dirname "$0")/.." || exit 2
LC_ALL=C; export LC_ALL
say() { echo "wasm: $*" >&2; }
name=client_web most=24576 most_packed=10240

command -v rt > /dev/null || { say "the command rt is not on the path"; exit 2; }
command -v wasm-opt > /dev/null || { say "wasm-opt is missing: apt-get install binaryen"; exit 2; }
here="$(rt version), $(wasm-opt --version)" || exit 2
sources=$(sh tools/sources.sh $name)

if [ "$1" = --verify ]; then
    [ -f dist/$name.wasm ] || { say "there is no dist/$name.wasm"; exit 1; }
    (cd dist && sha256sum --quiet -c $name.wasm.sha256) >&2 || { say "dist/$name.wasm is damaged"; exit 1; }
    [ "$(cat dist/$name.sources)" = "$sources" ] || { say "dist/$name.wasm is of the sources $(cat dist/$name.sources), and these are $sources"; exit 1; }
fi

room=${XDG_CACHE_HOME:-$HOME/.cache}/quaestor/wasm
for word; do [ "$word" != --anew ] || rm -rf "$room"; done
mkdir -p "$room/crates" && exec 9> "$room/lock" && flock -n 9 || { say "$room is in use, or cannot be written"; exit 2; }
sh tools/sources.sh --crates $name | while read -r crate; do
    mkdir -p "$room/crates/$crate"
    rm -rf "$room/crates/$crate/src" "$room/crates/$crate/specs" "$room/crates/$crate/proofs"
    for part in src specs proofs; do
        [ ! -d "crates/$crate/$part" ] || cp -r "crates/$crate/$part" "$room/crates/$crate/"
    done
    sed -n "s/^$crate\( [^:]*\)*:.*/&/p" crates.txt
done | sed "s/^$name staticlib:/$name wasm64:/" > "$room/crates.txt"
cp HANDLES "$room/"
(cd "$room/crates/$name" && rt lib ${RT_JOBS:+--jobs "$RT_JOBS"}) >&2 || { say "the crate is not proved for wasm64"; exit 1; }
[ "$(sh tools/sources.sh $name)" = "$sources" ] || { say "the sources changed meanwhile"; exit 2; }
wasm-opt --enable-memory64 --enable-bulk-memory --enable-sign-ext --enable-mutable-globals \
    --enable-nontrapping-float-to-int --memory64-lowering -O2 "$room/crates/$name/out/$name.wasm" -o "$room/$name.wasm" || exit 1

size=$(wc -c < "$room/$name.wasm") packed=$(gzip -9 < "$room/$name.wasm" | wc -c)
say "$size bytes, $packed by gzip"
[ "$size" -le $most ] && [ "$packed" -le $most_packed ] || { say "more than $most bytes, or $most_packed by gzip"; exit 1; }

if [ "$1" = --verify ]; then
    if cmp -s "$room/$name.wasm" dist/$name.wasm; then
        say "the same bytes: what was proved and built here is dist/$name.wasm"
    elif [ "$(cat dist/$name.toolchain)" != "$here" ]; then
        say "other bytes, by another toolchain: $(cat dist/$name.toolchain) is needed to compare"
        exit 3
    else
        say "OTHER BYTES by the same toolchain: do not use dist/$name.wasm"
        exit 1
    fi
    exit 0
fi
mkdir -p dist && cp "$room/$name.wasm" dist/$name.wasm && chmod 644 dist/$name.wasm || exit 2
(cd dist && sha256sum $name.wasm > $name.wasm.sha256) || exit 2
echo "$sources" > dist/$name.sources
echo "$here" > dist/$name.toolchain
say "wrote dist/$name.wasm of sources $sources by $here"
