#!/bin/sh
# Writes dist/, the proved program for those who have no toolchain: `sh tools/dist.sh`, or `make dist`. It runs the
# gate, `rt ci`, and takes the program that this proved and built by LLVM, as it is:
#
#   dist/quaestor           the program for Linux on x86-64 (x86-64-v2, glibc 2.34 or later)
#   dist/quaestor.sha256    its SHA-256, for `sha256sum -c` in dist/
#   dist/SOURCES            the hash of what it was proved from (tools/sources.sh)
#   dist/TOOLCHAIN          what proved and built it, as `rt version` says
#
# `sh tools/dist.sh --verify`, or `make verify-dist`, runs the gate over this checkout and compares what it built
# with dist/quaestor byte for byte, and writes nothing. Its status is 0 where they are equal, 1 where they are not,
# or where dist/ is damaged or of other sources, and 3 where only the toolchain is another one than
# dist/TOOLCHAIN: then other bytes are to be expected. Proofs that the gate kept on this machine are not done again,
# and then the program is the one that it kept; `--anew` behind it does all of them.
cd "$(dirname "$0")/.." || exit 2
LC_ALL=C; export LC_ALL
built=crates/quaestor/out/quaestor
say() { echo "dist: $*" >&2; }

command -v rt > /dev/null || { say "the command rt is not on the path"; exit 2; }
here=$(rt version) || exit 2
sources=$(sh tools/sources.sh)

# Proves and builds: the gate removes what was built before, and leaves a program only where it proved it.
build() {
    rt ci "$@" >&2 || { say "the gate does not pass, so there is no proved program"; exit 1; }
    [ -x "$built" ] || { say "the gate passed and left no $built"; exit 2; }
    [ "$(sh tools/sources.sh)" = "$sources" ] || { say "the sources changed meanwhile"; exit 2; }
    sh tools/example.sh "$built" || { say "the program does not give what the examples say"; exit 1; }
}

if [ "$1" != --verify ]; then
    build
    mkdir -p dist || exit 2
    rm -f dist/quaestor
    cp "$built" dist/quaestor && chmod 755 dist/quaestor || exit 2
    (cd dist && sha256sum quaestor > quaestor.sha256) || exit 2
    echo "$sources" > dist/SOURCES
    echo "$here" > dist/TOOLCHAIN
    size=$(wc -c < dist/quaestor)
    [ "$size" -lt 1000000 ] || say "dist/quaestor has $size bytes, which is 1 MB or more"
    say "wrote dist/quaestor, $size bytes, of sources $sources by $here"
    exit 0
fi

shift
[ -f dist/quaestor ] && [ -f dist/SOURCES ] && [ -f dist/TOOLCHAIN ] || { say "there is no dist/quaestor"; exit 1; }
(cd dist && sha256sum --quiet -c quaestor.sha256) >&2 || { say "dist/quaestor is damaged: it has not the sum in dist/quaestor.sha256"; exit 1; }
[ "$(cat dist/SOURCES)" = "$sources" ] || { say "dist/ is of the sources $(cat dist/SOURCES), and these are $sources: there is nothing to compare"; exit 1; }
other=
[ "$(cat dist/TOOLCHAIN)" = "$here" ] || other=1
[ -z "$other" ] || say "dist/ is by $(cat dist/TOOLCHAIN), and this is $here: other bytes are to be expected"
build "$@"
if cmp -s "$built" dist/quaestor; then
    say "the same bytes: what was proved and built here is dist/quaestor"
elif [ -n "$other" ]; then
    say "other bytes, by another toolchain: $(cat dist/TOOLCHAIN) is needed to compare. What was proved and built here is $built"
    exit 3
else
    say "OTHER BYTES by the same toolchain: do not use dist/quaestor. What was proved and built here is $built"
    exit 1
fi
