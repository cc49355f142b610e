#!/bin/sh
# Runs a program over the examples and compares what it writes with the stored replies: `sh tools/example.sh
# [PROGRAM]`, or `make example`. The program is ./quaestor where none is named. The status is 1 where any differs.
cd "$(dirname "$0")/.." || exit 2
program=${1:-./quaestor}
status=0
for file in examples/*.http; do
    "$program" pipe --clock 100 < "$file" | cmp - "${file%.http}.reply" || status=1
done
exit $status
