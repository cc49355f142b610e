#!/bin/sh
# Shows that calls take no memory: `sh tools/no_memory.sh CRATE MODULE::TEST`, with a crate
# of tests. The test does all that may take memory with `?`, then the calls, and ends with an allocation of which it asserts that it
# succeeds. Each run refuses one allocation. The script finds the last one whose refusal ends the test
# as out of memory. If the calls take none, the next refusal is that of the assertion.
crate=${1:?a crate}
name=${2:?a test, as module::test}
cd "$(dirname "$0")/../crates/$crate" || exit 2

# How the test ends where this allocation fails.
ended() {
    rt try --test --fail-alloc "$1" 2>&1 | awk -v name="$name" '
        $1 == "test" && $2 ~ /::/ { here = ($2 == name); if (here && $NF == "ok") { print "passed"; exit } next }
        here && /error: Memory/ { print "refused"; exit }
        here && /the next allocation was refused/ { print "asserted"; exit }'
}

low=0
high=64
while how=$(ended $high) && [ "$how" = refused ]; do
    low=$high
    high=$((high * 2))
done
while [ $((high - low)) -gt 1 ]; do
    middle=$(((low + high) / 2))
    at=$(ended $middle)
    if [ "$at" = refused ]; then
        low=$middle
    else
        high=$middle
        how=$at
    fi
done
echo "$crate: $name: $low allocations before the calls; the next refused one: $how"
[ "$how" = asserted ]
