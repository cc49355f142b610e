#!/bin/sh
# Measures `quaestor serve` over the loopback interface with wrk: `sh tools/bench.sh`, or `make bench`. It
# prints the machine, the commands and a table: loads of reads, of writes, and of nine reads to one write,
# by 1, 16 and 64 connections. Each is measured at a server of its own, which it starts, fills and stops.
# A request that is not answered by 200 or 201 counts as an error. CPU is the server's time a request, by
# the clock of the system, in hundredths of a second.
#
# It needs curl, wrk and the proved program: what `make program` built, or else dist/quaestor, whatever sources
# that is of. These change what it measures:
#   BENCH_SECONDS       of each measurement; 5
#   BENCH_CONNECTIONS   "1 16 64"
#   BENCH_LOADS         "get put mix"
#   BENCH_RECORDS       10000
#   BENCH_FILL          seconds that putting them takes at most; 2
#   BENCH_SIZE          of a document, in bytes; 200
#   BENCH_PROGRAM       the program
#   BENCH_PORT          18080
cd "$(dirname "$0")/.." || exit 2
LC_ALL=C; export LC_ALL
seconds=${BENCH_SECONDS:-5}
connections=${BENCH_CONNECTIONS:-1 16 64}
loads=${BENCH_LOADS:-get put mix}
records=${BENCH_RECORDS:-10000}
fill=${BENCH_FILL:-2}
size=${BENCH_SIZE:-200}
built=crates/quaestor/out/quaestor
[ -x "$built" ] || built=dist/quaestor
program=${BENCH_PROGRAM:-$built}
address=127.0.0.1:${BENCH_PORT:-18080}

command -v wrk > /dev/null || { echo "bench: wrk is not installed (Debian, Ubuntu: apt-get install wrk)" >&2; exit 2; }
[ -x "$program" ] || { echo "bench: there is no $program; 'make program' builds it" >&2; exit 2; }

out=$(mktemp -d) || exit 2
server=
stop() { [ -n "$server" ] && kill "$server" 2> /dev/null && wait "$server" 2> /dev/null; server=; }
trap 'stop; rm -rf "$out"' EXIT
trap 'exit 1' INT TERM

start() {
    : > "$out/server"
    "$program" serve "$address" --workers 64 > "$out/server" 2>&1 &
    server=$!
    tries=0
    until grep -q '^listening on ' "$out/server"; do
        tries=$((tries + 1))
        kill -0 "$server" 2> /dev/null && [ "$tries" -le 100 ] || { echo "bench: the server does not listen:" >&2; cat "$out/server" >&2; exit 1; }
        sleep 0.1
    done
    curl -s -m 60 -o "$out/first" "http://$address/v1/stats" || { echo "bench: the server does not answer" >&2; exit 1; }
}

# The server's CPU time so far, in hundredths of a second.
cpu() { sed 's/.*) //' "/proc/$server/stat" | awk '{ print $12 + $13 }'; }

# measure LOAD CONNECTIONS: one row of the table
measure() {
    start
    wrk -t 1 -c 1 -d "${fill}s" -s tools/bench.lua "http://$address" -- fill "$records" "$size" > "$out/fill" 2>&1
    curl -s "http://$address/v1/stats" | grep -q "\"commits\":$records[,}]" || { echo "bench: not all records were put in $fill seconds; BENCH_FILL says how many" >&2; exit 1; }
    threads=$(($2 < 4 ? $2 : 4))
    before=$(cpu)
    wrk -t "$threads" -c "$2" -d "${seconds}s" --latency -s tools/bench.lua "http://$address" -- "$1" "$records" "$size" > "$out/wrk" 2>&1
    after=$(cpu)
    memory=$(awk '/^VmRSS:/ { print int($2 / 1024) }' "/proc/$server/status")
    stop
    awk -v load="$1" -v connections="$2" -v ticks=$((after - before)) -v memory="$memory" '
        /^ +50%/ { half = $2 }
        /^ +99%/ { most = $2 }
        / requests in / { requests = $1 }
        /^Requests\/sec:/ { rate = $2 }
        /Non-2xx or 3xx responses:/ { errors += $NF }
        /Socket errors:/ { gsub(/,/, ""); errors += $4 + $6 + $8 + $10 }
        END {
            if (!requests) { print "bench: wrk measured nothing" > "/dev/stderr"; exit 1 }
            printf "| %s | %d | %d | %s | %s | %.1f us | %d MB | %d |\n", load, connections, rate, half, most, 10000 * ticks / requests, memory, errors
        }' "$out/wrk" || { cat "$out/wrk" >&2; exit 1; }
}

echo "Machine: $(nproc) processors, $(sed -n 's/^model name[^:]*: //p' /proc/cpuinfo | head -1), Linux $(uname -r)"
echo "Date: $(date -u +%Y-%m-%d)"
echo "Revision: $(git describe --always --dirty 2> /dev/null || echo unknown)"
echo "Server: quaestor serve $address --workers 64"
echo "Client: wrk -t THREADS -c CONNECTIONS -d ${seconds}s --latency -s tools/bench.lua http://$address -- LOAD $records $size, up to 4 threads, on the same machine"
echo "Records: $records of $size bytes"
echo
echo "| Load | Connections | Requests a second | Median | 99 % | CPU a request | Memory | Errors |"
echo "|---|---|---|---|---|---|---|---|"
for load in $loads; do
    for count in $connections; do measure "$load" "$count"; done
done
