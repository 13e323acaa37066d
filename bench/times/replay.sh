#!/bin/sh
# Times `gate_main replay` on a generated script of 100,000 requests over 1,000 connections, and prints requests a
# second. It is no test. It needs the built program: run `rt run` in crates/gate_main first.
#
#     bench/times/replay.sh [PROGRAM]
set -eu

here=$(cd "$(dirname "$0")/../.." && pwd)
program=${1:-$here/crates/gate_main/out/gate_main}
connections=1000
requests=100

if [ ! -x "$program" ]; then
    echo "no program at $program: run 'rt run' in crates/gate_main" >&2
    exit 2
fi

folder=$(mktemp -d)
trap 'rm -rf "$folder"' EXIT

awk -v connections="$connections" -v requests="$requests" 'BEGIN {
    print "grid 3 10 5 1000000 -"
    for (id = 1; id <= connections; id++) print "open " id
    for (turn = 1; turn <= requests; turn++)
        for (id = 1; id <= connections; id++) {
            print "bytes " id " GET /uri/URI:LIT:mzxw6ytboi HTTP/1.1\\r\\nHost: g\\r\\n\\r\\n"
            print "take " id " 65536"
        }
}' > "$folder/script"

before=$(date +%s%N)
"$program" replay < "$folder/script" > "$folder/answers"
after=$(date +%s%N)

replies=$(grep -c '^bytes HTTP/1.1 200 OK' "$folder/answers" || true)
awk -v replies="$replies" -v wanted="$((connections * requests))" -v nanoseconds="$((after - before))" 'BEGIN {
    printf "%d of %d requests answered in %.2f seconds: %.0f requests a second\n", replies, wanted, nanoseconds / 1e9, replies / (nanoseconds / 1e9)
    exit replies == wanted ? 0 : 1
}'
