#!/bin/sh
# Shows two callers with secrets of their own: equal bytes have two caps, each reads both, and losing the shares of one leaves the other.
# It needs the built program: run `rt run -- replay < stdin` in crates/gate_main first.
# usage: bench/checks/secrets.sh [PROGRAM]
set -eu
here=$(cd "$(dirname "$0")/../.." && pwd)
program=${1:-$here/crates/gate_main/out/gate_main}
test -x "$program" || {
    echo "secrets.sh: there is no program $program: build it by \`rt run\` in crates/gate_main" >&2
    exit 2
}
folder=$(mktemp -d)
trap 'rm -rf "$folder"' EXIT
file=$(printf 'a%.0s' $(seq 56))
blank='\r\n\r\n'

# Puts the file as a caller, and prints its line of answer, which ends with the cap.
put() {
    printf 'bytes %s PUT /uri HTTP/1.1\\r\\nHost: g\\r\\nContent-Length: 56%s%s\ntake %s 1000\n' "$1" "$blank" "$file" "$1"
}
get() {
    printf 'bytes %s GET /uri/%s HTTP/1.1\\r\\nHost: g%s\ntake %s 1000\n' "$1" "$2" "$blank" "$1"
}
callers='grid 3 10 1 1000000 -
open 1 -
open 2 my'
caps() {
    sed -n 's/.*\(URI:CHK:[a-z2-7:0-9]*\)$/\1/p'
}

{ echo "$callers"; put 1; put 2; } > "$folder/puts"
"$program" replay < "$folder/puts" | caps > "$folder/caps"
first=$(sed -n 1p "$folder/caps") second=$(sed -n 2p "$folder/caps")
echo "caller 1 (the empty secret) is told $first"
echo "caller 2 (the secret my)      is told $second"
test -n "$second" && test "$first" != "$second" || {
    echo 'secrets.sh: not two caps' >&2
    exit 1
}

# The storage index of the first cap is told by its check.
{ echo "$callers"; put 1; printf 'bytes 1 POST /uri/%s?t=check&output=JSON HTTP/1.1\\r\\nHost: g%s\ntake 1 1000\n' "$first" "$blank"; } > "$folder/check"
index=$("$program" replay < "$folder/check" | sed -n 's/.*"storage-index":"\([a-z2-7]*\)".*/\1/p')
{
    echo "$callers"
    put 1
    put 2
    get 1 "$second"
    get 2 "$first"
    for number in $(seq 0 9); do
        echo "lose 0 $index $number"
    done
    get 1 "$first"
    get 1 "$second"
} > "$folder/script"
"$program" replay < "$folder/script" | sed -n 's/^bytes HTTP\/1.1 \([0-9]*\).*/\1/p' > "$folder/statuses"
echo "statuses: $(tr '\n' ' ' < "$folder/statuses")"
test "$(tr '\n' ' ' < "$folder/statuses")" = '200 200 200 200 410 200 ' || {
    echo 'secrets.sh: other statuses' >&2
    exit 1
}
echo 'two secrets give two caps; each reads both; without the shares of the first, the second is still read'
