#!/bin/sh
# Each allocation of a put, a get and a request that waits beside them is refused in turn. The program is run without its
# proof: one allocation of each run, with a fixed number, is refused, and the runs differ in how many come before the
# exchange. Each has to end in `served`, `cut` (a piece was refused memory, its connection is cut, and the one that
# waited is answered) or `refused` (another call was refused memory).
set -eu
cd "$(dirname "$0")/../../crates/gate_bench"
last=260
folder=$(mktemp -d)
trap 'rm -rf "$folder"' EXIT

# The runs are shared out among half as many builds as there are processors: each build keeps two of them busy.
builds=$((($(nproc) + 1) / 2))
parts=$(seq 0 $((builds - 1)))
for part in $parts; do
    mkdir "$folder/$part"
done
for before in $(seq 0 $last); do
    name=$(printf '%d/%04d' $((before % builds)) "$before")
    : > "$folder/$name"
    echo "$before" > "$folder/$name.args"
done
running=
for part in $parts; do
    rt try --fail-alloc $last --cases "$folder/$part" -- refusal > "$folder/answers.$part" 2>&1 &
    running="$running $!"
done
for part in $running; do
    wait "$part" || failed=yes
done
cat "$folder"/answers.* > "$folder/all"
test -z "${failed-}" || {
    cat "$folder/all"
    exit 1
}

count() { grep -c "^$1\$" "$folder/all" || true; }
served=$(count served) cut=$(count cut) refused=$(count refused)
echo "allocations refused in turn: $cut cut a connection, $refused refused a call, $served runs met none"
# The first run's exchange is over before the refused allocation, so none of its allocations is left out.
grep -A 1 '^== 0000$' "$folder/all" | grep -q '^served$'
test "$cut" -gt 0
test "$refused" -gt 0
test $((served + cut + refused)) -eq $((last + 1))
