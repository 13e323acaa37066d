#!/bin/bash
# `reshape`: files and directories are put into three folders under a secret, and their shares laid into five, into two, from
# five back into three, and into one. What is laid is, file by file, what uploads at a gateway with so many servers put:
# it is compared with such folders. Each is served: every cap reads the same bytes, each file has all its shares good, and
# `check` and `repair` find nothing to tell. The folders that are read stay as they are.
# Then a kill in the middle, after which nothing of the new folders is served, and the same call again; folders that are
# rotten, with other bytes under one name, or with a share that isn't the grid's; each refusal, and that nothing is written
# where one comes.
# It needs curl, jq and python3.
# usage: bench/checks/reshape.sh WOZHINNAM
set -eu
program=${1:?usage: bench/checks/reshape.sh WOZHINNAM}
here=$(cd "$(dirname "$0")" && pwd)
. "$here/../tools/server.sh"
command -v jq > "$folder/nothing" || fail 'there is no jq'
printf 'a secret' > "$folder/secret"

# The paths of so many folders of a grid of this name: `folders NAME COUNT`.
folders() {
    for at in $(seq 0 $(($2 - 1))); do printf ' %s/%s/%s' "$folder" "$1" "$at"; done
}
# Serves those folders: `serve NAME COUNT`.
serve() {
    words=
    for each in $(folders "$1" "$2"); do words="$words --store dir:$each"; done
    start --shares 2,5 --secret-file "$folder/secret" $words
}
# Runs `reshape` with these words, and sees that it ends with this status: `ends STATUS WHERE WORD..`.
ends() {
    wanted=$1
    where=$2
    shift 2
    status=0
    "$program" reshape "$@" > "$folder/said" 2> "$folder/told" || status=$?
    test "$status" = "$wanted" || fail "reshape ends with $status $where: $(cat "$folder/said" "$folder/told")"
}
says() {
    grep -q "$1" "$folder/said" || fail "$2: $(cat "$folder/said")"
}
tells() {
    grep -q "$1" "$folder/told" || fail "$2: $(cat "$folder/told")"
}
# What stands in a grid's folders, with its bytes.
sums() {
    (cd "$folder/$1" && find . -type f ! -name lock -exec sha256sum {} + | sort -k 2)
}
same() {
    diff -r -x lock -x new "$folder/$1" "$folder/$2" > "$folder/differs" || fail "$1 has other shares than $2: $(head -n 5 "$folder/differs")"
}
put_all() {
    for each in "$folder"/files/*; do $curl -f -T "$each" "$base/uri"; echo; done > "$folder/caps.$1"
    printf '{"a name":["filenode",{"ro_uri":"%s","metadata":{"x":1}}]}' "$(sed -n 2p "$folder/caps.$1")" > "$folder/children"
    $curl -f --data-binary @"$folder/children" "$base/uri?t=mkdir-immutable" > "$folder/directory.$1"
}
# Serves folders, reads each file under its cap, and sees that all shares are good: `whole NAME COUNT`.
whole() {
    "$program" check $(folders "$1" "$2") > "$folder/said" 2>&1 || fail "$1: check ends with $?: $(cat "$folder/said")"
    "$program" repair $(folders "$1" "$2") > "$folder/said" 2> "$folder/told" || fail "$1: repair ends with $?"
    says ' 0 repaired, 0 shares put, 0 lost, 0 unfinished$' "$1: a repair isn't idle"
    serve "$1" "$2"
    line=0
    for each in "$folder"/files/*; do
        line=$((line + 1))
        cap=$(sed -n ${line}p "$folder/caps.old")
        $curl -f -o "$folder/back" "$base/uri/$cap" || fail "$1: ${each##*/} isn't read"
        cmp "$each" "$folder/back" || fail "$1: ${each##*/} is read with other bytes"
        case $cap in
            URI:LIT:*) ;;
            *)
                good=$($curl -X POST "$base/uri/$cap?t=check&output=JSON&verify=true" | jq '.results["count-shares-good"]')
                test "$good" = 5 || fail "$1: ${each##*/} has $good good shares"
                ;;
        esac
    done
    listed=$($curl -f "$base/uri/$(cat "$folder/directory.old")?t=json" | jq -r '.[1].children["a name"][1].ro_uri')
    test "$listed" = "$(sed -n 2p "$folder/caps.old")" || fail "$1: the directory has another child"
    stop
}

mkdir "$folder/files" "$folder/old" "$folder/five" "$folder/two" "$folder/three" "$folder/one" "$folder/fresh5" "$folder/fresh2"
: > "$folder/files/0"
for size in 40 56 3000 200000 5000000; do head -c $size /dev/urandom > "$folder/files/$size"; done
for at in $(seq 20); do head -c $((1000 * at)) /dev/urandom > "$folder/files/many$at"; done
serve old 3
put_all old
ends 15 'over folders that are served' $(folders old 3) --into $(folders five 5)
stop
sums old > "$folder/before"

# into more, into fewer, back, and into one
ends 0 'from three to five' $(folders old 3) --into $(folders five 5)
says '^[1-9][0-9]* shares put, 0 there already, 0 left since others stand in their places, 0 rotten files$' 'from three to five'
ends 0 'from three to two' $(folders old 3) --into $(folders two 2)
ends 0 'from five to three' --no-sync --into $(folders three 3) -- $(folders five 5)
ends 0 'from two to one' $(folders two 2) --into $(folders one 1)
sums old | cmp - "$folder/before" || fail 'what is only read was changed'
same three old
for count in 5 2; do
    serve fresh$count $count
    put_all fresh$count
    stop
    cmp "$folder/caps.old" "$folder/caps.fresh$count" || fail "caps differ over $count servers"
done
same five fresh5
same two fresh2
whole five 5
whole two 2
whole one 1
# another time: all is there, and nothing is put
ends 0 'another time' $(folders old 3) --into $(folders five 5)
says '^0 shares put, [1-9][0-9]* there already, 0 left' 'another time'

# refused, and nothing is written
mkdir "$folder/none" "$folder/full" "$folder/full/0"
: > "$folder/full/0/a file"
sums five > "$folder/before"
ends 24 'over too few folders' $(folders old 2) --into $(folders none 2)
ends 18 'over folders in another order' "$folder/old/1" "$folder/old/0" "$folder/old/2" --into $(folders none 2)
ends 12 'over folders of which one is gone' "$folder/old/0" "$folder/old/1" "$folder/old/3" --into $(folders none 2)
ends 23 'into a folder with files' $(folders old 3) --into "$folder/none/0" "$folder/full/0"
ends 19 'into folders of another number of servers' $(folders old 3) --into $(folders five 4)
ends 18 'into folders in another order' $(folders old 3) --into "$folder/five/1" "$folder/five/0" "$folder/five/2" "$folder/five/3" "$folder/five/4"
ends 12 'into a folder above which there is none' $(folders old 3) --into "$folder/none/0" "$folder/nowhere/1"
ends 2 'into no folders' $(folders old 3)
# `--into` takes 256 paths: one behind them is a folder of the grid, which has no fourth
ends 24 'into too many folders' $(folders old 3) --into $(folders none 257)
test -z "$(ls "$folder/none")" || fail "a call that is refused makes folders: $(ls "$folder/none")"
sums five | cmp - "$folder/before" || fail 'a call that is refused writes'

# a share that isn't the grid's, in folders that were finished
stray=$(find "$folder/five/0" -name '*.[0-9]' | head -n 1)
cp "$stray" "${stray%.*}.77"
ends 23 'where a stranger stands' $(folders old 3) --into $(folders five 5)
tells "$folder/five/0: the folder isn't empty" "the folder of a stranger isn't named"
rm "${stray%.*}.77"

# a rotten file is left, told and counted; repair puts its share
cp -r "$folder/old" "$folder/rotten"
spoiled=$(find "$folder/rotten/1" -name '*.[0-9]' -size +50k | head -n 1)
printf zzz | dd of="$spoiled" bs=1 seek=50 conv=notrunc 2> "$folder/nothing"
mkdir "$folder/mended"
ends 28 'over a rotten file' $(folders rotten 3) --into $(folders mended 5)
says ' 0 left since others stand in their places, 1 rotten files$' 'a rotten file'
tells "rotten and left alone: $spoiled" "a rotten file isn't named"
"$program" repair $(folders mended 5) > "$folder/said" 2> "$folder/told" || fail "a repair after it ends with $?"
says ', 1 repaired, 1 shares put, 0 lost, 0 unfinished$' 'a repair after it'
same mended five

# other bytes under one name at two servers: those of the first one are laid
cp -r "$folder/old" "$folder/twice"
one=$(find "$folder/twice/1" -name '*.[0-9]' -size +50k | head -n 1)
other=$(find "$folder/twice/2" -name '*.[0-9]' -size +50k | head -n 1)
cp "$other" "$folder/twice/2/${one#"$folder/twice/1/"}"
mkdir "$folder/first"
ends 28 'over other bytes under one name' $(folders twice 3) --into $(folders first 5)
says ' 1 left since others stand in their places, 0 rotten files$' 'other bytes under one name'
tells "left, since other bytes stand in its place: share ${one##*.} of $(basename "${one%.*}") at server 2" 'what is left is named'
same first five

# a kill in the middle, and the same call again
serve old 3
for _ in $(seq 150); do head -c 40000 /dev/urandom | $curl -f -o "$folder/said" -T - "$base/uri"; done
stop
mkdir "$folder/at_once" "$folder/cut"
ends 0 'with many files' $(folders old 3) --into $(folders at_once 4)
"$program" reshape $(folders old 3) --into $(folders cut 4) > "$folder/said" 2> "$folder/told" &
server=$!
for _ in $(seq 6000); do
    test "$(find "$folder/cut" -name '*.[0-9]' | wc -l)" -lt 100 || break
    sleep 0.01
done
kill -9 "$server"
wait "$server" 2> "$folder/nothing" && fail 'a call ended before it was killed'
server=
test -z "$(find "$folder/cut" -name grid)" || fail 'what was cut off has settings'
status=0
timeout 60 "$program" serve --shares 2,5 --secret-file "$folder/secret" $(for each in $(folders cut 4); do echo "--store dir:$each"; done) > "$folder/nothing" 2>&1 || status=$?
test "$status" = 16 || fail "a start over what was cut off ends with $status"
ends 19 'into what was cut off, as another number of folders' $(folders old 3) --into $(folders cut 3)
ends 0 'after a kill' $(folders old 3) --into $(folders cut 4)
says '^[1-9][0-9]* shares put, [1-9][0-9]* there already, 0 left' 'after a kill'
same cut at_once
whole cut 4
echo 'reshape: all as it is to be'
