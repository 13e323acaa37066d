#!/bin/sh
# What docs/OPERATING.md says of a folder that is lost and of repair by hand: a lost folder
# gives way to an empty one, which `--new` has to name, or to `mem:1` for as long as there is none; the same bytes put again bring missing and
# rotten shares back under the same cap, and a directory its own by its JSON; a file that became rotten meanwhile and wasn't
# read since wants a start.
# Then `repair`: shares are taken away, a byte of others is changed, a folder is emptied and another one lost, and after it
# `check` is well, each file has ten good shares, and it is read with the folders of two servers alone; a second run changes
# nothing. A share of another file, or of another number, in the place of one; a file of which too few shares are left; a
# kill in the middle, and a run after it.
# Over folders and memory, and over folders alone. Last over three folders and two Redis servers, one of them emptied, if
# there is a redis-server. It needs curl, jq and python3.
# usage: bench/checks/repair.sh WOZHINNAM
set -eu
program=${1:?usage: bench/checks/repair.sh WOZHINNAM}
here=$(cd "$(dirname "$0")" && pwd)
. "$here/../tools/server.sh"
command -v jq > "$folder/nothing" || fail 'there is no jq'

# The stores of a grid of five; `mem:1` is in the place of the one that is named, if one is.
stores() {
    for at in 0 1 2 3 4; do
        if test "$at" = "${1:-none}"; then
            printf ' --store mem:1'
        else
            printf ' --store dir:%s/%s%s' "$grid" "$at" "$kind"
        fi
    done
}
# How many shares of a cap are good, by a check that looks at them.
good() {
    $curl -X POST "$base/uri/$1?t=check&output=JSON&verify=true" | jq '.results["count-shares-good"]'
}
reads() {
    $curl -f -o "$folder/back" "$base/uri/$cap" && cmp "$folder/file" "$folder/back"
}
# Reads a file, puts the same bytes, and sees that all its shares are good.
repair() {
    reads || fail "$1: the file isn't read"
    test "$($curl -f -T "$folder/back" "$base/uri")" = "$cap" || fail "$1: another cap"
    test "$(good "$cap")" = 10 || fail "$1: $(good "$cap") shares are good after a repair"
}
make_rotten() {
    rotten=$(find "$grid/$1" -name '*.[0-9]' -size +50k | head -n 1)
    printf zzz | dd of="$rotten" bs=1 seek=50 conv=notrunc 2> "$folder/nothing"
}

make_all_rotten() {
    for rotten in $(find "$1" -name '*.[0-9]'); do printf z | dd of="$rotten" bs=1 seek=40 conv=notrunc 2> "$folder/nothing"; done
}
# Runs `repair` with these words, and sees that it ends with this status: `ends STATUS WHERE WORD..`.
ends() {
    wanted=$1
    where=$2
    shift 2
    status=0
    "$program" repair "$@" > "$folder/said" 2> "$folder/told" || status=$?
    test "$status" = "$wanted" || fail "'$kind': repair ends with $status $where: $(cat "$folder/said" "$folder/told")"
}
# Nothing is rotten, and nothing is left to be repaired.
is_well() {
    "$program" check "$grid"/* > "$folder/said" 2>&1 || fail "$1: check ends with $?"
    ends 0 'a second time' "$grid"/*
    grep -q ' 0 repaired, 0 shares put, 0 lost, 0 unfinished$' "$folder/said" || fail "$1: a second repair isn't idle"
}

head -c 200000 /dev/urandom > "$folder/file"
for kind in '' :10000000,disk; do
    grid=$folder/grid$kind
    grid=${grid%%:*}${kind:+disk}
    mkdir "$grid"
    start $(stores)
    cap=$($curl -T "$folder/file" "$base/uri")
    directory=$(printf '{"a name":["filenode",{"ro_uri":"%s","metadata":{"x":1}}]}' "$cap" |
        $curl --data-binary @- "$base/uri?t=mkdir-immutable")
    stop

    # lost: `mem:1`, which refuses uploads, and then an empty folder
    rm -r "$grid/2"
    start $(stores 2)
    reads || fail "'$kind': nothing is read with mem:1 in the place of a folder"
    head -c 5000 /dev/urandom > "$folder/new"
    test "$($curl -o "$folder/said" -w '%{http_code}' -T "$folder/new" "$base/uri")" = 503 || fail "'$kind': mem:1 takes a share"
    stop
    status=0
    timeout 60 "$program" serve $(stores) > "$folder/said" 2>&1 || status=$?
    test "$status" = 31 || fail "'$kind': a start ends with $status where a folder is lost"
    test ! -e "$grid/2" || fail "'$kind': a store is begun in place of a folder that is lost"
    status=0
    "$program" check "$grid"/* > "$folder/said" 2>&1 || status=$?
    test "$status" = 28 || fail "'$kind': check ends with $status where a folder is lost"
    grep -q 'server 2 of 5' "$folder/said" || fail "'$kind': check doesn't name the server whose folder is lost"
    start $(stores) --new "$grid/2"
    grep -q "$grid/2: a new folder" "$folder/words" || fail "'$kind': a new folder isn't told"
    test "$(good "$cap")" = 8 || fail "'$kind': $(good "$cap") shares are good with one of five folders lost"
    status=0
    "$program" check "$grid"/* > "$folder/said" 2> "$folder/told" || status=$?
    test "$status" = 28 || fail "'$kind': check ends with $status where files are short of shares"
    grep -qx 'files: 0 whole, [23] with fewer than 10 shares, [01] with fewer than 3' "$folder/said" ||
        fail "'$kind': check counts other files: $(cat "$folder/said")"
    grep -q 'short: [a-z2-7]*: 8 of 10 shares, and 3 are needed' "$folder/told" || fail "'$kind': check names no file"
    # the upload that mem:1 cut off is made again, or too few of its shares may be there
    $curl -f -T "$folder/new" -o "$folder/said" "$base/uri"
    repair "'$kind', lost"
    test "$(good "$directory")" = 8 || fail "'$kind': $(good "$directory") shares of a directory are good"
    again=$($curl "$base/uri/$directory?t=json" | jq '.[1].children' | $curl --data-binary @- "$base/uri?t=mkdir-immutable")
    test "$again" = "$directory" || fail "'$kind': a directory that is made again has another cap"
    test "$(good "$directory")" = 10 || fail "'$kind': a directory isn't repaired"
    stop

    # rotten before a start
    make_rotten 0
    status=0
    "$program" check "$grid"/* > "$folder/said" 2>&1 || status=$?
    test "$status" = 28 || fail "'$kind': check ends with $status over a rotten file"
    start $(stores)
    test "$(good "$cap")" = 9 || fail "'$kind': a rotten share is good"
    repair "'$kind', rotten"
    stop
    "$program" check "$grid"/* > "$folder/said" 2>&1 || fail "'$kind': check ends with $? after a repair"

    # rotten while it runs: a put changes nothing before the next start
    start $(stores)
    make_rotten 1
    $curl -f -T "$folder/file" -o "$folder/said" "$base/uri"
    ! "$program" check "$grid"/* > "$folder/said" 2>&1 || fail "'$kind': what became rotten meanwhile is written again"
    stop
    start $(stores)
    repair "'$kind', rotten meanwhile"
    stop
    "$program" check "$grid"/* > "$folder/said" 2>&1 || fail "'$kind': check ends with $? after the last repair"

    # by the command: the shares of a folder are taken away, a byte is changed in the files of another, a third one is lost
    start $(stores)
    second=$(head -c 3000 /dev/urandom | $curl -T - "$base/uri")
    stop
    find "$grid/4" -name '*.[0-9]' -delete
    make_all_rotten "$grid/0"
    cp -r "$grid/3" "$folder/third"
    rm -r "$grid/3"
    ends 31 'where a folder is lost' "$grid/0" "$grid/1" "$grid/2" "$grid/3" "$grid/4"
    grep -q "$grid/3: the folder is new" "$folder/told" || fail "'$kind': a lost folder isn't named"
    mv "$grid/0" "$folder/zeroth"
    ends 31 'where the first folder is lost' --new "$grid/3" "$grid/0" "$grid/1" "$grid/2" "$grid/3" "$grid/4"
    mv "$folder/zeroth" "$grid/0"
    ends 2 'over new folders alone' "$grid/3" "$grid/5"
    ends 24 'over too few folders' "$grid/0" "$grid/1"
    ends 18 'over folders in another order' --new "$grid/3" "$grid/1" "$grid/0" "$grid/2" "$grid/3" "$grid/4"
    test ! -e "$grid/3" || fail "'$kind': a repair that is refused makes a folder"
    ends 0 'over folders of which two are good' --new "$grid/3" "$grid/0" "$grid/1" "$grid/2" "$grid/3" "$grid/4"
    grep -q ' 0 lost, 0 unfinished$' "$folder/said" || fail "'$kind': files aren't repaired"
    diff -r -x lock "$grid/3" "$folder/third" || fail "'$kind': other shares are put than were lost"
    rm -r "$folder/third"
    is_well "'$kind', by repair"
    start $(stores)
    for each in "$cap" "$second" "$directory"; do
        test "$(good "$each")" = 10 || fail "'$kind': $(good "$each") shares are good after repair"
    done
    stop

    # the other folders are taken away, and the file is read of what was put
    cp -r "$grid" "$grid.kept"
    rm -r "$grid/1" "$grid/2" "$grid/4"
    start $(stores) --new "$grid/1" --new "$grid/2" --new "$grid/4"
    reads || fail "'$kind': the file isn't read of what was put"
    stop
    rm -r "$grid"
    mv "$grid.kept" "$grid"

    # a share of another file stays, and one of another number is no good one
    one=$(find "$grid/0" -name '*.[0-9]' -size +50k | head -n 1)
    number=${one##*.}
    other=$(find "$grid" -name "*.$number" -size -50k | head -n 1)
    cp "$one" "$folder/good"
    cp "$other" "$one"
    ends 28 'where a share of another file stands' "$grid"/*
    grep -q '^[a-z2-7]*: unfinished, 1 good shares' "$folder/said" || fail "'$kind': an unfinished file isn't told"
    grep -q ' 0 lost, 1 unfinished$' "$folder/said" || fail "'$kind': an unfinished file isn't counted"
    cmp "$other" "$one" || fail "'$kind': a good share of another file is touched"
    cp "$(find "$grid" -name "$(basename "${one%.*}").*" ! -name "*.$number" | head -n 1)" "$one"
    ends 0 'where a share has another number' "$grid"/*
    cmp "$folder/good" "$one" || fail "'$kind': another share is put"
    is_well "'$kind', after shares in other places"

    # a kill in the middle, and a run after it
    start $(stores)
    for each in $(seq 150); do head -c 40000 /dev/urandom | $curl -f -o "$folder/said" -T - "$base/uri"; done
    stop
    cp -r "$grid/1" "$folder/first"
    find "$grid/1" -name '*.[0-9]' -delete
    "$program" repair "$grid"/* > "$folder/said" 2> "$folder/told" &
    server=$!
    for _ in $(seq 6000); do
        test "$(grep -c repaired "$folder/said" || true)" -lt 20 || break
        sleep 0.01
    done
    kill -9 "$server"
    wait "$server" 2> "$folder/nothing" && fail "'$kind': a repair ended before it was killed"
    server=
    ! diff -r -x lock "$grid/1" "$folder/first" > "$folder/nothing" || fail "'$kind': a repair was done before it was killed"
    ends 0 'after one that was killed' "$grid"/*
    diff -r -x lock "$grid/1" "$folder/first" || fail "'$kind': after a kill other shares are put than were lost"
    rm -r "$folder/first"
    is_well "'$kind', after a kill"

    # too few shares of one file are left
    find "$grid" -name "$(basename "${one%.*}").*" ! -name "*.$number" -delete
    ends 28 'where a file is lost' "$grid"/*
    grep -q ' 1 lost, 0 unfinished$' "$folder/said" || fail "'$kind': a file that is lost isn't counted"
    cmp "$folder/good" "$one" || fail "'$kind': the last share of a file was touched"
done

if ! command -v redis-server > "$folder/nothing"; then
    echo 'repair: all as it is to be, but there is no redis-server, so over Redis nothing was looked at'
    exit 0
fi

# A Redis server at a port, and whether it is there.
begin_redis() {
    redis-server --port "$1" --bind 127.0.0.1 --save '' --appendonly no --daemonize yes --dir "$folder" --pidfile "$folder/redis.$1" > "$folder/nothing"
    for _ in $(seq 100); do
        test "$(redis-cli -p "$1" ping 2> "$folder/nothing")" != PONG || return 0
        sleep 0.1
    done
    fail "there is no Redis server at $1"
}
end_redis() {
    for port in 17371 17372; do redis-cli -p "$port" shutdown nosave > "$folder/nothing" 2>&1 || true; done
    finish
}
trap end_redis EXIT
kind=redis
grid=$folder/gridredis
mkdir "$grid"
begin_redis 17371
begin_redis 17372
places="$grid/0 redis:127.0.0.1:17371 $grid/2 redis:127.0.0.1:17372/other $grid/4"
redis_stores() {
    for place in $places; do
        case $place in
            redis:*) printf ' --store %s' "$place" ;;
            *) printf ' --store dir:%s' "$place" ;;
        esac
    done
}
start $(redis_stores)
cap=$($curl -T "$folder/file" "$base/uri")
small=$(head -c 3000 /dev/urandom | $curl -T - "$base/uri")
stop
ends 0 'over Redis servers where all is there' $places
grep -q '^2 files, 0 repaired, 0 shares put, 0 lost, 0 unfinished$' "$folder/said" || fail "over Redis servers: $(cat "$folder/said")"
redis-cli -p 17371 flushall > "$folder/nothing"
key=$(redis-cli -p 17372 --scan --pattern 'wozhinnam:other:*' | grep -v grid | head -n 1)
redis-cli -p 17372 set "$key" 'no share' > "$folder/nothing"
find "$grid/0" -name '*.[0-9]' -delete
ends 0 'over a Redis server that was emptied' $places
grep -q '^2 files, 2 repaired, 9 shares put, 0 lost, 0 unfinished$' "$folder/said" || fail "over Redis servers: $(cat "$folder/said")"
start $(redis_stores)
for each in "$cap" "$small"; do
    test "$(good "$each")" = 10 || fail "over Redis servers $(good "$each") shares are good after repair"
done
reads || fail "over Redis servers the file isn't read after repair"
stop
ends 2 'over Redis servers alone' redis:127.0.0.1:17371 redis:127.0.0.1:17372/other
ends 18 'over Redis servers in another order' "$grid/0" redis:127.0.0.1:17372/other "$grid/2" redis:127.0.0.1:17371 "$grid/4"
redis-cli -p 17371 shutdown nosave > "$folder/nothing" 2>&1 || true
ends 29 'over a Redis server that is down' $places
echo 'repair: all as it is to be'
