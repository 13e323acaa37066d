#!/bin/sh
# A year in some minutes: one grid of five servers through what befalls disks and servers in the long run, by the built
# program, with what the operator types at each turn (it is printed). Two folders with memory, one folder alone, one folder
# alone on a small disk (a file system in memory, if this user may mount one, or else a folder with little room), and a
# Redis server, or a fifth folder where there is no redis-server. After each turn every file and directory whose cap was
# answered is read and has its bytes, and in the end each has all its shares.
# The turns: a disk dies, the grid is served without it, and a new disk is repaired; the Redis server goes down, comes
# back, and is lost and repaired; a disk fills and is emptied; bytes of a disk rot; the machine stops in the middle of
# uploads; a new version of the program takes over; a mount that was forgotten; two disks at once.
# With OLD, a program of an earlier version, the year begins with that one.
# usage: bench/checks/year.sh WOZHINNAM [OLD]
set -eu
program=${1:?usage: bench/checks/year.sh WOZHINNAM [OLD]}
here=$(cd "$(dirname "$0")" && pwd)
. "$here/../tools/server.sh"
command -v jq > "$folder/nothing" || fail 'there is no jq'
new=$program
program=${2:-$new}
grid=$folder/grid
port=17381
caps=0
refusals=4 # the uploads that August cuts off, and those that are refused

begin_redis() {
    redis-server --port "$port" --bind 127.0.0.1 --save '' --appendonly yes --appendfsync always --daemonize yes \
        --dir "$folder/redis" --pidfile "$folder/redis/pid" > "$folder/nothing"
    for _ in $(seq 100); do
        test "$(redis-cli -p "$port" ping 2> "$folder/nothing")" != PONG || return 0
        sleep 0.1
    done
    fail "there is no Redis server at $port"
}
end_redis() {
    test ! -e "$folder/redis" || redis-cli -p "$port" shutdown > "$folder/nothing" 2>&1 || true
}
end_year() {
    kill_server
    end_redis
    umount "$grid/small" 2> /dev/null || true
    finish
}
trap end_year EXIT

turn() {
    echo "$1"
}
types() {
    echo "    \$ wozhinnam $*" | sed "s|$folder/||g"
}
# `serve` with these words behind the stores, which are in $stores.
serves() {
    types "serve \$stores $*"
    start $stores "$@"
}
# A command that ends by itself: the status that is wanted, and its words.
ends() {
    wanted=$1
    shift
    types "$*"
    status=0
    timeout 300 "$program" "$@" > "$folder/given" 2> "$folder/why" || status=$?
    test "$status" = "$wanted" || fail "$1 ends with $status and not $wanted: $(tail -n 3 "$folder/given")"
}
# Repair, which leaves nothing unfinished. What of an upload that was refused stands in too few shares is told as lost.
repairs() {
    types "repair $*"
    status=0
    timeout 300 "$program" repair "$@" > "$folder/given" 2> "$folder/why" || status=$?
    told=$(tail -n 1 "$folder/given")
    case $status,$told in
        0,*' 0 lost, 0 unfinished' | 28,*' lost, 0 unfinished') ;;
        *) fail "a repair ends with $status: $told" ;;
    esac
    test "$(grep -c ': lost' "$folder/given" || true)" -le "$refusals" || fail "more files are lost than uploads were refused: $told"
}
refused() {
    wanted=$1
    words=$2
    shift 2
    ends "$wanted" serve $stores "$@"
    grep -qF -e "$words" "$folder/why" || fail "a start that is refused doesn't say: $words"
}
# Puts so many files of about so many bytes, each with a cap that is kept, and a directory over the last one.
puts() {
    for _ in $(seq "$1"); do
        caps=$((caps + 1))
        head -c "$(($2 + caps))" /dev/urandom > "$folder/file$caps"
        $curl -f -T "$folder/file$caps" "$base/uri" > "$folder/cap$caps" || fail "file $caps isn't taken"
    done
    printf '{"name":["filenode",{"ro_uri":"%s","metadata":{}}]}' "$(cat "$folder/cap$caps")" |
        $curl -f --data-binary @- "$base/uri?t=mkdir-immutable" > "$folder/directory$caps"
}
all_read() {
    for at in $(seq "$caps"); do
        $curl -f -o "$folder/back" "$base/uri/$(cat "$folder/cap$at")" && cmp "$folder/file$at" "$folder/back" || fail "file $at isn't read $1"
        test ! -e "$folder/directory$at" || {
            $curl -f -o "$folder/back" "$base/uri/$(cat "$folder/directory$at")/name" && cmp "$folder/file$at" "$folder/back" ||
                fail "a directory of file $at isn't read $1"
        }
    done
}
# Each file and directory has all its shares, which are looked at.
all_whole() {
    for each in $(cat "$folder"/cap[0-9]* "$folder"/directory[0-9]* | sed 's/URI:/ URI:/g'); do
        count=$($curl -X POST "$base/uri/$each?t=check&output=JSON&verify=true" | jq '.results["count-shares-good"]')
        test "$count" = 10 || fail "$count shares of a file are good $1"
    done
}
# What a put is answered, which is to be refused: its status and words.
refuses() {
    refusals=$((refusals + 1))
    head -c 30000 /dev/urandom > "$folder/refused"
    said=$($curl -o "$folder/said" -w '%{http_code} ' -T "$folder/refused" "$base/uri")$(cat "$folder/said")
    test "$said" = "$1" || fail "a put $2 is answered $said and not $1"
}

mkdir "$grid" "$grid/small"
if mount -t tmpfs -o size=12m tmpfs "$grid/small" 2> "$folder/nothing"; then
    small=$grid/small/store:1G,disk
    is_small=mounted
else
    echo 'no file system in memory can be mounted: a store with little room is in the place of the disk that fills'
    small=$grid/small/store:6M,disk
    is_small=room
fi
if command -v redis-server > "$folder/nothing"; then
    mkdir "$folder/redis"
    begin_redis
    fifth=redis:127.0.0.1:$port
    place=$fifth
else
    echo 'there is no redis-server: a fifth folder is in its place'
    fifth=dir:$grid/e
    place=$grid/e
fi
stores="--store dir:$grid/a --store dir:$grid/b --store dir:$grid/c:1G,disk --store dir:$small --store $fifth"
places="$grid/a $grid/b $grid/c $grid/small/store $place"

turn 'January: a grid is begun'
serves
puts 12 20000
all_read 'in January'
all_whole 'in January'
stop

turn 'February: the disk of b dies; the others are served without it'
rm -r "$grid/b"
refused 31 "$grid/b: the folder is new"
serves --missing "$grid/b"
all_read 'without a disk'
refuses '503 store down' 'without a disk'
stop

turn 'March: a new disk is in its place'
repairs --new "$grid/b" $places
serves
all_read 'after a repair'
all_whole 'after a repair'
puts 6 40000
stop

if test "$place" != "$grid/e"; then
    turn 'April: the Redis server is down, and comes back'
    serves
    end_redis
    all_read 'without a Redis server'
    refuses '503 store down' 'without a Redis server'
    stop
    serves
    all_read 'at a start without a Redis server'
    stop
    begin_redis
    serves
    all_read 'with a Redis server that is back'
    puts 3 10000
    stop
    turn 'May: the Redis server loses what it had'
    redis-cli -p "$port" flushall > "$folder/nothing"
    repairs $places
    serves
    all_whole 'after a repair of a Redis server'
    stop
fi

turn 'June: a disk is full, and room is made'
serves
if test "$is_small" = mounted; then
    head -c 20000000 /dev/zero > "$grid/small/fill" 2> "$folder/nothing" || true
    refuses '503 store down' 'to a disk that is full'
    all_read 'from a disk that is full'
    rm "$grid/small/fill"
    puts 3 20000
    stop
else
    head -c 16000000 /dev/urandom > "$folder/refused"
    said=$($curl -o "$folder/said" -w '%{http_code} ' -T "$folder/refused" "$base/uri")$(cat "$folder/said")
    test "$said" = '503 store full' || fail "a put to a store without room is answered $said"
    all_read 'from a store that is full'
    stop
    stores=$(echo "$stores" | sed 's/:6M,disk/:1G,disk/')
    serves
    puts 3 20000
    stop
fi

turn 'July: bytes of a disk rot, and a look finds them'
for rotten in $(find "$grid/c" -name '*.[0-9]' | head -n 5); do
    printf z | dd of="$rotten" bs=1 seek=40 conv=notrunc 2> "$folder/nothing"
done
ends 28 check "$grid/a" "$grid/b" "$grid/c" "$grid/small/store"
grep -q ' [1-9][0-9]* rotten' "$folder/given" || fail 'a look finds nothing rotten'
repairs $places
serves
all_whole 'after bytes had rotted'

turn 'August: the machine stops in the middle of uploads'
for at in 1 2 3 4; do
    head -c 9000000 /dev/urandom | $curl -o "$folder/cut$at" -T - "$base/uri" > "$folder/nothing" 2>&1 &
done
sleep 0.4
kill -9 "$(cat /proc/"$server"/task/"$server"/children | tr -d ' ')"
wait "$server" 2> "$folder/nothing" || true
server=
wait
serves
all_read 'after the machine stopped'
stop

turn 'September: a new version'
program=$new
serves
all_read 'by a new version'
puts 4 70000
all_whole 'by a new version'
stop
repairs $places

turn 'October: a mount was forgotten'
mv "$grid/a" "$folder/away"
mkdir "$grid/a"
refused 31 "$grid/a: the folder is new"
test -z "$(ls -A "$grid/a")" || fail 'something was made where a mount was forgotten'
rmdir "$grid/a"
mv "$folder/away" "$grid/a"
serves
all_read 'with all mounted'
stop

turn 'November: two disks die at once'
mv "$grid/b" "$folder/dead1"
mv "$grid/c" "$folder/dead2"
serves --missing "$grid/b" --missing "$grid/c"
all_read 'without two disks'
stop
repairs --new "$grid/b" --new "$grid/c" $places

turn 'December: all is there'
repairs $places
grep -q ' 0 repaired, 0 shares put, ' "$folder/given" || fail 'there is something to repair at the end of the year'
serves
all_read 'at the end of the year'
all_whole 'at the end of the year'
stop
echo "year: all as it is to be: $caps files and their directories"
