#!/bin/sh
# What docs/OPERATING.md says of `serve --missing PATH`, by the built program over five folders, one of which is
# gone: no start without `--missing`, and one with it; each file and directory is read, a check counts the shares that are
# left, an upload is 503 `store down`, the log and the control requests tell it, and nothing is made in its place, also
# where an empty folder stands there. The folder comes back: with `--missing` it is left alone, which is told, and without
# it all shares are there. Then what is refused: a path of no store, one that is `--new` too, all folders missing, a new
# folder beside one that is missing; the other folders in another order, of fewer servers or with another K. Too few shares
# where four are missing, a file of options, and Redis servers that are down beside a missing folder.
# Over folders and memory, and over folders alone. It needs curl and jq.
# usage: bench/checks/missing.sh WOZHINNAM
set -eu
program=${1:?usage: bench/checks/missing.sh WOZHINNAM}
here=$(cd "$(dirname "$0")" && pwd)
. "$here/../tools/server.sh"
command -v jq > "$folder/nothing" || fail 'there is no jq'

# The stores of the grid, in this order.
stores() {
    for at in "$@"; do
        printf ' --store dir:%s/%s%s' "$grid" "$at" "$kind"
    done
}
# A start that ends by itself: its status, and words on standard error.
ends() {
    wanted=$1
    words=$2
    shift 2
    status=0
    timeout 60 "$program" serve "$@" > "$folder/given" 2> "$folder/why" || status=$?
    test "$status" = "$wanted" || fail "'$kind': serve $* ends with $status and not $wanted"
    grep -qF -e "$words" "$folder/why" || fail "'$kind': serve $* doesn't say: $words"
}
told() {
    grep -qF -e "$1" "$folder/words" || fail "'$kind': the log doesn't say: $1"
}
# How many shares of a cap are good, by a check that looks at them.
good() {
    $curl -X POST "$base/uri/$1?t=check&output=JSON&verify=true" | jq '.results["count-shares-good"]'
}
reads() {
    for at in 1 2 3; do
        $curl -f -o "$folder/back" "$base/uri/$(cat "$folder/cap$at")" || fail "'$kind': file $at isn't read $1"
        cmp "$folder/file$at" "$folder/back" || fail "'$kind': file $at has other bytes $1"
    done
    $curl -f -o "$folder/back" "$base/uri/$directory/name" || fail "'$kind': a directory isn't read $1"
    cmp "$folder/file1" "$folder/back" || fail "'$kind': a directory leads to other bytes $1"
}
# What the reply to a put of a file is: `status words`.
puts() {
    printf '%s ' "$($curl -o "$folder/said" -w '%{http_code}' -T "$1" "$base/uri")"
    cat "$folder/said"
}
figure() {
    $curl "$control/status" | jq ".stores[$1].$2"
}
sums() {
    (cd "$1" && find . -type f -exec cksum {} + | sort)
}

for at in 1 2 3; do
    head -c "$((at * at * 20000))" /dev/urandom > "$folder/file$at"
done
head -c 3000 /dev/urandom > "$folder/new"
for kind in '' :10000000,disk; do
    grid=$folder/grid${kind:+disk}
    mkdir "$grid"
    start $(stores 0 1 2 3 4)
    for at in 1 2 3; do
        $curl -f -T "$folder/file$at" "$base/uri" > "$folder/cap$at"
    done
    directory=$(printf '{"name":["filenode",{"ro_uri":"%s","metadata":{}}]}' "$(cat "$folder/cap1")" |
        $curl -f --data-binary @- "$base/uri?t=mkdir-immutable")
    stop
    mv "$grid/2" "$folder/away"
    sums "$folder/away" > "$folder/sums"

    # nothing starts without it being said, and then all is served but uploads
    ends 31 "$grid/2: the folder is new" $(stores 0 1 2 3 4)
    for place in absent empty; do
        test "$place" = absent || mkdir "$grid/2"
        start $(stores 0 1 2 3 4) --missing "$grid/2"
        told "$grid/2: missing, as --missing says"
        ! grep -q 'it is there' "$folder/words" || fail "'$kind': a folder that is gone is told to be there"
        reads "with a folder $place"
        test "$(good "$(cat "$folder/cap2")")" = 8 || fail "'$kind': other than 8 shares are good with a folder $place"
        for file in new file3; do
            test "$(puts "$folder/$file")" = '503 store down' || fail "'$kind': a put of $file with a folder $place: $(puts "$folder/$file")"
        done
        reads "after uploads with a folder $place"
        test "$(figure 2 failures)" -gt 0 || fail "'$kind': /status has no failures of a missing folder"
        test "$(figure 2 held) $(figure 2 room)" = '0 0' || fail "'$kind': a missing folder holds something"
        for at in 0 1 3 4; do
            test "$(figure "$at" failures)" = 0 || fail "'$kind': store $at fails beside a missing folder"
        done
        $curl "$control/metrics" | grep -q '^wozhinnam_store_failures_total{.*"2"} [1-9]' || fail "'$kind': /metrics has no failures"
        stop
        told 'store 2 fails'
    done
    test -z "$(ls -A "$grid/2")" || fail "'$kind': something was made in an empty folder that is missing"
    rmdir "$grid/2"

    # it is back, and left alone while it is said to be missing
    mv "$folder/away" "$grid/2"
    start $(stores 0 1 2 3 4) --missing "$grid/2"
    told "$grid/2: it is there, and is left alone because of --missing"
    reads 'beside a folder that is left alone'
    test "$(good "$(cat "$folder/cap1")")" = 8 || fail "'$kind': a folder is read that is said to be missing"
    stop
    sums "$grid/2" | cmp - "$folder/sums" || fail "'$kind': a folder was written that is said to be missing"

    # and whole without it; the uploads that were refused are made again
    start $(stores 0 1 2 3 4)
    ! grep -q missing "$folder/words" || fail "'$kind': a folder is still told to be missing"
    reads 'after all'
    for at in 1 2 3; do
        test "$(good "$(cat "$folder/cap$at")")" = 10 || fail "'$kind': file $at hasn't all its shares in the end"
    done
    cap=$($curl -f -T "$folder/new" "$base/uri")
    test "$(good "$cap")" = 10 || fail "'$kind': an upload that was refused hasn't all its shares"
    stop

    # what is refused
    ends 2 '--missing wants' $(stores 0 1 2 3 4) --missing "$grid/5"
    ends 2 '--missing wants' $(stores 0 1 2 3 4) --missing "$grid/2/"
    ends 2 '--missing wants' --store mem:1 --missing mem:1
    ends 2 '--new wants' $(stores 0 1 2 3 4) --missing "$grid/2" --new "$grid/2"
    ends 2 '--missing names' $(stores 0 1) --missing "$grid/0" --missing "$grid/1"
    ends 18 "$grid/1" $(stores 1 0 2 3 4) --missing "$grid/2"
    ends 19 '5 servers and not 4' $(stores 0 1 2 3) --missing "$grid/2"
    ends 19 '3 shares needed and not 2' --shares 2,10 $(stores 0 1 2 3 4) --missing "$grid/2"
    ends 31 "$grid/n: the folder is new" $(stores n 2) --missing "$grid/2"
    test ! -e "$grid/n" || fail "'$kind': a grid is begun beside a folder that is missing"
    ends 31 "$grid/n: the folder is new" $(stores n 1 2 3 4) --missing "$grid/2"

    # four of five: two shares of a file are left where three are needed; then three, by a file of options
    start $(stores 0 1 2 3 4) --missing "$grid/0" --missing "$grid/1" --missing "$grid/2" --missing "$grid/4"
    status=$($curl -o "$folder/said" -w '%{http_code}' "$base/uri/$(cat "$folder/cap1")")
    test "$status $(cat "$folder/said")" = '410 not enough shares' || fail "'$kind': with four folders missing a file is $status"
    stop
    printf 'store = [' > "$folder/options.toml"
    for at in 0 1 2 3 4; do printf '"dir:%s/%s%s",' "$grid" "$at" "$kind"; done >> "$folder/options.toml"
    printf ']\nmissing = ["%s/1", "%s/3"]\n' "$grid" "$grid" >> "$folder/options.toml"
    start --config "$folder/options.toml"
    told "$grid/1: missing"
    told "$grid/3: missing"
    reads 'by a file of options'
    test "$(good "$cap")" = 6 || fail "'$kind': other than 6 shares are good with two folders missing"
    stop
    start --config "$folder/options.toml" --missing "$grid/0"
    ! grep -q "$grid/1: missing" "$folder/words" || fail "'$kind': the command line doesn't count for --missing"
    stop

    # stores of other kinds beside it; the Redis server is down too
    start --shares 1,3 --store "dir:$grid/x$kind" --store "dir:$grid/y$kind" --store redis:127.0.0.1:1
    stop
    rm -r "$grid/y"
    start --shares 1,3 --store "dir:$grid/x$kind" --store "dir:$grid/y$kind" --store redis:127.0.0.1:1 --missing "$grid/y"
    told 'redis:127.0.0.1:1: served without, until it answers'
    told "$grid/y: missing"
    test "$(puts "$folder/new")" = '503 store down' || fail "'$kind': a put beside a Redis server that is down: $(puts "$folder/new")"
    stop
    test ! -e "$grid/y" || fail "'$kind': a folder that is missing was made beside a Redis server"
done
echo 'missing: all as it is to be'
