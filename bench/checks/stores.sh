#!/bin/sh
# `wozhinnam` over folders, the built program: each exit status that a folder or an image can give, that the folder is
# named, that files are read after a restart, `check`, `image` and `restore`, also where standard input, output or error
# is closed, rotten files, strangers and folders in the way, one Redis server under two names, and, where this user may
# mount them, a folder that takes no writes and a disk that fills (a file system in memory). It needs curl, and takes
# half a minute.
# usage: bench/checks/stores.sh PROGRAM
set -eu
program=${1:?usage: bench/checks/stores.sh PROGRAM}
here=$(cd "$(dirname "$0")" && pwd)
. "$here/../tools/server.sh"
end() {
    kill_server
    umount "$folder/disk" 2> /dev/null || true
    umount "$folder/bound" 2> /dev/null || true
    finish
}
trap end EXIT

stores() {
    for at in "$@"; do
        printf ' --store dir:%s/%s' "$folder" "$at"
    done
}
# a run that ends by itself: its status, and that it names what is refused
ends() {
    wanted=$1
    named=$2
    shift 2
    status=0
    timeout 60 "$program" "$@" > "$folder/given" 2> "$folder/why" || status=$?
    test "$status" = "$wanted" || fail "$* ends with $status and not $wanted"
    test -z "$named" || grep -q -e "$named" "$folder/why" || fail "$* doesn't name $named"
}
three='--shares 2,3'

# words
for store in disk:/a dir: mem: mem:1k dir:/a:1k dir:/a:1GB dir:/a:16777216T; do
    ends 2 --store serve --store "$store"
done
ends 2 --room serve --room 1GB
ends 2 --new serve --store dir:/a --new /b

# one Redis server under two names, of which none is asked; and two NAMEs on it, which are two stores
for name in 127.0.0.1:1 127.0.0.1:01 localhost:1; do
    ends 2 'each NAME once' serve --shares 1,1 --store redis:127.0.0.1:1 --store "redis:$name"
    ends 2 'each NAME once' serve --shares 1,1 --store "redis:$name/a" --store redis:127.0.0.1:1/a
done
start --shares 1,1 --store redis:127.0.0.1:1/a --store redis:localhost:1/b
stop

# folders that can't be opened
echo text > "$folder/file"
mkdir "$folder/strange"
echo text > "$folder/strange/README"
ends 12 "$folder/none/0" serve $(stores none/0 none/1)
! grep -q 'a new folder' "$folder/why" || fail 'a folder is told to be new where none can be made'
ends 13 "$folder/file" serve $(stores file)
ends 16 "$folder/strange" serve $(stores strange)
test "$(ls "$folder/strange")" = README || fail 'a folder that was refused was written'
if test "$(id -u)" = 0 && command -v setpriv > "$folder/nothing"; then
    mkdir "$folder/roots"
    chmod 755 "$folder"
    status=0
    setpriv --reuid 65534 --regid 65534 --clear-groups "$program" serve $(stores roots) > "$folder/given" 2> "$folder/why" || status=$?
    test "$status" = 14 || fail "a folder of another user ends with $status"
fi

# a grid of three, two of them in folders that are made
start $three $(stores a b c)
for at in 1 2 3; do
    head -c 20000 /dev/urandom > "$folder/file$at"
    $curl -T "$folder/file$at" "$base/uri" > "$folder/cap$at"
done
ends 15 "$folder/a" serve $three $(stores a b c)
ends 15 "$folder/a" image "$folder/a" "$folder/b" "$folder/c"
stop
start $three $(stores a b c)
for at in 1 2 3; do
    $curl -o "$folder/back" "$base/uri/$(cat "$folder/cap$at")"
    cmp "$folder/file$at" "$folder/back" || fail 'other bytes after a restart'
done
stop

# another grid's, or in another order: what differs is told, and of the secret only whether it does
ends 18 "$folder/b" serve $three $(stores b a c)
ends 19 "$folder/a: .* grid: 2 shares needed and not 1; the same secret" serve --shares 1,3 $(stores a b c)
ends 19 "$folder/a: .* grid: 3 shares made and not 9; the same secret" serve --shares 2,9 $(stores a b c)
ends 19 "$folder/a: .* grid: 3 servers and not 2; the same secret" serve $three $(stores a b)
ends 19 "$folder/a: .* grid: another secret" serve $three --secret-file "$folder/file" $(stores a b c)
ends 19 "$folder/b: .* grid: place 1 and not 0; 3 servers and not 1; 2 shares needed and not 3; 3 shares made and not 10; another secret" \
    serve --secret-file "$folder/file" $(stores b)
! grep -q "$(cat "$folder/file")" "$folder/why" || fail 'a secret is told'
ends 8 '' serve $three --secret-file /dev/zero $(stores a b c)
ends 22 "$folder/a" serve $three $(stores a:10 b c)

# a folder that is gone, or whose disk isn't mounted, is no new store unless that is said
mv "$folder/b" "$folder/away"
ends 31 "$folder/b: .*--new" serve $three $(stores a b c)
ends 31 "$folder/b: .*--new" serve $three $(stores a b c) --new "$folder/a" --new "$folder/c"
test ! -e "$folder/b" || fail 'a store is begun in the place of a folder that is gone'
ends 28 'server 1 of 3' check "$folder/a" "$folder/c"
mkdir "$folder/b"
ends 31 "$folder/b: .*--new" serve $three $(stores a b c)
! grep -q 'a new folder' "$folder/why" || fail 'a folder that is refused is told to be new'
test -z "$(ls -A "$folder/b")" || fail 'a folder that is refused was written'
ends 28 "$folder/b: the folder is empty" check "$folder/a" "$folder/b" "$folder/c"
grep -q 'server 1 of 3' "$folder/why" || fail 'check names no missing server'
ends 16 "$folder/b: the folder is empty" image "$folder/a" "$folder/b" "$folder/c"
start $three $(stores a b c) --new "$folder/b"
grep -q "$folder/b: a new folder" "$folder/words" || fail 'a new folder is not told'
stop
start $three $(stores a b c) --new "$folder/b"
grep -q "$folder/b: it has settings" "$folder/words" || fail 'a --new that says nothing any more is not told'
stop
rm -r "$folder/b"
mv "$folder/away" "$folder/b"
# with a unit: room for what stands there, and too little
start $three $(stores a:1M b:1G c:1T)
stop

# images
ends 0 '' check "$folder/a" "$folder/b" "$folder/c"
ends 28 "$folder/a: .*place 0 too" check "$folder/a" "$folder/b" "$folder/c" "$folder/a"
ends 28 'server 2 of 3' check "$folder/a" "$folder/b"
ends 18 "$folder/b" image "$folder/b" "$folder/a" "$folder/c"
ends 24 "$folder/a" image "$folder/a" "$folder/b"
ends 12 "$folder/none" image "$folder/none"
ends 0 '' image "$folder/a" "$folder/b" "$folder/c"
mv "$folder/given" "$folder/image"
ends 23 "$folder/c" restore $three "$folder/image" "$folder/x" "$folder/y" "$folder/c"
ends 25 '' restore $three "$folder/none" "$folder/x" "$folder/y" "$folder/z"
mkfifo "$folder/pipe"
ends 25 'has to be a file' restore $three "$folder/pipe" "$folder/x" "$folder/y" "$folder/z"
ends 26 '' restore $three "$folder/image" "$folder/x" "$folder/y"
head -c 30000 "$folder/image" > "$folder/cut"
ends 26 '' restore $three "$folder/cut" "$folder/x" "$folder/y" "$folder/z"
test ! -e "$folder/x" || fail 'an image that was refused was written'
ends 0 '' restore $three "$folder/image" "$folder/x" "$folder/y" "$folder/z"
ends 0 '' image "$folder/x" "$folder/y" "$folder/z"
cmp "$folder/given" "$folder/image" || fail 'another image'
start $three $(stores x y z)
$curl -o "$folder/back" "$base/uri/$(cat "$folder/cap2")"
cmp "$folder/file2" "$folder/back" || fail 'other bytes after a restore'
stop
status=0
"$program" image "$folder/x" "$folder/y" "$folder/z" > /dev/full 2> "$folder/why" || status=$?
test "$status" = 27 || fail "an image on a full disk ends with $status"
# standard input, output or error closed: the next file that is opened, as a lock, would have that number, and what is
# printed would go into it
sums() {
    find "$folder/x" "$folder/y" "$folder/z" -type f -exec cksum {} + | sort
}
image_of_three() {
    "$program" image "$folder/x" "$folder/y" "$folder/z"
}
sums > "$folder/sums"
for closed in '<&-' '1>&-' '2>&-' '<&- 1>&-' '<&- 2>&-' '1>&- 2>&-' '<&- 1>&- 2>&-'; do
    case $closed in
        *1*) wanted=27 ;;
        *) wanted=0 ;;
    esac
    status=0
    eval "image_of_three > \"\$folder/given\" 2> \"\$folder/why\" $closed" || status=$?
    test "$status" = "$wanted" || fail "an image with $closed ends with $status and not $wanted"
    test "$wanted" != 0 || cmp "$folder/given" "$folder/image" || fail "another image with $closed"
    sums | cmp - "$folder/sums" || fail "a folder was written by an image with $closed"
done
# a folder that takes no writes: its image is read, and it is not served
mkdir "$folder/bound"
if mount --bind "$folder/x" "$folder/bound" 2> "$folder/nothing" &&
    mount -o remount,bind,ro "$folder/bound" 2> "$folder/nothing"; then
    ends 0 '' check "$folder/bound" "$folder/y" "$folder/z"
    ends 0 '' image "$folder/bound" "$folder/y" "$folder/z"
    cmp "$folder/given" "$folder/image" || fail 'another image of a folder that takes no writes'
    ends 14 "$folder/bound" serve $three $(stores bound y z)
    umount "$folder/bound"
    sums | cmp - "$folder/sums" || fail 'a folder that takes no writes was written'
else
    echo 'no folder can be mounted elsewhere: one that takes no writes is not tried'
fi

# rotten files and strangers
share=$(find "$folder/x" -name '*.[0-2]' | head -n 1)
printf 'z' | dd of="$share" bs=1 seek=5 conv=notrunc 2> "$folder/nothing"
echo text > "$folder/y/3/README"
cp "$share" "$folder/rotten"
ends 28 "$share" check "$folder/x" "$folder/y" "$folder/z"
start $three $(stores x y z)
grep -q "$share" "$folder/words" || fail 'a rotten file is not named'
grep -q "$folder/y/3/README" "$folder/words" || fail "a stranger's file is not named"
for at in 1 2 3; do
    $curl -o "$folder/back" "$base/uri/$(cat "$folder/cap$at")"
    cmp "$folder/file$at" "$folder/back" || fail 'other bytes with a share rotten'
done
stop
cmp "$share" "$folder/rotten" || fail 'a rotten file was touched'

# what has a share's name and is no file of one is named and left alone, until its share is put again
rm "$folder/y/3/README"
odd_grid() {
    for at in x y z; do
        printf ' --store dir:%s/%s%s' "$folder" "$at" "$1"
    done
}
for kind in pipe device sparse folder; do
    for how in '' ':1000000000,disk'; do
        rm -f "$share"
        case $kind in
            pipe) mkfifo "$share" ;;
            device) ln -s /dev/zero "$share" ;;
            sparse) truncate -s 100G "$share" ;;
            folder) mkdir "$share" ;;
        esac
        ends 28 "$share" check "$folder/x" "$folder/y" "$folder/z"
        start $three $(odd_grid "$how")
        grep -q "rotten and left alone: $share" "$folder/words" || fail "a $kind under a share's name is not named"
        for at in 1 2 3; do
            $curl -o "$folder/back" "$base/uri/$(cat "$folder/cap$at")"
            cmp "$folder/file$at" "$folder/back" || fail "other bytes beside a $kind"
            $curl -T "$folder/file$at" "$base/uri" | cmp - "$folder/cap$at" || fail "no upload beside a $kind"
        done
        stop
        test -f "$share" && test ! -L "$share" || fail "a share was not put in the place of a $kind"
        rm -rf "$folder"/x/new/*.folder
    done
done

# folders under the names of the files that are written before they stand, at a start and at a put: they are moved aside
name=${share##*/}
for how in '' ':1000000000,disk'; do
    rm "$share"
    for at in probe "$name"; do
        mkdir "$folder/x/new/$at"
        echo text > "$folder/x/new/$at/README"
    done
    start $three $(odd_grid "$how")
    for at in 1 2 3; do
        $curl -T "$folder/file$at" "$base/uri" | cmp - "$folder/cap$at" || fail 'no upload beside a folder in new/'
    done
    stop
    test -f "$share" || fail 'a share was not put beside a folder in new/'
    for at in probe "$name"; do
        test "$(cat "$folder/x/new/$at.folder/README")" = text || fail "a folder new/$at was not moved aside"
    done
    rm -r "$folder"/x/new/*.folder
done
ends 0 '' check "$folder/x" "$folder/y" "$folder/z"

# files that are lost while they are served from the disk: what a read found missing is put by the next upload
start $three $(odd_grid ':1000000000,disk')
rm "$folder"/[xyz]/[0-9]*/*.[0-2]
$curl -o "$folder/back" "$base/uri/$(cat "$folder/cap1")"
$curl -T "$folder/file1" "$base/uri" | cmp - "$folder/cap1" || fail 'no upload of a file that was lost'
$curl -o "$folder/back" "$base/uri/$(cat "$folder/cap1")"
cmp "$folder/file1" "$folder/back" || fail 'an upload mends nothing that was lost'
rm -r "$folder/x/new" "$folder/y/new" "$folder/z/new"
for at in 2 3; do
    $curl -o "$folder/back" "$base/uri/$(cat "$folder/cap$at")"
    $curl -T "$folder/file$at" "$base/uri" | cmp - "$folder/cap$at" || fail 'no upload where new/ is gone'
done
stop
start $three $(odd_grid '')
for at in 1 2 3; do
    $curl -o "$folder/back" "$base/uri/$(cat "$folder/cap$at")"
    cmp "$folder/file$at" "$folder/back" || fail 'other bytes after shares were put again'
done
stop
printf 'z' | dd of="$folder/z/grid" bs=1 seek=20 conv=notrunc 2> "$folder/nothing"
ends 17 "$folder/z" serve $three $(stores x y z)

# a disk that fills
mkdir "$folder/disk"
if mount -t tmpfs -o size=600k tmpfs "$folder/disk" 2> "$folder/nothing"; then
    dd if=/dev/zero of="$folder/disk/fill" bs=1k count=700 2> "$folder/nothing" || true
    ends 20 "$folder/disk/s" serve --shares 1,1 $(stores disk/s)
    rm "$folder/disk/fill"
    start --shares 1,1 $(stores disk/s)
    $curl -T "$folder/file1" "$base/uri" > "$folder/cap"
    dd if=/dev/zero of="$folder/disk/fill" bs=1k count=700 2> "$folder/nothing" || true
    for _ in 1 2; do
        said=$($curl -o "$folder/nothing" -w '%{http_code}' -T "$folder/file2" "$base/uri")
        test "$said" = 503 || fail "an upload to a full disk is answered $said"
    done
    $curl -o "$folder/back" "$base/uri/$(cat "$folder/cap")"
    cmp "$folder/file1" "$folder/back" || fail 'other bytes from a full disk'
    stop
    rm "$folder/disk/fill"
    start --shares 1,1 $(stores disk/s)
    $curl -o "$folder/back" "$base/uri/$(cat "$folder/cap")"
    cmp "$folder/file1" "$folder/back" || fail 'other bytes after a full disk'
    $curl -T "$folder/file2" "$base/uri" > "$folder/cap"
    stop
else
    echo 'no file system in memory can be mounted: a disk that fills is not tried'
fi
echo 'as it should be'
