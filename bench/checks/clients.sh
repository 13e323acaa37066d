#!/bin/sh
# curl and wget against a gateway at 3 of 10: what comes back is compared, JSON by json_replies.py beside this file. Given
# `gate_main`, it is started for as many connections as there are here, so it ends by itself; given the base URL of
# `wozhinnam serve` with five stores, that one is asked, and what it sends for browsers is looked for too. It needs curl,
# wget and python3.
# usage: bench/checks/clients.sh PROGRAM | bench/checks/clients.sh http://HOST:PORT
set -eu
program=${1:?usage: bench/checks/clients.sh PROGRAM | bench/checks/clients.sh http://HOST:PORT}
here=$(cd "$(dirname "$0")" && pwd)
# Where a server is named, there is no program to start: this shell stands for it.
url=
servers=
case $program in
http://*) url=$program program=/bin/sh servers=5 ;;
esac
. "$here/../tools/server.sh"

if test -n "$url"; then
    base=$url
else
    # It ends by itself, after as many connections as there are here.
    started 'listening on' "$program" serve 127.0.0.1:0 39
fi

head -c 1000000 /dev/urandom > "$folder/file"

# 1, 2: a file is put and comes back
cap=$($curl -T "$folder/file" "$base/uri")
case $cap in URI:CHK:*:3:10:1000000) ;; *) fail "no cap of the file: $cap" ;; esac
$curl -o "$folder/back" "$base/uri/$cap"
cmp "$folder/file" "$folder/back" || fail 'curl got other bytes'

# 3: the same file has the same cap
test "$($curl -T "$folder/file" "$base/uri")" = "$cap" || fail 'another cap for the same file'

# 4: wget gets it too
wget --quiet --tries=1 --timeout=30 -O "$folder/back" "$base/uri/$cap" || fail 'wget got no file'
cmp "$folder/file" "$folder/back" || fail 'wget got other bytes'

# 5: two requests on one connection
$curl -o "$folder/one" "$base/uri/URI:LIT:mzxw6" -o "$folder/two" "$base/uri/$cap"
test "$(cat "$folder/one")" = foo || fail 'the first of two requests'
cmp "$folder/file" "$folder/two" || fail 'the second of two requests'

# 6: HTTP/1.0
test "$($curl --http1.0 "$base/uri/URI:LIT:mzxw6")" = foo || fail 'HTTP/1.0'

# 7: a cap that is wrong, in its key
wrong=$(printf '%s' "$cap" | sed 's/URI:CHK:./URI:CHK:a/; t; s/^/x/')
test "$wrong" != "$cap" || wrong=$(printf '%s' "$cap" | sed 's/URI:CHK:./URI:CHK:b/')
test "$($curl -o "$folder/gone" -w '%{http_code}' "$base/uri/$wrong")" = 410 || fail 'a wrong cap'
test "$(cat "$folder/gone")" = 'not enough shares' || fail 'the words for a wrong cap'

# 8: no cap at all
test "$($curl -o "$folder/bad" -w '%{http_code}' "$base/uri/URI:LIT:m")" = 400 || fail 'a bad cap'

# 9: a short file is in its cap
printf foo > "$folder/short"
test "$($curl -T "$folder/short" "$base/uri")" = URI:LIT:mzxw6 || fail 'a short file'

json() {
    python3 "$here/json_replies.py" "$@"
}

# A reply whose head and body are kept: its status, and a field of its head.
fetch() {
    status=$($curl -D "$folder/head" -o "$folder/back" -w '%{http_code}' "$@")
}
field() {
    tr -d '\r' < "$folder/head" | sed -n "s/^$1: //p"
}
# A refusal: what is asked for, the status and the line of text.
refused() {
    fetch "$1"
    test "$status $(cat "$folder/back")" = "$2" || fail "$1 is answered $status $(cat "$folder/back") and not $2"
}

# 10, 11: a directory of a file, a short file and an empty directory, and one above it
decomposed=$(printf 'e\314\201 1/2?')
composed=$(printf '\303\251 1/2?')
json children "$decomposed=$cap" short=URI:LIT:mzxw6 none=URI:DIR2-LIT: > "$folder/children"
inner=$($curl --data-binary "@$folder/children" "$base/uri?t=mkdir-immutable")
size=$(json directory_size "$decomposed=$cap" short=URI:LIT:mzxw6 none=URI:DIR2-LIT:)
case $inner in URI:DIR2-CHK:*:3:10:"$size") ;; *) fail "no cap of a directory of $size bytes: $inner" ;; esac
json children "down=$inner" > "$folder/children"
outer=$($curl --data-binary "@$folder/children" "$base/uri?t=mkdir-immutable")
case $outer in URI:DIR2-CHK:*) ;; *) fail "no cap of the upper directory: $outer" ;; esac

# 12, 13: the file by its path, its name in either form
for name in "$composed" "$decomposed"; do
    fetch "$base/uri/$outer/down/$(json escape "$name")"
    test "$status" = 200 || fail "a path is answered $status"
    cmp "$folder/file" "$folder/back" || fail 'other bytes by a path'
done

# 14 to 17: paths that lead nowhere
refused "$base/uri/$outer/up" '404 no such child'
refused "$base/uri/$outer/down/short/x" '400 not a directory'
refused "$base/uri/$outer/down" '400 directory needs t=json'
refused "$base/uri/$outer/%zz" '400 bad escape'

# 18 to 20: ranges at the front, over the end of a segment, and at the end
for range in '0-99 0 99' '131000-131200 131000 131200' '-1000 999000 999999'; do
    set -- $range
    fetch -r "$1" "$base/uri/$cap"
    test "$status" = 206 || fail "the range $1 is answered $status"
    test "$(field Content-Range)" = "bytes $2-$3/1000000" || fail "the range $1 is $(field Content-Range)"
    tail -c "+$(($2 + 1))" "$folder/file" | head -c "$(($3 - $2 + 1))" | cmp - "$folder/back" || fail "other bytes for the range $1"
done

# 21: a range past the end
fetch -r 1000000- "$base/uri/$cap"
test "$status $(cat "$folder/back")" = '416 range not satisfiable' || fail "a range past the end is answered $status"
test "$(field Content-Range)" = 'bytes */1000000' || fail "a range past the end is told $(field Content-Range)"

# 22, 23: heads alone, of a file and of its JSON
verify=$(json verify "$cap")
{
    printf '%s\r\n' 'HTTP/1.1 200 OK' 'Content-Type: application/octet-stream' 'Content-Length: 1000000'
    test -z "$url" || printf '%s\r\n' 'Accept-Ranges: bytes' 'X-Content-Type-Options: nosniff' 'Content-Security-Policy: sandbox' "ETag: \"$verify\""
    printf '\r\n'
} > "$folder/wanted"
$curl -I "$base/uri/$cap" | cmp "$folder/wanted" - || fail 'the head of a file'
$curl -I "$base/uri/URI:LIT:mzxw6ytboi?t=json" > "$folder/back"
printf 'HTTP/1.1 200 OK\r\nContent-Type: application/json\r\nContent-Length: 69\r\n\r\n' | cmp - "$folder/back" || fail 'the head of JSON'

# 24, 25: a download that was cut is gone on with, and one that is whole is left
head -c 400001 "$folder/file" > "$folder/cut"
wget --continue --server-response --tries=1 --timeout=30 -O "$folder/cut" "$base/uri/$cap" 2> "$folder/words_of_wget" || fail 'wget got no rest'
grep -q 'Content-Range: bytes 400001-999999/1000000' "$folder/words_of_wget" || fail "wget didn't ask for the rest"
cmp "$folder/file" "$folder/cut" || fail 'the rest has other bytes'
wget --continue --quiet --tries=1 --timeout=30 -O "$folder/cut" "$base/uri/$cap" || fail "wget isn't content with a whole file"
cmp "$folder/file" "$folder/cut" || fail 'a whole file was changed'

# 26 to 28: JSON of a file, of a directory, and of a node at the end of a path
fetch "$base/uri/$cap?t=json"
test "$status $(field Content-Type)" = '200 application/json' || fail "t=json is answered $status, $(field Content-Type)"
json file "$folder/back" "$cap" || fail 'the JSON of a file'
fetch "$base/uri/$inner?t=json"
json directory "$folder/back" "$inner" "$decomposed=$cap" short=URI:LIT:mzxw6 none=URI:DIR2-LIT: || fail 'the JSON of a directory'
fetch "$base/uri/$outer/down/short?t=json"
json file "$folder/back" URI:LIT:mzxw6 || fail 'the JSON of a child'

# 29 to 32: checks of a file, of a directory by its path, of a verify cap, and of what is in its cap
fetch -X POST "$base/uri/$cap?t=check&output=JSON"
test "$status $(field Content-Type)" = '200 application/json' || fail "a check is answered $status, $(field Content-Type)"
json check "$folder/back" "$cap" $servers || fail 'the check of a file'
fetch -X POST "$base/uri/$outer/down?t=check&output=JSON&verify=true"
json check "$folder/back" "$inner" $servers || fail 'the check of a directory'
fetch -X POST "$base/uri/$verify?t=check&output=JSON&verify=true"
json check "$folder/back" "$verify" $servers || fail 'the check of a verify cap'
fetch -X POST "$base/uri/URI:LIT:mzxw6?t=check&output=JSON&verify=true"
json check "$folder/back" URI:LIT:mzxw6 $servers || fail 'the check of what is in its cap'

# 33: a verify cap gives no bytes
refused "$base/uri/$verify" '400 not a readable cap'

# 34: a method that is none of the target's
fetch -X DELETE "$base/uri"
test "$status $(field Allow)" = '405 POST, PUT' || fail "another method is answered $status, $(field Allow)"

# 35: a file in chunks
test "$($curl -T - "$base/uri" < "$folder/file")" = "$cap" || fail 'another cap for a file in chunks'

# 36: children in chunks
json children "down=$inner" > "$folder/children"
test "$($curl -X POST -T - "$base/uri?t=mkdir-immutable" < "$folder/children")" = "$outer" || fail 'another cap for children in chunks'

# 37: in chunks by Python's http.client, from an iterator
chunked=$(python3 - "$base" "$folder/file" << 'END'
import http.client, sys, urllib.parse
connection = http.client.HTTPConnection(urllib.parse.urlsplit(sys.argv[1]).netloc, timeout=30)
with open(sys.argv[2], "rb") as file:
    connection.request("PUT", "/uri", iter(lambda: file.read(12345), b""), encode_chunked=True, headers={"Transfer-Encoding": "chunked"})
print(connection.getresponse().read().decode())
END
)
test "$chunked" = "$cap" || fail "another cap for chunks of an iterator: $chunked"

# 38: the interim answer comes before the reply, and curl doesn't wait for it in vain
began=$(date +%s%N)
test "$($curl -D "$folder/head" -H 'Expect: 100-continue' -T "$folder/file" "$base/uri")" = "$cap" || fail 'another cap with Expect'
test $((($(date +%s%N) - began) / 1000000)) -lt 900 || fail 'curl waited for the interim answer'
head -n 1 "$folder/head" | grep -q '^HTTP/1.1 100 Continue' || fail 'no interim answer'

# 39: a body that is no chunks
test "$(printf 'PUT /uri HTTP/1.1\r\nHost: g\r\nTransfer-Encoding: chunked\r\n\r\nzz\r\n' | python3 -c '
import socket, sys, urllib.parse
host, port = urllib.parse.urlsplit(sys.argv[1]).netloc.split(":")
with socket.create_connection((host, int(port)), timeout=30) as connection:
    connection.sendall(sys.stdin.buffer.read())
    print(connection.makefile("rb").read().split(b"\r\n")[0].decode())
' "$base")" = 'HTTP/1.1 400 Bad Request' || fail 'a bad chunk'

if test -n "$server"; then
    wait "$server" || fail "the program's status is $?"
    server=
    test ! -s "$folder/words" || fail "$(cat "$folder/words")"
fi
echo 'curl and wget: all replies as they are to be'
