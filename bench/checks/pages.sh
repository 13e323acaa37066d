#!/bin/sh
# Pages of the built `wozhinnam`: each file of a folder under its path, with its kind and its fields, by GET and HEAD alone;
# what the web API has, unchanged; the folder beside the program, and `--no-pages`; each refusal of a folder with its status.
# It needs curl and python3.
# usage: bench/checks/pages.sh PROGRAM
set -eu
program=${1:?usage: bench/checks/pages.sh PROGRAM}
here=$(cd "$(dirname "$0")" && pwd)
. "$here/../tools/server.sh"
pages=$folder/pages
mkdir "$pages"
printf '<!doctype html><title>a page</title>\n' > "$pages/index.html"
for name in style.css app.js logo.svg dot.png list.json plain.txt a-b_c.1.html; do
    head -c 70000 /dev/urandom > "$pages/$name"
done
: > "$pages/empty.txt"

# a path, the file whose bytes it has, and its Content-Type
page() {
    $curl -D "$folder/head" -o "$folder/body" "$base$1"
    cmp "$folder/body" "$pages/$2" || fail "$1 has other bytes"
    tr -d '\r' < "$folder/head" > "$folder/lines"
    {
        echo 'HTTP/1.1 200 OK'
        echo "Content-Type: $3"
        echo "Content-Length: $(wc -c < "$pages/$2" | tr -d ' ')"
        echo "Content-Security-Policy: default-src 'none'; script-src 'self'; style-src 'self'; connect-src 'self'; worker-src 'self'; img-src blob: data:; media-src blob:; base-uri 'none'; form-action 'none'; frame-ancestors 'none'"
        echo 'X-Content-Type-Options: nosniff'
        echo 'Referrer-Policy: no-referrer'
        echo 'Cache-Control: no-cache'
        echo
    } | sort > "$folder/wanted"
    sort "$folder/lines" | diff - "$folder/wanted" || fail "$1 has another head"
    $curl -I "$base$1" | tr -d '\r' | diff - "$folder/lines" || fail "HEAD $1 has another head"
}

# a method, a path, and the status and the text that are answered
answer() {
    told=$($curl -X "$1" -w '%{http_code}' "$base$2")
    test "$told" = "$4
$3" || fail "$1 $2 is answered: $told"
}

all() {
    page / index.html 'text/html; charset=utf-8'
    page '/?a=b' index.html 'text/html; charset=utf-8'
    page /style.css style.css 'text/css; charset=utf-8'
    page /app.js app.js 'text/javascript; charset=utf-8'
    page /logo.svg logo.svg image/svg+xml
    page /dot.png dot.png image/png
    page /list.json list.json application/json
    page /plain.txt plain.txt 'text/plain; charset=utf-8'
    page /a-b_c.1.html a-b_c.1.html 'text/html; charset=utf-8'
    page /empty.txt empty.txt 'text/plain; charset=utf-8'
}

start --pages "$pages"
all
for path in /index.html /nothing /style.css/ /style.css/x //style.css /%73tyle.css /STYLE.CSS; do
    answer GET "$path" 404 'no such resource'
done
for method in POST PUT DELETE OPTIONS; do
    answer "$method" / 404 'no such resource'
done
answer GET /uri 405 'method not allowed'
answer GET /uri/nothing 400 'bad cap'
cap=$($curl -T "$pages/app.js" "$base/uri")
$curl "$base/uri/$cap" | cmp - "$pages/app.js"
python3 - "$base" "$pages/style.css" << 'END'
# many requests for a page in one go, none of whose replies is read before the last was sent
import socket, sys
host, port = sys.argv[1].removeprefix("http://").rsplit(":", 1)
wanted = open(sys.argv[2], "rb").read()
with socket.create_connection((host, int(port)), timeout=60) as peer:
    peer.sendall(b"GET /style.css HTTP/1.1\r\nHost: g\r\n\r\n" * 40 + b"GET / HTTP/1.1\r\nHost: g\r\nConnection: close\r\n\r\n")
    came = b"".join(iter(lambda: peer.recv(65536), b""))
if came.count(wanted) != 40:
    sys.exit("pages.sh: of 40 pages in a row %d came" % came.count(wanted))
END
stop

# beside the program, and not where it isn't wanted
mkdir "$folder/installed"
cp "$program" "$folder/installed/program"
cp -r "$pages" "$folder/installed/pages"
built=$program
program=$folder/installed/program
start
all
stop
start --no-pages
answer GET / 404 'no such resource'
stop
program=$built
start
answer GET / 404 'no such resource'
stop

# a run that ends by itself: its status, and words on standard error
ends() {
    wanted=$1
    words=$2
    shift 2
    status=0
    timeout 20 "$program" serve "$@" > "$folder/nothing" 2> "$folder/why" || status=$?
    test "$status" = "$wanted" || fail "$* ends with $status and not $wanted"
    grep -qF -e "$words" "$folder/why" || fail "$* doesn't say: $words"
    test ! -s "$folder/nothing" || fail "$* prints something"
}

# a file that can't be a page
refused() {
    bad=$folder/bad
    rm -rf "$bad"
    mkdir "$bad"
    echo text > "$bad/index.html"
}
ends 34 "$folder/none: " --pages "$folder/none"
ends 34 "$pages/app.js: " --pages "$pages/app.js"
for name in notes .hidden index.htm 'two words.html' 'é.html' script.mjs; do
    refused
    echo text > "$bad/$name"
    ends 35 "$bad/$name: it is no page" --pages "$bad"
done
refused
mkdir "$bad/folder.html"
ends 35 "$bad/folder.html: it is no regular file" --pages "$bad"
refused
mkfifo "$bad/fifo.txt"
ends 35 "$bad/fifo.txt: it is no regular file" --pages "$bad"
refused
ln -s /etc/passwd "$bad/link.txt"
ends 35 "$bad/link.txt: it is no regular file" --pages "$bad"
refused
head -c 1048577 /dev/zero > "$bad/long.txt"
ends 35 "$bad/long.txt: it has more than 1,048,576 bytes" --pages "$bad"
refused
for at in $(seq 64); do echo "$at" > "$bad/$at.txt"; done
ends 35 'it is one page too many' --pages "$bad"
ends 2 --no-pages --pages "$pages" --no-pages

# as many and as long as there may be
rm "$bad/64.txt"
head -c 1048576 /dev/zero > "$bad/1.txt"
start --pages "$bad"
$curl "$base/1.txt" | cmp - "$bad/1.txt"
stop
echo "pages.sh: all is well"
