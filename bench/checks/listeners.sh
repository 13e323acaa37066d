#!/bin/sh
# `wozhinnam serve` with several `--listen`, of which two have a secret of their own: two groups that put the same file get
# two caps, each reads both, and what one is told doesn't depend on whether the other stored the file. A listener at which
# many wait keeps nobody out at another, and a stop closes all. It needs curl and python3, and takes some 10 seconds.
# usage: bench/checks/listeners.sh PROGRAM
set -eu
program=${1:?usage: bench/checks/listeners.sh PROGRAM}
here=$(cd "$(dirname "$0")" && pwd)
. "$here/../tools/server.sh"

# the address of a listener, by its place
at() {
    echo "http://$(address 'listening on' | sed -n "$1p")"
}

# a run that ends by itself: its status, and what standard error has to say
ends() {
    wanted=$1
    words=$2
    shift 2
    status=0
    timeout 20 "$program" serve "$@" > "$folder/nothing" 2> "$folder/why" || status=$?
    test "$status" = "$wanted" || fail "$* ends with $status and not $wanted"
    grep -q -e "$words" "$folder/why" || fail "$* doesn't say '$words'"
    test ! -s "$folder/nothing" || fail "$* prints something"
}

# the status of a reply
status_of() {
    $curl -o "$folder/reply" -w '%{http_code}' "$@"
}

printf 'the first secret' > "$folder/first"
printf 'the second secret' > "$folder/second"
head -c 257 /dev/zero > "$folder/long"
head -c 300000 /dev/urandom > "$folder/file"

# what can't be listened on
ends 2 '--listen wants' --listen 127.0.0.1:0,secret=
ends 2 '--listen wants' --listen "127.0.0.1:0,$folder/first"
ends 2 '64 times' $(for _ in $(seq 65); do echo '--listen 127.0.0.1:0'; done)
ends 3 'nobody.invalid:80' --listen 127.0.0.1:0 --listen nobody.invalid:80
ends 7 'the secret file' --listen "127.0.0.1:0,secret=$folder/none"
ends 7 '127.0.0.1:1' --listen 127.0.0.1:0 --listen "127.0.0.1:1,secret=$folder/none"
ends 8 '256 bytes' --listen "127.0.0.1:0,secret=$folder/long"

# the cap that the second group gets where no other stored the file
start --listen "127.0.0.1:0,secret=$folder/second"
alone=$($curl -T "$folder/file" "$(at 2)/uri")
ends 4 "${base#http://}" --listen 127.0.0.1:0 --listen "$(address 'listening on' | sed -n 1p)"
stop

# the first group, and one that has no secret of its own, store it before the second one does
start --listen "127.0.0.1:0,secret=$folder/first" --listen "127.0.0.1:0,secret=$folder/second"
test "$(address 'listening on' | wc -l)" = 3 || fail 'not three addresses'
test "$(grep -c 'under a secret of its own' "$folder/words")" = 2 || fail 'not two lines of secrets'
for place in 2 3; do
    grep -q "listening on $(address 'listening on' | sed -n "${place}p"), under a secret of its own" "$folder/words" \
        || fail "the listener at place $place isn't told"
done
own=$($curl -T "$folder/file" "$(at 1)/uri")
first=$($curl -T "$folder/file" "$(at 2)/uri")
test "$(status_of "$(at 3)/uri/$alone")" = 410 || fail "a file of the second group is there before that stored it"
second=$($curl -T "$folder/file" "$(at 3)/uri")
test "$second" = "$alone" || fail "the second group gets another cap beside others: $second and $alone"
test "$own" != "$first" && test "$own" != "$second" && test "$first" != "$second" || fail 'two groups have one cap'
test "$($curl -T "$folder/file" "$(at 2)/uri")" = "$first" || fail 'the same file of the same group gets another cap'
for place in 1 2 3; do
    for cap in "$own" "$first" "$second"; do
        $curl -o "$folder/back" "$(at "$place")/uri/$cap"
        cmp "$folder/file" "$folder/back" || fail "other bytes at the listener at place $place"
    done
done
for secret in 'the first secret' 'the second secret' "$own" "$first" "$second"; do
    ! grep -q "$secret" "$folder/words" "$folder/out" || fail 'a secret or a cap is logged'
done
closed=$(at 3)
stop
! $curl "$closed/uri/URI:LIT:" 2> "$folder/refused" || fail 'a listener is open after a stop'

# the secret of a listener is what the gateway's own is, and a file of options has several
printf 'listen = ["127.0.0.1:0", "127.0.0.1:0,secret=%s"]\ncontrol = "127.0.0.1:0"\nsecret-file = "%s"\n' \
    "$folder/second" "$folder/first" > "$folder/options"
started 'control on' "$program" serve --config "$folder/options"
control="http://$(address 'control on')"
test "$($curl -T "$folder/file" "$(at 1)/uri")" = "$first" || fail "the gateway's secret gives another cap than a listener's"
test "$($curl -T "$folder/file" "$(at 2)/uri")" = "$second" || fail 'a listener of a file of options has another secret'
stop

# a hundred that send nothing wait at the first listener, of whom two are open at once: one at the second has its turn
start --listen "127.0.0.1:0,secret=$folder/first" --connections 2 --idle 1
python3 - "$(at 1)" "$(at 2)" << 'END' || fail 'one listener keeps others out of another'
import socket, sys, time

def address(base):
    host, port = base[len("http://"):].rsplit(":", 1)
    return host, int(port)

crowd = [socket.create_connection(address(sys.argv[1])) for _ in range(100)]
for turn in range(3):
    began = time.monotonic()
    with socket.create_connection(address(sys.argv[2])) as one:
        one.settimeout(20)
        one.sendall(b"GET /uri/URI:LIT:mzxw6 HTTP/1.1\r\nHost: g\r\nConnection: close\r\n\r\n")
        assert one.recv(65536).startswith(b"HTTP/1.1 200"), "no reply"
    assert time.monotonic() - began < 6, "late"
END
stop

echo 'two groups have two caps of one file, each reads both, and neither is told what the other stored'
