#!/bin/sh
# `wozhinnam serve`, the built program: each exit status that a run can have, curl and wget at once (clients.sh), chunked
# uploads, `Expect: 100-continue`, a refusal that arrives though all of its body was sent first, the control requests, which
# web pages are refused, times of requests, a stop, and a control token. It needs curl, wget and python3, and takes a minute.
# usage: bench/checks/serve.sh PROGRAM
set -eu
program=${1:?usage: bench/checks/serve.sh PROGRAM}
here=$(cd "$(dirname "$0")" && pwd)
. "$here/../tools/server.sh"

# a run that ends by itself: its status, and a line on standard error
ends() {
    wanted=$1
    shift
    status=0
    timeout 20 "$program" "$@" > "$folder/nothing" 2> "$folder/why" || status=$?
    test "$status" = "$wanted" || fail "$* ends with $status and not $wanted"
    test -s "$folder/why" || fail "$* doesn't say why"
    test ! -s "$folder/nothing" || fail "$* prints something"
}

# statuses
start
ends 2 serve --shares 4,3
ends 2 serve --servers 0
ends 2 serve --port 80
ends 2
ends 3 serve --listen nobody.invalid:80
ends 3 serve --listen 127.0.0.1
ends 4 serve --listen "$(address 'listening on')"
ends 6 serve --listen 203.0.113.1:80
if test "$(id -u)" = 0 && test "$(cat /proc/sys/net/ipv4/ip_unprivileged_port_start)" -gt 80; then
    chmod 711 "$folder"
    install -m 755 "$program" "$folder/program"
    status=0
    setpriv --reuid=65534 --regid=65534 --clear-groups --no-new-privs timeout 20 "$folder/program" serve --listen 127.0.0.1:80 \
        > "$folder/nothing" 2> "$folder/why" || status=$?
    test "$status" = 5 || fail "no right to listen ends with $status"
fi
ends 7 serve --secret-file "$folder/none"
head -c 257 /dev/zero > "$folder/long"
ends 8 serve --secret-file "$folder/long"
status=0
(ulimit -n 100 && timeout 20 "$program" serve --connections 100) > "$folder/nothing" 2> "$folder/why" || status=$?
test "$status" = 9 || fail "few handles end with $status"
status=0
timeout 20 "$program" serve --listen 127.0.0.1:0 > /dev/full 2> "$folder/why" || status=$?
test "$status" = 11 || fail "a full output ends with $status"
# a closed output: nothing that is printed may go to a file or a socket that was opened under its number
status=0
timeout 20 "$program" serve --listen 127.0.0.1:0 >&- 2> "$folder/why" || status=$?
test "$status" = 11 || fail "a closed output ends with $status"
status=0
timeout 20 "$program" serve --port "$(printf '\377')" > "$folder/nothing" 2> "$folder/why" || status=$?
test "$status" = 2 || fail "a word that is no UTF-8 ends with $status"
grep -q UTF-8 "$folder/why" || fail 'a word that is no UTF-8 is not told'

# curl and wget, eight runs at once
runs=
for at in $(seq 8); do
    "$here/clients.sh" "$base" > "$folder/clients$at" 2>&1 &
    runs="$runs $!"
done
for run in $runs; do
    wait "$run" || fail "$(cat "$folder"/clients*)"
done

# chunked, and with `Expect`
head -c 3000000 /dev/urandom > "$folder/file"
cap=$($curl -T "$folder/file" "$base/uri")
test "$($curl -T - "$base/uri" < "$folder/file")" = "$cap" || fail 'another cap for a chunked upload'
test "$($curl -H 'Expect: 100-continue' -T "$folder/file" "$base/uri")" = "$cap" || fail 'another cap with Expect'
$curl -o "$folder/back" "$base/uri/$cap"
cmp "$folder/file" "$folder/back" || fail 'other bytes'

# a body that is a byte too long, by what sends all of it before it reads
head -c 16777217 /dev/zero > "$folder/longer"
wget --quiet --tries=1 --timeout=60 --server-response --method=PUT --body-file="$folder/longer" -O /dev/null "$base/uri" 2> "$folder/heads" || true
grep -q 'HTTP/1.1 413' "$folder/heads" || fail "wget doesn't get the refusal: $(cat "$folder/heads")"
test "$(python3 - "$base/uri" << 'END'
import sys, urllib.error, urllib.request
try:
    urllib.request.urlopen(urllib.request.Request(sys.argv[1], data=bytes(16777217), method="PUT"), timeout=60)
except urllib.error.HTTPError as error:
    print(error.code, error.read().decode().strip())
END
)" = '413 body too long' || fail "urllib doesn't get the refusal"

# what was asked on the wrong port
test "$($curl -o "$folder/back" -w '%{http_code}' -X POST "$base/stop")" != 200 || fail 'a stop on the port of the gateway'
test "$($curl -o "$folder/back" -w '%{http_code}' "$control/uri/URI:LIT:mzxw6")" = 404 || fail 'a file on the control port'

# what a web page may send: its Origin, and a Host of its own where its name leads here
code() {
    $curl -o "$folder/back" -w '%{http_code}' "$@"
}
port=${control##*:}
for path in status metrics stop elsewhere; do
    test "$(code -X POST -H 'Origin: http://elsewhere.invalid' "$control/$path")" = 403 || fail "/$path for a page"
    grep -q Origin "$folder/back" || fail "/$path for a page: $(cat "$folder/back")"
    test "$(code -X POST -H "Host: elsewhere.invalid:$port" "$control/$path")" = 403 || fail "/$path under another Host"
    grep -q Host "$folder/back" || fail "/$path under another Host: $(cat "$folder/back")"
done
test "$(code -X POST -H "Origin: $control" "$control/stop")" = 403 || fail 'a stop for a page of the control address'
test "$(code -X POST -H 'Origin;' "$control/stop")" = 403 || fail 'a stop with an Origin field of no bytes'
test "$(code -X POST -H "Host: 127.0.0.1" "$control/stop")" = 403 || fail 'a stop under a Host without the port'
test "$(code -X POST -H 'Host;' "$control/stop")" = 403 || fail 'a stop with a Host field of no bytes'
test "$(code -H "Host: LocalHost:$port" "$control/status")" = 200 || fail 'the status by localhost'
test "$(code --head -H 'Origin: null' "$control/status")" = 403 || fail 'a head for a page'
grep -q '^Content-Length: 51' "$folder/back" || fail 'a head for a page has no length'
grep -q refused "$folder/back" && fail 'a head for a page has a body'
test "$(python3 - "$port" << 'END'
import socket, sys
with socket.create_connection(("127.0.0.1", int(sys.argv[1])), timeout=30) as connection:
    connection.sendall(b"GET /status HTTP/1.0\r\n\r\n")
    print(connection.makefile("rb").read().split(b"\r\n")[0].decode())
END
)" = 'HTTP/1.1 200 OK' || fail 'the status without a Host'

# control
$curl "$control/status" | python3 -c '
import json, sys
status = json.load(sys.stdin)
connections = status["connections"]
assert connections["opened"] >= 8 * 39, connections
assert connections["failed"] == connections["late"] == 0, connections
assert status["received"] > 8 * 1000000 and status["sent"] > 8 * 1000000, status
assert 0 < status["uptime_seconds"] < 600, status
assert "wozhinnam " + status["version"] == sys.argv[1], status
' "$("$program" --version)" || fail 'the status'
$curl "$control/metrics" > "$folder/metrics"
python3 - "$folder/metrics" << 'END' || fail 'the lines of the metrics'
import re, sys
said = {"HELP": {}, "TYPE": {}}
times, replies = {}, 0
for line in open(sys.argv[1]).read().splitlines():
    if line.startswith("# "):
        kind, name, text = line[2:].split(" ", 2)
        assert text and name not in said[kind], line
        said[kind][name] = text
        continue
    name, labels, value = re.fullmatch(r'(wozhinnam_[a-z_]+)(?:\{((?:[a-z]+="[^"]*",?)+)\})? ([0-9]+(?:\.[0-9]+)?)', line).groups()
    labels = dict(re.findall(r'([a-z]+)="([^"]*)"', labels or ""))
    if name.startswith("wozhinnam_request_seconds_"):
        times.setdefault(labels.pop("kind"), []).append((name[len("wozhinnam_request_seconds_"):], labels, value))
        name = "wozhinnam_request_seconds"
    else:
        assert value.isdigit(), line
    replies += int(value) if name == "wozhinnam_replies_total" else 0
    assert name in said["HELP"] and name in said["TYPE"], line
assert said["HELP"].keys() == said["TYPE"].keys() and len(said["HELP"]) == 20, said
assert said["TYPE"]["wozhinnam_request_seconds"] == "histogram", said
# each histogram: bounds that rise to +Inf, numbers that don't fall, the last of which is that of all, and a sum
assert sorted(times) == ["get", "head", "other", "post", "put"], times
count = {}
for kind, lines in times.items():
    buckets, (summed, _, total), (counted, _, number) = lines[:-2], lines[-2], lines[-1]
    assert [name for name, _, _ in buckets] == ["bucket"] * 10 and (summed, counted) == ("sum", "count"), lines
    bounds = [float(labels["le"]) for _, labels, _ in buckets]
    numbers = [int(value) for _, _, value in buckets]
    assert bounds == sorted(set(bounds)) and bounds[0] == 0.001 and bounds[-2] == 10 and bounds[-1] == float("inf"), bounds
    assert numbers == sorted(numbers) and numbers[-1] == int(number), lines
    # at most the bound of each bucket, and at least the one before it, but for those past 10 seconds
    news = [after - before for before, after in zip([0] + numbers, numbers)]
    assert sum(n * low for n, low in zip(news, [0] + bounds)) <= float(total), lines
    assert news[-1] or float(total) <= sum(n * high for n, high in zip(news, bounds) if n), lines
    count[kind] = int(number)
# each of these clients waits for its reply, so there is a time of each reply
assert sum(count.values()) == replies, (count, replies)
assert all(count[kind] > 0 for kind in ("get", "head", "put", "post")), count
END
$curl "$control/metrics" | grep -q "^wozhinnam_build_info{version=\"$("$program" --version | cut -d' ' -f2)\"} 1\$" || fail 'the version in the metrics'
$curl "$control/metrics" | grep -q '^wozhinnam_connections_opened_total [1-9]' || fail 'the metrics'
for status in 200 206 400 404; do
    before=$($curl "$control/metrics" | sed -n "s/^wozhinnam_replies_total{status=\"$status\"} //p")
    case $status in
    200) $curl -o /dev/null "$base/uri/URI:LIT:my" ;;
    206) $curl -o /dev/null -r 0-0 "$base/uri/URI:LIT:my" ;;
    400) $curl -o /dev/null "$base/uri/URI:none" ;;
    404) $curl -o /dev/null "$base/elsewhere" ;;
    esac
    after=$($curl "$control/metrics" | sed -n "s/^wozhinnam_replies_total{status=\"$status\"} //p")
    test "$after" = "$((before + 1))" || fail "the replies of status $status: $before, then $after"
done
test "$($curl -o "$folder/back" -w '%{http_code}' "$control/stop")" = 405 || fail 'a stop by GET'
test "$($curl -X POST "$control/stop")" = stopping || fail 'the stop'
status=0
wait "$server" || status=$?
server=
test "$status" = 0 || fail "the program's status is $status"
grep -q 'URI:' "$folder/words" && fail 'a cap in the log'

# a token: without it each control request is 401 and changes nothing, with it all is as without
token=$(head -c 24 /dev/urandom | base64)
ends 7 serve --control-token-file "$folder/none"
for bytes in '' '\n' 'two words\n' 'secret\r\n' '\303\244\n'; do
    printf "$bytes" > "$folder/token"
    ends 8 serve --control-token-file "$folder/token"
done
head -c 257 /dev/zero | tr '\0' a > "$folder/token"
ends 8 serve --control-token-file "$folder/token"
echo "$token" > "$folder/token"
start --control-token-file "$folder/token"
port=${control##*:}
refused() {
    for path in status metrics stop elsewhere; do
        test "$(code "$@" "$control/$path")" = 401 || fail "/$path with $*"
        test "$(code -X POST "$@" "$control/$path")" = 401 || fail "POST /$path with $*"
    done
    grep -q '^refused: ' "$folder/back" || fail "a 401 says $(cat "$folder/back")"
}
refused
refused -H "Authorization: Bearer ${token%?}"
refused -H "Authorization: Bearer ${token}x"
refused -H "Authorization: Bearer  $token"
refused -H "Authorization: Bearer"
refused -H "Authorization: $token"
refused -H "Authorization: Basic $token"
refused -H "Token: Bearer $token"
refused -u "Bearer:$token"
test "$(code --head "$control/stop")" = 401 || fail 'a head without the token'
grep -qi '^WWW-Authenticate: Bearer' "$folder/back" || fail 'a 401 has no challenge'
grep -q refused "$folder/back" && fail 'a head without the token has a body'
test "$(code -X POST -H "Authorization: Bearer $token" -H 'Origin: null' "$control/stop")" = 403 || fail 'a page with the token'
test "$(code -X POST -H "Authorization: Bearer $token" -H 'Host: elsewhere.invalid' "$control/stop")" = 403 || fail 'another Host with the token'
test "$(code "$base/uri/URI:LIT:my")" = 200 || fail 'a refused stop stops'
test "$(code -H "Authorization: bearer $token" "$control/metrics")" = 200 || fail 'the metrics with the token'
test "$(code -H "AUTHORIZATION: Bearer $token" "$control/status")" = 200 || fail 'the status with the token'
test "$(code -H "Authorization: Bearer $token" "$control/elsewhere")" = 404 || fail 'nothing with the token'
test "$($curl -X POST -H "Authorization: Bearer $token" "$control/stop")" = stopping || fail 'the stop with the token'
status=0
wait "$server" || status=$?
server=
test "$status" = 0 || fail "the program's status is $status with a token"
grep -qF "$token" "$folder/words" "$folder/out" && fail 'the token in the log'
echo 'serve: all as it is to be'
