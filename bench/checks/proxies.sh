#!/bin/sh
# nginx and HAProxy before `wozhinnam serve`, by the examples of install/, on free ports and with all they write in a
# folder of this script's: the longest body put and got, one byte more refused, the longest heads and names, ranges,
# connections that are kept, the control requests out of reach, a gateway that is away, and no cap in any log. It needs
# curl, wget, nginx, haproxy, openssl and python3.
# usage: bench/checks/proxies.sh WOZHINNAM
set -eu
program=${1:?usage: bench/checks/proxies.sh WOZHINNAM}
here=$(cd "$(dirname "$0")" && pwd)
. "$here/../tools/server.sh"
examples=$here/../../install
proxy=
end() {
    test -z "$proxy" || kill "$proxy" 2> /dev/null || true
    finish
}
trap end EXIT
PATH=$PATH:/usr/sbin

for word in nginx haproxy openssl wget; do
    command -v "$word" > "$folder/nothing" || fail "there is no $word"
done
free_port() {
    python3 -c 'import socket; s = socket.socket(); s.bind(("127.0.0.1", 0)); print(s.getsockname()[1])'
}
# The value that an example has is there, and another one takes its place.
replace() {
    grep -q -e "$2" "$folder/$1" || fail "the example $1 has no $2 any more"
    sed -i "s|$2|$3|" "$folder/$1"
}
openssl req -x509 -newkey rsa:2048 -nodes -days 2 -subj /CN=localhost -addext subjectAltName=IP:127.0.0.1 \
    -keyout "$folder/key" -out "$folder/certificate" 2> "$folder/nothing"
cat "$folder/certificate" "$folder/key" > "$folder/both"
curl="$curl --cacert $folder/certificate --noproxy *"
set -f

head -c 16777216 /dev/urandom > "$folder/longest"
cp "$folder/longest" "$folder/longer"
printf x >> "$folder/longer"

nginx_runs() {
    mkdir -p "$folder/temporary"
    cp "$examples/nginx.conf" "$folder/nginx.conf"
    replace nginx.conf 'listen 443 ssl' "listen 127.0.0.1:$port ssl"
    replace nginx.conf '127.0.0.1:3456' "${base#http://}"
    replace nginx.conf /etc/ssl/wozhinnam.pem "$folder/certificate"
    replace nginx.conf /etc/ssl/wozhinnam.key "$folder/key"
    replace nginx.conf /var/log/nginx/wozhinnam.log "$folder/nginx.log"
    cat > "$folder/main.conf" << END
worker_processes 1;
daemon off;
master_process off;
pid $folder/pid;
error_log $folder/nginx.errors info;
events { worker_connections 256; }
http {
    client_body_temp_path $folder/temporary/body;
    proxy_temp_path $folder/temporary/proxy;
    fastcgi_temp_path $folder/temporary/fastcgi;
    uwsgi_temp_path $folder/temporary/uwsgi;
    scgi_temp_path $folder/temporary/scgi;
    include $folder/nginx.conf;
}
END
    nginx -c "$folder/main.conf" -e "$folder/nginx.errors" &
    proxy=$!
}
haproxy_runs() {
    cp "$examples/haproxy.cfg" "$folder/haproxy.cfg"
    replace haproxy.cfg 'log /dev/log local0' 'log stdout format raw local0'
    replace haproxy.cfg 'bind :443' "bind 127.0.0.1:$port"
    replace haproxy.cfg '127.0.0.1:3456' "${base#http://}"
    replace haproxy.cfg /etc/haproxy/wozhinnam.pem "$folder/both"
    test "$(id -u)" = 0 || sed -i '/^    user haproxy/d; /^    group haproxy/d' "$folder/haproxy.cfg"
    haproxy -db -f "$folder/haproxy.cfg" > "$folder/haproxy.log" 2> "$folder/haproxy.errors" &
    proxy=$!
}
answers() {
    $curl -o "$folder/answer" -w '%{http_code}' "$@" 2> "$folder/nothing" || true
}
opened() {
    $curl "$control/metrics" | sed -n 's/^wozhinnam_connections_opened_total //p'
}

for kind in nginx haproxy; do
    start
    port=$(free_port)
    "${kind}_runs"
    front=https://127.0.0.1:$port
    for _ in $(seq 100); do
        test "$(answers "$front/uri/URI:LIT:")" != 200 || break
        sleep 0.1
    done
    test "$(answers "$front/uri/URI:LIT:")" = 200 || fail "$kind doesn't serve: $(cat "$folder/$kind.errors")"

    # the longest body, with its length and in chunks, and back
    cap=$($curl -T "$folder/longest" "$front/uri")
    test "$(echo "$cap" | cut -c 1-8)" = URI:CHK: || fail "$kind: a put of the longest body gives $cap"
    test "$($curl -T - "$front/uri" < "$folder/longest")" = "$cap" || fail "$kind: another cap in chunks"
    $curl -o "$folder/back" "$front/uri/$cap"
    cmp "$folder/longest" "$folder/back" || fail "$kind: other bytes"
    test "$(answers -r 5-9 "$front/uri/$cap")" = 206 || fail "$kind: no range"
    test "$(wc -c < "$folder/answer")" = 5 || fail "$kind: another range"

    # one byte more: the refusal comes back, in the gateway's words
    for sent in length chunks; do
        from=$folder/longer
        test "$sent" = length || from=-
        test "$(answers -T "$from" "$front/uri" < "$folder/longer")" = 413 || fail "$kind: one byte more by $sent isn't 413"
        test "$(cat "$folder/answer")" = 'body too long' || fail "$kind: one byte more by $sent: $(cat "$folder/answer")"
    done
    # wget sends all before it reads: nginx reads what it refused to its end, and HAProxy doesn't
    refused=3
    if test "$kind" = nginx; then
        wget --quiet --tries=1 --no-proxy --ca-certificate="$folder/certificate" --server-response --method=PUT \
            --body-file="$folder/longer" -O "$folder/answer" "$front/uri" 2> "$folder/heads" || true
        grep -q 'HTTP/1.1 413' "$folder/heads" || fail 'nginx: wget does not get the refusal'
    else
        refused=2
    fi

    # a long head, and targets as they are sent
    long=$(head -c 15900 /dev/zero | tr '\0' x)
    test "$(answers "$front/uri/URI:LIT:my?unknown=$long")" = 200 || fail "$kind: a head of 16,000 bytes is refused"
    test "$(answers "$front/uri/URI%3ALIT%3Amy")" = 200 || fail "$kind: an escaped cap is refused"

    # a name of 1,000 letters that aren't ASCII, and one that fills the head: the reply tells each twice, of what isn't
    # plain a `_` for each byte first
    for letters in "$(printf '%%E6%%97%%A5%.0s' $(seq 1000))" "$long"; do
        plain=$(echo "$letters" | sed 's/%../_/g')
        test "$(answers -D "$folder/head" "$front/uri/URI:LIT:my?filename=$letters")" = 200 || fail "$kind: a name of ${#plain} bytes is refused"
        test "$(tr -d '\r' < "$folder/head" | sed -n 's/^content-disposition: //Ip')" = "inline; filename=\"$plain\"; filename*=UTF-8''$letters" ||
            fail "$kind: a name of ${#plain} bytes is told in another way"
    done

    # connections are kept, on both sides
    before=$(opened)
    $curl -o "$folder/answer" -w '%{num_connects}\n' "$front/uri/URI:LIT:my?[1-50]" > "$folder/connects"
    test "$(tr -d '\n' < "$folder/connects" | tr -d 0)" = 1 || fail "$kind: a client's connection isn't kept"
    after=$(opened)
    test "$((after - before))" -le 12 || fail "$kind: 50 requests open $((after - before)) connections"

    # the control requests are out of reach
    for path in status metrics stop; do
        test "$(answers "$front/$path")" = 404 || fail "$kind: GET /$path isn't 404"
        test "$(answers -X POST "$front/$path")" != 200 || fail "$kind: POST /$path is carried out"
        test "$(answers -X POST --request-target "$control/$path" "$front/")" != 200 || fail "$kind: the control address is reached"
    done
    test "$($curl "$front/uri/URI:LIT:my")" = f || fail "$kind: the gateway was stopped"
    test "$kind" != nginx || test "$(answers "$front/health")" = 200 || fail "nginx: no answer at /health"

    # the gateway is away
    stop
    case $(answers "$front/uri/$cap") in
    502 | 503 | 504) ;;
    *) fail "$kind: another answer without a gateway" ;;
    esac
    if test "$kind" = haproxy; then
        for _ in $(seq 150); do
            ! grep -q 'gateway is DOWN' "$folder/haproxy.log" "$folder/haproxy.errors" || break
            sleep 0.1
        done
        grep -q 'gateway is DOWN' "$folder/haproxy.log" "$folder/haproxy.errors" || fail 'haproxy: a gateway that is away is not noticed'
    fi

    # the logs have the requests, and no cap
    test "$(grep -c ' PUT 200 ' "$folder/$kind.log")" = 2 || fail "$kind: the log hasn't two puts"
    test "$(grep -c ' PUT 413 ' "$folder/$kind.log")" = "$refused" || fail "$kind: the log hasn't $refused refusals"
    key=$(echo "$cap" | cut -d : -f 3)
    set +f
    for log in "$folder/$kind".log "$folder/$kind".errors "$folder/words"; do
        ! grep -q -i -e 'URI:' -e 'URI%3A' -e "$key" "$log" || fail "$kind: a cap in $log: $(grep -i -m 1 -e 'URI' "$log")"
    done
    set -f
    test -z "$(find "$folder/temporary" -type f 2> "$folder/nothing")" || fail "$kind: a body is left on the disk"
    kill "$proxy"
    wait "$proxy" 2> "$folder/nothing" || true
    proxy=
    echo "$kind: all as it is to be"
done
