#!/bin/sh
# What proxies let through, beside proxies.sh: in nginx, by the example of install/ and the lines of docs/OPERATING.md ("What
# is stored stays"), who uploads needs a password and is held to a rate, and who reads isn't; through Caddy, by its example,
# files are put and read as by the gateway itself; and neither writes a cap to a log, also while the gateway is
# away. It needs curl, nginx, caddy, openssl and python3.
# usage: bench/checks/uploads.sh WOZHINNAM
set -eu
program=${1:?usage: bench/checks/uploads.sh WOZHINNAM}
here=$(cd "$(dirname "$0")" && pwd)
. "$here/../tools/server.sh"
top=$here/../..
proxy=
end_proxy() {
    test -z "$proxy" || kill "$proxy" 2> /dev/null || true
    test -z "$proxy" || wait "$proxy" 2> /dev/null || true
    proxy=
}
end() {
    end_proxy
    finish
}
trap end EXIT
PATH=$PATH:/usr/sbin
for word in nginx caddy openssl; do
    command -v "$word" > "$folder/nothing" || fail "there is no $word"
done
code() {
    $curl --insecure --noproxy '*' -o "$folder/answer" -w '%{http_code}' "$@" 2> "$folder/nothing" || true
}
is() {
    test "$2" = "$3" || fail "$1: $2 and not $3"
}
answers() {
    for _ in $(seq 100); do
        test "$(code "$front/uri/URI:LIT:")" != 200 || return 0
        sleep 0.1
    done
    fail "$1 doesn't serve: $(cat "$folder/$1.errors")"
}
no_cap() {
    test -s "$folder/$1.log" || fail "$1 logs nothing"
    ! grep -i -e 'URI:' -e 'URI%3A' -e "$(echo "$cap" | cut -d : -f 3)" "$folder/$1.log" "$folder/$1.errors" || fail "$1: a cap in a log"
}
port=$(python3 -c 'import socket; s = socket.socket(); s.bind(("127.0.0.1", 0)); print(s.getsockname()[1])')
front=https://127.0.0.1:$port
head -c 3000 /dev/urandom > "$folder/file"
head -c 20000000 /dev/zero > "$folder/long"
start --shares 1,1 --servers 1

# nginx: the lines of the page go where it says
openssl req -x509 -newkey rsa:2048 -nodes -days 2 -subj /CN=localhost -keyout "$folder/key" -out "$folder/certificate" 2> "$folder/nothing"
printf 'somebody:%s\n' "$(openssl passwd -apr1 word)" > "$folder/uploaders"
chmod 644 "$folder/uploaders"
chmod 711 "$folder"
lines() {
    sed -n "/^    # $1/,/^\$/s/^    //p" "$top/docs/OPERATING.md"
}
test -n "$(lines 'before `server`')" && test -n "$(lines 'in `location')" || fail 'the page has no lines for nginx any more'
{
    printf 'daemon off;\npid %s/pid;\nerror_log %s/nginx.errors info;\nevents { }\nhttp {\n' "$folder" "$folder"
    for word in client_body proxy fastcgi uwsgi scgi; do
        echo "${word}_temp_path $folder/$word;"
    done
    lines 'before `server`'
    lines 'in `location' > "$folder/inside"
    sed -e "/location \/ {/r $folder/inside" "$top/install/nginx.conf" |
        sed -e "s|listen 443|listen 127.0.0.1:$port|" -e "s|127.0.0.1:3456|${base#http://}|" -e "s|/etc/nginx/uploaders|$folder/uploaders|" \
            -e "s|/etc/ssl/wozhinnam.pem|$folder/certificate|" -e "s|/etc/ssl/wozhinnam.key|$folder/key|" -e "s|/var/log/nginx/wozhinnam.log|$folder/nginx.log|"
    echo '}'
} > "$folder/nginx.conf"
nginx -c "$folder/nginx.conf" -e "$folder/nginx.errors" &
proxy=$!
answers nginx
is 'a put without a password' "$(code -T "$folder/file" "$front/uri")" 401
is 'a post without one' "$(code -d '{}' "$front/uri?t=mkdir-immutable")" 401
is 'a wrong password' "$(code -u somebody:else -T "$folder/file" "$front/uri")" 401
is 'a put' "$(code -u somebody:word -T "$folder/file" "$front/uri")" 200
cap=$(cat "$folder/answer")
is 'a post' "$(code -u somebody:word -d '{}' "$front/uri?t=mkdir-immutable")" 200
is 'a get' "$(code "$front/uri/$cap")" 200
cmp "$folder/file" "$folder/answer" || fail 'nginx: other bytes'
is 'a head' "$(code --head "$front/uri/$cap")" 200
# sixty by one connection, so that no start of a program and no handshake is in between
test "$(code -d '{}' "$front/uri?[1-60]" | sed 's/.../&\n/g' | grep -c 429)" -ge 1 || fail 'sixty uploads in a row are let through'
test "$(code "$front/uri/URI:LIT:my?[1-60]" | sed 's/.../&\n/g' | grep -c 200)" = 60 || fail 'sixty reads in a row are not let through'
no_cap nginx
end_proxy

# Caddy
command='{ sub("files.example.org", "https://127.0.0.1:" port) sub("/var/log/caddy/wozhinnam.log", log_file) sub("127.0.0.1:3456", base); print }
/^\{/ { print "\tadmin off\n\tskip_install_trust\n\tauto_https disable_redirects\n\tlocal_certs" }'
awk -v port="$port" -v log_file="$folder/caddy.log" -v base="${base#http://}" "$command" "$top/install/Caddyfile" > "$folder/Caddyfile"
HOME=$folder XDG_DATA_HOME=$folder XDG_CONFIG_HOME=$folder caddy run --adapter caddyfile --config "$folder/Caddyfile" > "$folder/nothing" 2> "$folder/caddy.errors" &
proxy=$!
answers caddy
is 'a put through Caddy' "$(code -T "$folder/file" "$front/uri")" 200
is 'its cap' "$(cat "$folder/answer")" "$cap"
is 'a get through Caddy' "$(code -H "Referer: $front/uri/$cap" "$front/uri/$cap")" 200
cmp "$folder/file" "$folder/answer" || fail 'Caddy: other bytes'
for from in "$folder/long" -; do
    # 413, or a connection that is cut, as the gateway reads for two seconds behind a refusal
    case $(code -T "$from" "$front/uri" < "$folder/long") in
    413 | 502 | 000) ;;
    *) fail "a body that is too long is answered: $(head -c 100 "$folder/answer")" ;;
    esac
done
is 'a long name' "$(code "$front/uri/URI:LIT:my?filename=$(head -c 15900 /dev/zero | tr '\0' x)")" 200
is 'the status' "$(code "$front/status")" 404
stop
is 'a get without a gateway' "$(code "$front/uri/$cap")" 502
is 'a put without a gateway' "$(code -T "$folder/file" "$front/uri/$cap")" 502
end_proxy
no_cap caddy
echo 'uploads: all as it is to be'
