#!/bin/sh
# Small GETs by wrk over 1, 100 and 1,000 kept connections: `wozhinnam serve`, and nginx with one worker and a file of six
# bytes. It needs wrk, nginx and curl, and takes a minute.
# usage: bench/times/small_gets.sh PROGRAM
set -eu
program=${1:?usage: bench/times/small_gets.sh PROGRAM}
here=$(cd "$(dirname "$0")" && pwd)
. "$here/../tools/server.sh"
beside=
end() {
    test -z "$beside" || kill "$beside" 2> /dev/null || true
    finish
}
trap end EXIT
ulimit -n 4096

start --connections 2000
ours="$base/uri/URI:LIT:mzxw6ytboi"

port=$(python3 -c 'import socket; s = socket.socket(); s.bind(("127.0.0.1", 0)); print(s.getsockname()[1])')
mkdir "$folder/files"
printf foobar > "$folder/files/six"
chmod 755 "$folder" "$folder/files"
cat > "$folder/nginx.conf" << END
worker_processes 1;
daemon off;
master_process off;
pid $folder/pid;
error_log $folder/errors;
events { worker_connections 3000; }
http {
    access_log off;
    keepalive_requests 1000000000;
    client_body_temp_path $folder/body;
    proxy_temp_path $folder/proxy;
    fastcgi_temp_path $folder/fastcgi;
    uwsgi_temp_path $folder/uwsgi;
    scgi_temp_path $folder/scgi;
    server { listen 127.0.0.1:$port; root $folder/files; }
}
END
nginx -c "$folder/nginx.conf" &
beside=$!
sleep 1
theirs="http://127.0.0.1:$port/six"
test "$(curl -s "$ours")" = foobar
test "$(curl -s "$theirs")" = foobar

for connections in 1 100 1000; do
    for url in "$ours" "$theirs"; do
        name=wozhinnam
        test "$url" = "$ours" || name=nginx
        echo "$name, $connections connections: $(timeout 60 wrk -t 1 -c "$connections" -d 5s --latency "$url" | awk '/50%|99%|Requests\/sec|Socket errors/ { $1 = $1; printf "%s; ", $0 }')"
    done
done
