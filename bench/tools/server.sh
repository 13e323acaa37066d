# One start of a server, for the shell scripts of bench/. A script sets `program` and sources this file:
#
#     . "$here/../tools/server.sh"
#     start --shares 3,10        # wozhinnam serve, with these options; $base and $control are its two addresses
#     stop                       # asks it to stop, and fails where its status isn't 0
#
# It makes $folder, which is removed at the end of the script together with the server that still runs: `finish` does so,
# and a script that has more to take back calls it in a function of its own.

name=${0##*/}
folder=$(mktemp -d)
server=
curl='curl --silent --show-error --max-time 60'

fail() {
    echo "$name: $1" >&2
    test ! -s "$folder/why" || sed 's/^/the program that ended last said: /' "$folder/why" >&2
    exit 1
}

test -x "$program" || fail "there is no program $program: build it by \`rt run\` in its crate's folder"

# By TERM, which `timeout` hands on to the program that it runs: by KILL it would end alone and leave that one behind.
kill_server() {
    test -z "$server" || {
        kill "$server" 2> /dev/null || true
        wait "$server" 2> /dev/null || true
        server=
    }
}
finish() {
    kill_server
    rm -rf "$folder"
}
trap finish EXIT
trap 'exit 1' INT TERM

# The address after some words on the program's standard output.
address() {
    sed -n "s/^$1 //p" "$folder/out"
}

# Starts a program, and waits until its output has these words: `started WORDS PROGRAM ARGUMENT..`. The output of the last
# one is taken away before, so that nothing of it is read.
started() {
    last=$1
    shift
    : > "$folder/out"
    timeout --kill-after=5 600 "$@" > "$folder/out" 2> "$folder/words" &
    server=$!
    for _ in $(seq 300); do
        test -z "$(address "$last")" || {
            base="http://$(address 'listening on')"
            return 0
        }
        sleep 0.1
    done
    cp "$folder/words" "$folder/why"
    fail "doesn't listen after 30 seconds: $*"
}
start() {
    started 'control on' "$program" serve --listen 127.0.0.1:0 --control 127.0.0.1:0 "$@"
    control="http://$(address 'control on')"
}
stop() {
    $curl -X POST "$control/stop" > "$folder/stopped"
    wait "$server" || fail "a stop ends with $?"
    server=
}
