#!/bin/sh
# Starts `wozhinnam serve WORD..`, as the entry of a container or under a supervisor. At TERM, INT or HUP it asks POST /stop
# at the control address, so that replies that are under way go out; a second one ends the program at once, and so does the
# first where that can't be asked, as while it starts. USR1 and USR2 do nothing. Its status is the program's. Where neither
# the words nor the file of --config have a control address, it is 127.0.0.1 at the first free port from 3457 on.
# It needs curl or wget. WOZHINNAM may name the program.
# usage: install/run.sh [WORD..]
curl=$(command -v curl) || command -v wget > /dev/null || { echo 'run.sh: there is no curl and no wget' >&2 && exit 127; }
given() { # an option's value: in the words, else in the file of options
    option=$1 value='' config='' last='' && shift
    for word in "$@"; do
        case $last in "--$option") value=$word ;; --config) config=$word ;; esac
        case $word in "--$option="*) value=${word#*=} ;; --config=*) config=${word#*=} ;; esac
        last=$word
    done
    test -n "$value" || test -z "$config" ||
        value=$(sed -n "s/^[[:blank:]]*$option[[:blank:]]*=[[:blank:]]*[\"']\([^\"']*\).*/\1/p" "$config" 2> /dev/null)
    echo "$value"
}
is_free() { # no word names the port, and nobody listens there
    case "$* " in *":$port"[!0-9]*) return 1 ;; esac
    ! grep -q "$(printf ':%04X [0-9A-F]*:0000 0A ' "$port")" /proc/net/tcp /proc/net/tcp6 2> /dev/null
}
ask() { # wget's words, and a token among them, can be seen by other users of the machine
    url=http://$control/stop
    host="Host: localhost:${control##*:}"
    bearer=${token:+"Authorization: Bearer $(cat "$token")"} || return 1
    if test -n "$curl"; then
        printf '%s\n' "$host" ${bearer:+"$bearer"} | curl -H @- -sSf --max-time 5 --noproxy '*' -X POST "$url"
    else
        wget -qO - --no-proxy -t 1 -T 5 --header "$host" ${bearer:+--header "$bearer"} --post-data= "$url"
    fi > /dev/null
}
stop() {
    server=${server:-$!} && test -n "$server" || exit 143
    trap 'kill "$server"' TERM INT HUP
    { ask || kill "$server"; } &
}
control=$(given control "$@")
case $control in
*:0) echo 'run.sh: --control wants a port other than 0, at which it can be asked to stop' >&2 && exit 2 ;;
'')
    port=3457
    until is_free "$@"; do port=$((port + 1)); done
    control=127.0.0.1:$port
    set -- --control "$control" "$@"
    ;;
esac
token=$(given control-token-file "$@")
trap '' USR1 USR2
trap stop TERM INT HUP
status=127
(trap '' HUP && exec "${WOZHINNAM:-wozhinnam}" serve "$@") & server=$!
while wait "$server"; code=$?; test "$code" != 127 && status=$code && kill -0 "$server" 2> /dev/null; do :; done
exit "$status"
