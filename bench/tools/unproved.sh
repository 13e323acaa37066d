#!/usr/bin/env bash
# Builds the server without proving anything, starts it, and says when it listens: some minutes after a clone. It is for a
# look at it: it checks its own steps as it runs, which makes it three to four times slower, and nothing about it is proved.
# It ends after an hour, or by Ctrl-C.
# usage: bench/tools/unproved.sh [WORD..]        words of `wozhinnam serve`, as --listen 127.0.0.1:8080
set -euo pipefail
cd "$(dirname "${BASH_SOURCE[0]}")/../.."
top=$PWD
address=127.0.0.1:3456
words=(serve)
given=$*
case " $given " in *" --pages "* | *" --no-pages "*) ;; *) words+=(--pages "$top/pages") ;; esac
while test $# -gt 0; do
    words+=("$1")
    if [ "$1" = --listen ]; then address=${2%%,*}; fi
    shift
done
said=$(mktemp)
trap 'kill $(jobs -p) 2>/dev/null || true; rm -f "$said"' EXIT
echo "unproved.sh: building the server, unproved"
(cd crates/wozhinnam && exec rt try --seconds 3600 -- "${words[@]}") > "$said" 2>&1 &
server=$!
until curl -s -o /dev/null "http://$address/uri/URI:LIT:"; do
    kill -0 "$server" 2> /dev/null || {
        cat "$said"
        exit 1
    }
    sleep 1
done
echo "unproved.sh: it listens on http://$address after $SECONDS seconds. NOTHING ABOUT IT IS PROVED, and it ends in an hour"
wait "$server" || true
cat "$said"
