#!/bin/sh
# `wozhinnam serve --config FILE`, the built program: each refusal of a file with its status and what is told, an option of
# the command line in place of the file's, and a server that has all from a file. Then its log: lines of JSON, read by
# Python, and none below the level. It needs curl and python3.
# usage: bench/checks/options.sh PROGRAM
set -eu
program=${1:?usage: bench/checks/options.sh PROGRAM}
here=$(cd "$(dirname "$0")" && pwd)
. "$here/../tools/server.sh"
file=$folder/options.toml

# a run that ends by itself: its status, and words on standard error
ends() {
    wanted=$1
    words=$2
    shift 2
    status=0
    timeout 20 "$program" serve --config "$file" "$@" > "$folder/nothing" 2> "$folder/why" || status=$?
    test "$status" = "$wanted" || fail "$* ends with $status and not $wanted"
    grep -qF -e "$words" "$folder/why" || fail "$* doesn't say: $words"
    test ! -s "$folder/nothing" || fail "$* prints something"
}

ends 32 "$file: "
printf 'listen = "a"\n\nidle = \n' > "$file"
ends 33 "$file: line 3: "
printf 'servers = 2\nidle = 1.5\n' > "$file"
ends 33 "$file: idle: "
printf 'listen = "\377"\n' > "$file"
ends 33 "$file: it is no UTF-8"
head -c 1048577 /dev/zero | tr '\0' '#' > "$file"
ends 33 "$file: it has more than 1048576 bytes"

# what the words of a file are refused for is told as it is of the command line, which counts
printf 'port = 80\n' > "$file"
ends 2 "$file"
grep -qF -e --port "$folder/why" || fail "an unknown key isn't named"
printf 'listen = "--no-sync"\n' > "$file"
ends 3 address
printf 'listen = "nobody.invalid:80"\nshares = "4,3"\nstore = ["mem:1", "nowhere"]\n' > "$file"
ends 2 --shares
ends 2 --store --shares 2,3
ends 3 address --shares=2,3 --store mem:1

# a server that has all from a file
cat > "$file" << 'END'
listen = "127.0.0.1:0"
control = "127.0.0.1:0"
servers = 2
room = "1M"
shares = "1,2"
no-sync = true
log-format = "json"
END
served() {
    started 'control on' "$program" serve --config "$file" "$@"
    control="http://$(address 'control on')"
    $curl "$control/status" > "$folder/status"
    stop
}
served
python3 - "$folder/status" "$folder/words" << 'END'
import json, sys, time
stores = json.load(open(sys.argv[1]))["stores"]
assert [store["room"] for store in stores] == [1 << 20] * 2, stores
lines = [json.loads(line) for line in open(sys.argv[2])]
assert lines and all(set(line) == {"time", "level", "target", "message"} for line in lines), lines
assert all(abs(line["time"] - time.time()) < 60 for line in lines), lines
assert {line["level"] for line in lines} == {"info"}, lines
assert lines[0]["message"].startswith("started") and lines[-1]["message"].startswith("stopped"), lines
END
served --log-level warn --servers 1
test ! -s "$folder/words" || fail "lines below the level: $(cat "$folder/words")"
python3 -c 'import json, sys; assert len(json.load(open(sys.argv[1]))["stores"]) == 1' "$folder/status"
echo 'options.sh: files are refused and served as they are to be'
