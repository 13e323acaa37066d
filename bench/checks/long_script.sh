#!/bin/sh
# Scripts at their limit against the built program: one of 268,435,456 bytes is answered, one of a byte more is not.
# usage: bench/checks/long_script.sh PROGRAM
set -eu
program=${1:?usage: bench/checks/long_script.sh PROGRAM}
limit=268435456
folder=$(mktemp -d)
trap 'rm -rf "$folder"' EXIT

# a script of this many bytes: `grid`, and then empty lines
script() {
    printf 'grid 3 10 1 5 -\n'
    head -c $(($1 - 16)) /dev/zero | tr '\0' '\n'
}

status=0
script $limit | timeout 600 "$program" replay > "$folder/answers" 2> "$folder/words" || status=$?
test "$status" = 0
test "$(cat "$folder/answers")" = ok

status=0
script $((limit + 1)) | timeout 600 "$program" replay > "$folder/answers" 2> "$folder/words" || status=$?
test "$status" = 1
test "$(cat "$folder/answers")" = ok
test "$(cat "$folder/words")" = 'gate_main: the script or one of its lines is too long'
echo "a script of $limit bytes is answered, one of a byte more is too long"
