#!/usr/bin/env bash
# What a change of these crates asks for: their proofs, tests and edits, and the proofs of the crates above them. Those whose
# names end in _tests have the tests of crates below them, so these are run too.
# usage: bench/tools/check.sh NAME..
set -euo pipefail
cd "$(dirname "${BASH_SOURCE[0]}")/../.."
test $# -gt 0 || {
    echo 'usage: bench/tools/check.sh NAME..' >&2
    exit 2
}
for name in "$@"; do
    grep -q "^$name:" crates.txt || {
        echo "check.sh: no crate $name" >&2
        exit 2
    }
done

# The crates that stand on these, lowest first: crates.txt lists each after those below it.
above=" $* "
while IFS=: read -r name below; do
    case $name in '#'*) continue ;; esac
    for low in $below; do
        case $above in
        *" $name "*) ;;
        *" $low "*) above="$above$name " ;;
        esac
    done
done < crates.txt

timed() {
    local began=$SECONDS
    "$@" > "$log" 2>&1 || {
        cat "$log"
        echo "check.sh: failed: $*" >&2
        exit 1
    }
    echo "$((SECONDS - began)) seconds: ${PWD##*/}: $*"
}
log=$(mktemp)
trap 'rm -f "$log"' EXIT
has_tests() {
    grep -rq '#\[test\]' "crates/$1/src"
}
for name in "$@"; do
    (cd "crates/$name" && timed rt check)
    if has_tests "$name"; then (cd "crates/$name" && timed rt test); fi
done
for name in $above; do
    case " $* " in
    *" $name "*) continue ;;
    esac
    case $name in
    *_tests) (cd "crates/$name" && timed rt test) ;;
    *) (cd "crates/$name" && timed rt check) ;;
    esac
done
timed bench/tools/edits.sh "$@"
