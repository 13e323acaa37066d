#!/usr/bin/env bash
# Tries every edit of the crates that are named, or of all: those of must-fail/, which the gate tries too, and those of edits/.
# Each is a wrong body that the prover has to refuse. It works on a copy, prints what `rt must-fail` prints, and writes into
# bench/edits.txt what came of each, with the commit that stood then: a line an edit, for good until it is tried again.
# Status 1 where one was not refused, or could not be tried.
# usage: bench/tools/edits.sh [NAME..]
#        bench/tools/edits.sh --stale      lists the edits that were not tried since their crate's source changed
set -euo pipefail
cd "$(dirname "${BASH_SOURCE[0]}")/../.."
top=$PWD
record=$top/bench/edits.txt
touch "$record"
if [ "${1-}" = --stale ]; then
    for edit in crates/*/edits/*.edit crates/*/must-fail/*.edit; do
        crate=$(cut -d/ -f2 <<< "$edit")
        read -r _ commit result <<< "$(grep -F "$crate/$(basename "$edit") " "$record" || echo "- - untried")"
        test "$result" = refused && git diff --quiet "$commit" -- "crates/$crate/src" "crates/$crate/specs" "$edit" ||
            echo "$edit: $result"
    done
    exit
fi
commit=$(git rev-parse --short=8 HEAD)
git diff --quiet HEAD -- crates || commit=$commit+
copy=$(mktemp -d)
trap 'rm -rf "$copy"' EXIT
cp -r crates.txt HANDLES crates "$copy"
git -C "$copy" init -q
cd "$copy"
test $# -gt 0 || set -- $(ls crates)
for name in "$@"; do
    test -d "crates/$name" || {
        echo "edits.sh: no crate $name" >&2
        exit 2
    }
    mkdir -p "crates/$name/must-fail"
    for edit in "crates/$name/edits"/*.edit; do
        test ! -e "$edit" || mv "$edit" "crates/$name/must-fail/"
    done
done
status=0
rt must-fail "$@" | tee "$copy/said" || status=$?
# `CRATE/EDIT COMMIT RESULT`: refused, limit (only by a limit of the prover), proved, bad (it could not be applied or read), untried.
{
    cat "$record"
    sed -nE "s#^(rt: )?must-fail ([a-z0-9_]+/[^ ]+\.edit): (.*)#\2 $commit \3#p" "$copy/said" | sed -E '
        s#^(\S+ \S+) refused, as it must be \(only by a limit.*#\1 limit#
        s#^(\S+ \S+) refused, as it must be.*#\1 refused#
        s#^(\S+ \S+) NOT REFUSED.*#\1 proved#
        s#^(\S+ \S+) BAD EDIT.*#\1 bad#
        s#^(\S+ \S+) NOT TRIED.*#\1 untried#'
} | awk '{ last[$1] = $0 } END { for (it in last) print last[it] }' | sort > "$copy/record"
cp "$copy/record" "$record"
exit "$status"
