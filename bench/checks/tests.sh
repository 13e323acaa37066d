#!/usr/bin/env bash
# Runs the tests of tests/ and the cases of cases/: two crates over the sources of crates/, built with checks of each index,
# sum and access, and with no proof. Of the cases those of cases/wrong.txt fail on purpose, as cases/wanted.txt says, and no
# other does. The gate runs it beside the proofs.
# usage: bench/checks/tests.sh [WORD]        all, or of the tests those whose name has WORD in it, and no case
set -euo pipefail
cd "$(dirname "${BASH_SOURCE[0]}")/../.."
copy=$(mktemp -d)
trap 'rm -rf "$copy"' EXIT
cp HANDLES "$copy"
cat crates.txt tests/libraries.txt cases/libraries.txt > "$copy/crates.txt"
for folder in crates/*/; do
    mkdir -p "$copy/$folder"
    cp -r "$folder/src" "$copy/$folder"
    test ! -e "$folder/specs" || cp -r "$folder/specs" "$copy/$folder"
done
for crate in tests cases; do
    mkdir "$copy/crates/unproved_$crate"
    cp -r $crate "$copy/crates/unproved_$crate/src"
    find "$copy/crates/unproved_$crate/src" -name '*.rs' | while read -r file; do mv "$file" "${file%.rs}.rt"; done
done
git -C "$copy" init -q

cd "$copy/crates/unproved_tests"
status=0
rt try --test --seconds 3600 -- "$@" > "$copy/said" 2>&1 || status=$?
grep -E '^test |^run=' "$copy/said" || cat "$copy/said"
passed=$(sed -nE 's/^test result: ok\. ([0-9]+) passed; 0 failed.*/\1/p' "$copy/said")
if [ "$status" != 0 ] || [ "${passed:-0}" = 0 ]; then
    cat "$copy/said"
    exit 1
fi
echo "tests.sh: $passed tests passed, unproved"
test $# = 0 || exit 0

cd "$copy/crates/unproved_cases"
(cd src && cat wrong.txt formats.txt stores.txt shelves.txt) > "$copy/asked"
{
    cat src/wanted.txt
    echo "cases: $(grep -cvE '^(#|$)' "$copy/asked")"
} > "$copy/wanted"
rt try --seconds 3600 < "$copy/asked" > "$copy/answers" 2> "$copy/said" || true
grep -E '^(line|cases:) ' "$copy/answers" | diff - "$copy/wanted" || {
    tail -n 30 "$copy/said"
    exit 1
}
echo "tests.sh: $(sed -n 's/^cases: //p' "$copy/wanted") cases have the answers that are wanted, unproved"
