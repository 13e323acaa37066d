#!/usr/bin/env bash
# Builds and lays a release of the commit at hand once more, in a clone in a folder of its own, and sees that it is byte for
# byte the one in release/: two builds of one commit are the same bytes, wherever they are made.
# usage: bench/checks/same_bytes.sh        after bench/tools/build.sh wozhinnam woz, and bench/tools/release.sh
set -euo pipefail
cd "$(dirname "${BASH_SOURCE[0]}")/../.."
commit=$(git rev-parse HEAD)
copy=$(mktemp -d)
trap 'rm -rf "$copy"' EXIT
git clone -q . "$copy/another/folder"
cd "$copy/another/folder"
git checkout -q "$commit"
bench/tools/build.sh wozhinnam woz > "$copy/said" || {
    tail -n 30 "$copy/said"
    exit 1
}
bench/tools/release.sh > /dev/null
cd - > /dev/null
for file in release/*"${commit:0:8}"*; do
    cmp "$file" "$copy/another/folder/$file"
done
echo "same_bytes.sh: two builds of ${commit:0:8} are the same bytes: $(ls release/*"${commit:0:8}"* | wc -l) files"
