#!/usr/bin/env bash
# Lays the proved programs into a .tar.gz and a .deb, with their pages, the manual page and the unit, and beside them a file of
# checksums with the kit, the logic and the commit. The same commit and programs give the same bytes in any folder.
# The programs are those that `bench/tools/build.sh wozhinnam woz` left.
# usage: bench/tools/release.sh [OUT]        into the folder release/ unless told otherwise
# It needs dpkg-deb, curl.
set -euo pipefail
cd "$(dirname "${BASH_SOURCE[0]}")/../.."
out=$(mkdir -p "${1:-release}" && cd "${1:-release}" && pwd)
server=crates/wozhinnam/out/wozhinnam
client=crates/woz/out/woz
for program in $server $client; do
    test -x $program || {
        echo "release.sh: there is no $program: bench/tools/build.sh wozhinnam woz" >&2
        exit 1
    }
done
commit=$(git rev-parse HEAD)
test -z "$(git status --porcelain --untracked-files=no)" || {
    echo "release.sh: something was changed since $commit" >&2
    exit 1
}
version=$($server --version | sed -nE 's/^wozhinnam ([0-9.]+).*/\1/p')
kit=$(rt version)
SOURCE_DATE_EPOCH=$(git log -1 --format=%ct)
export SOURCE_DATE_EPOCH
name=wozhinnam-$version-${commit:0:8}-amd64
work=$(mktemp -d)
trap 'rm -rf "$work"' EXIT
umask 022

# As install.sh lays it below /usr: its words name the folder that it was given.
install/install.sh --program "$server" --commit "$commit" "$work/deb/usr" > /dev/null
sed -i "s|$work/deb/usr|/usr|g" "$work/deb/usr/lib/systemd/system/wozhinnam.service"
install -m 755 "$client" "$work/deb/usr/bin/woz"
mkdir -p "$work/deb/usr/share/doc/wozhinnam"
cp README.md CHANGELOG.md "$work/deb/usr/share/doc/wozhinnam/"
echo "$kit" > "$work/deb/usr/share/doc/wozhinnam/proved-with"
mkdir "$work/$name"
cp -r "$work/deb/usr/." "$work/$name"
tar -C "$work" --sort=name --mtime="@$SOURCE_DATE_EPOCH" --owner=0 --group=0 --numeric-owner --format=gnu -cf - "$name" |
    gzip -n9 > "$out/$name.tar.gz"

mkdir "$work/deb/DEBIAN"
cat > "$work/deb/DEBIAN/control" << END
Package: wozhinnam
Version: $version+${commit:0:8}
Architecture: amd64
Maintainer: Wozhinnam maintainers <maintainers@users.noreply.wozhinnam.example>
Depends: libc6, curl, coreutils
Section: net
Priority: optional
Description: web gateway for capability-addressed storage, proved
 Files and directories as encrypted shares on servers that nobody has to trust, named by caps, over HTTP.
END
find "$work/deb" -exec touch -hd "@$SOURCE_DATE_EPOCH" {} +
dpkg-deb --root-owner-group -Zgzip --build "$work/deb" "$out/$name.deb" > /dev/null
(
    cd "$out"
    echo "# commit $commit, proved with $kit"
    sha256sum "$name.tar.gz" "$name.deb"
) > "$out/$name.sha256"
cat "$out/$name.sha256"
