#!/bin/sh
# Lays down the built program, its pages, its manual page, a systemd unit and the unit's user below PREFIX, or removes
# these files again. It starts nothing, makes no user, and leaves stores alone: what is to be done next is printed.
# usage: install/install.sh [--program PATH] [--commit NAME] [--connections MAX] [PREFIX]     (/usr/local without it)
#        install/install.sh --remove [PREFIX]
set -eu
umask 022
here=$(cd "$(dirname "$0")" && pwd)
program=$here/../crates/wozhinnam/out/wozhinnam
commit=
connections=900
remove=
prefix=/usr/local

fail() {
    echo "install.sh: $1" >&2
    exit 1
}
usage() {
    sed -n 's/^# usage: /usage: /p; s/^#  \( *install\/install.sh\)/ \1/p' "$0"
}
# How many connections, as `serve` allows them.
count() {
    case ${1:-} in
    '' | *[!0-9]* | ????????*) return 1 ;;
    esac
    test "$1" -ge 1 && test "$1" -le 1000000
}
given=
built=
while test $# -gt 0; do
    case $1 in
    --help | -h)
        usage
        exit 0
        ;;
    --remove) remove=yes ;;
    --program)
        program=${2:?usage: --program PATH}
        built=elsewhere
        shift
        ;;
    --commit)
        commit=${2:?usage: --commit NAME}
        shift
        ;;
    --connections)
        count "${2:-}" || fail '--connections wants a number from 1 to 1,000,000'
        connections=$2
        shift
        ;;
    -*) fail "there is no option $1" ;;
    *)
        test -z "$given" || fail 'one PREFIX alone'
        given=yes
        prefix=$1
        ;;
    esac
    shift
done
case $prefix in
/*) ;;
*) fail 'PREFIX begins with /' ;;
esac
# It stands in the unit, where these have a meaning.
case $prefix in
*[!A-Za-z0-9/._-]*) fail 'PREFIX has letters, digits, and / . _ - alone' ;;
esac
prefix=${prefix%/}

bin=$prefix/bin/wozhinnam
pages=$prefix/share/wozhinnam/pages
manual=$prefix/share/man/man1/wozhinnam.1
named=$prefix/share/wozhinnam/commit
unit=$prefix/lib/systemd/system/wozhinnam.service
user=$prefix/lib/sysusers.d/wozhinnam.conf

if test -n "$remove"; then
    rm -f "$bin" "$named" "$manual" "$unit" "$user"
    rm -rf "$pages"
    # Folders that nothing else stands in, from the innermost one up. Those that a system has anyway stay there.
    folders='share/wozhinnam share/man/man1 lib/systemd/system lib/systemd lib/sysusers.d'
    case $prefix in
    '' | /usr | /usr/local) ;;
    *) folders="$folders bin share/man share lib" ;;
    esac
    for folder in $folders; do
        rmdir "$prefix/$folder" 2> /dev/null || true
    done
    echo "removed. Stop it before (systemctl disable --now wozhinnam); its stores and its user are left."
    exit 0
fi

test -x "$program" || fail "there is no program $program: build it by \`bench/tools/build.sh wozhinnam\`"
"$program" --version > /dev/null || fail "$program doesn't run here"
curl=$(command -v curl) || fail 'there is no curl, by which the unit stops the program'
tail=$(command -v tail) || fail 'there is no tail, by which the unit waits for its end'

# The commit that the program names: the one that is given, or, of the program of these sources, theirs, where git knows it
# and nothing that it knows was changed.
if test -z "$commit" && test -z "$built"; then
    changed=$(git -C "$here" status --porcelain --untracked-files=no 2> /dev/null) && test -z "$changed" &&
        commit=$(git -C "$here" rev-parse HEAD 2> /dev/null) || commit=
fi

install -D -m 755 "$program" "$bin.new"
mv -f "$bin.new" "$bin"
# all pages of this version, and none of another
rm -rf "$pages"
install -d -m 755 "$pages"
install -m 644 "$here"/../pages/* "$pages"
rm -f "$named"
test -z "$commit" || {
    echo "$commit" > "$named"
    chmod 644 "$named"
}
install -d -m 755 "${manual%/*}" "${unit%/*}" "${user%/*}"
"$here/manual.sh" "$bin" > "$manual.new"
mv -f "$manual.new" "$manual"
sed -e "s|@PREFIX@|$prefix|" -e "s|@CONNECTIONS@|$connections|" -e "s|@HANDLES@|$((connections + 256 + 32))|" \
    -e "s|@CURL@|$curl|" -e "s|@TAIL@|$tail|" -e '1,/^$/d' "$here/wozhinnam.service" > "$unit"
cp "$here/sysusers.conf" "$user"
chmod 644 "$manual" "$unit" "$user"

cat << END
$("$bin" --version): $bin
To run it as the unit says, with five stores below /var/lib/wozhinnam:
    systemd-sysusers $user
    systemctl daemon-reload
    systemctl enable --now wozhinnam
END
case $unit in
/usr/local/lib/* | /usr/lib/* | /lib/*) ;;
*) echo "systemd doesn't look below $prefix: systemctl enable --now $unit instead of the last line" ;;
esac
