#!/bin/sh
# `install/install.sh` into a folder: the program runs there, the manual page has each command and option and renders, the
# unit is one that systemd takes, allows enough open files and starts what it says, twice makes what once does, and a
# removal leaves nothing. It needs curl, man (man-db), pgrep, and systemd-analyze where there is one.
# usage: bench/checks/installed.sh WOZHINNAM
set -eu
program=${1:?usage: bench/checks/installed.sh WOZHINNAM}
here=$(cd "$(dirname "$0")" && pwd)
. "$here/../tools/server.sh"
installer=$here/../../install/install.sh
prefix=$folder/prefix
mkdir "$prefix"
chmod 755 "$folder"

# words that are refused, before anything is written
for words in 'here' '--remove here' '--connections 0' '--connections 1000001' '--connections many' '--user me' "$prefix&x"; do
    ! "$installer" --program "$program" $words > "$folder/given" 2>&1 || fail "install.sh takes $words"
done
! "$installer" --program "$folder/none" "$prefix" > "$folder/given" 2>&1 || fail 'a program that is not there is installed'
test -z "$(ls "$prefix")" || fail 'what was refused was written'

"$installer" --program "$program" --connections 5000 "$prefix" > "$folder/given"
(cd "$prefix" && find . -type f | sort | xargs sha256sum) > "$folder/once"
"$installer" --program "$program" --connections 5000 "$prefix" > "$folder/given"
(cd "$prefix" && find . -type f | sort | xargs sha256sum) | cmp - "$folder/once" || fail 'twice makes something else'
test ! -e "$prefix/share/wozhinnam/commit" || fail 'a program from elsewhere is told its commit'
"$installer" --program "$program" --commit 0123abc --connections 5000 "$prefix" > "$folder/given"
test "$("$prefix/bin/wozhinnam" --version)" = "$("$program" --version) (0123abc)" || fail 'the version has another commit'
"$installer" --program "$program" --commit 'not one' --connections 5000 "$prefix" > "$folder/given"
test "$("$prefix/bin/wozhinnam" --version)" = "$("$program" --version)" || fail 'the version has what is no commit'
"$installer" --program "$program" --connections 5000 "$prefix" > "$folder/given"
(cd "$prefix" && find . -type f | sort | xargs sha256sum) | cmp - "$folder/once" || fail 'a commit is left'
for page in "$here"/../../pages/*; do
    cmp "$page" "$prefix/share/wozhinnam/pages/${page##*/}" || fail "the page ${page##*/} is another"
done
test "$(grep -vc ' ./share/wozhinnam/pages/' "$folder/once")" = 4 || fail "not four files beside the pages: $(cat "$folder/once")"
! grep -q '@[A-Z]*@' "$prefix/lib/systemd/system/wozhinnam.service" || fail 'a word of the unit was not written'

# the manual page
MANPAGER=cat MANWIDTH=100 man --warnings=all -l "$prefix/share/man/man1/wozhinnam.1" > "$folder/page" 2> "$folder/why" ||
    fail 'man does not render the page'
test ! -s "$folder/why" || fail 'man warns'
for command in serve check image restore; do
    grep -q "^ *wozhinnam $command" "$folder/page" || fail "the page has no $command"
    for option in $("$program" help "$command" | grep -o '^ *--[a-z-]*'); do
        grep -q -e " $option" "$folder/page" || fail "the page has no $option"
    done
done
for status in $(seq 0 35); do
    grep -q "^ *$status  " "$folder/page" || fail "the page has no status $status"
done

# the unit
unit=$prefix/lib/systemd/system/wozhinnam.service
if command -v systemd-analyze > "$folder/nothing"; then
    MANPATH=$prefix/share/man systemd-analyze verify "$unit" > "$folder/why" 2>&1 || fail 'systemd refuses the unit'
    test ! -s "$folder/why" || fail 'systemd warns of the unit'
else
    echo 'systemd-analyze is not here: the unit is not verified'
fi

# what the unit runs, as this user and with stores of this folder: it starts, and its stop ends it with 0
said() {
    sed -n "s/^$1//p" "$unit"
}
if test "$(ulimit -H -n)" = unlimited || test "$(ulimit -H -n)" -ge "$(said LimitNOFILE=)"; then
    LISTEN=127.0.0.1:0
    CONTROL=127.0.0.1:0
    CONNECTIONS=$(said Environment=CONNECTIONS=)
    test "$CONNECTIONS" = 5000 || fail "the unit allows $CONNECTIONS connections"
    PAGES=$(sed -n 's/^Environment="PAGES=\(.*\)"$/\1/p' "$unit")
    STORES=$(sed -n 's/^Environment="STORES=\(.*\)"$/\1/p' "$unit" | sed "s|/var/lib/wozhinnam|$folder|g")
    ulimit -n "$(said LimitNOFILE=)"
    eval "started 'control on' $(said ExecStart= | sed 's/\$MORE//')"
    CONTROL=$(address 'control on')
    $curl -T "$program" "$base/uri" > "$folder/cap"
    $curl "$base/" | cmp - "$here/../../pages/index.html" || fail 'the unit serves no page'
    test "$(ls -d "$folder"/[0-9] | wc -l)" = 5 || fail 'the unit has not five stores'
    MAINPID=$(pgrep -P "$server")
    TOKEN=$(said Environment=TOKEN=)
    export TOKEN
    eval "$(said ExecStop= | sed "s/\${CONTROL}/$CONTROL/; s/\${MAINPID}/$MAINPID/; s/%%/%/g; s/\\\$\\\$/\$/g")" > "$folder/given" || fail 'the stop of the unit fails'
    test ! -e "/proc/$MAINPID" || fail 'the stop of the unit does not wait for the end'
    wait "$server" || fail "the program of the unit ends with $?"
    server=
else
    echo 'too few open files are allowed here: what the unit runs is not tried'
fi

"$installer" --remove "$prefix" > "$folder/given"
test -z "$(ls -A "$prefix")" || fail "a removal leaves $(find "$prefix")"
echo 'installed: all as it is to be'
