#!/bin/sh
# Writes the manual page of a built program, made from what its own `help` says of each command, and from the table of
# exit statuses in docs/OPERATING.md.
# usage: install/manual.sh PROGRAM > wozhinnam.1
set -eu
program=${1:?usage: install/manual.sh PROGRAM > wozhinnam.1}
here=$(cd "$(dirname "$0")" && pwd)
page=$here/../docs/OPERATING.md

# Text as roff wants it: no word of it is a request, and a hyphen is one that can be searched for.
as_roff() {
    sed -e 's/\\/\\e/g' -e 's/-/\\-/g' -e "s/^\([.']\)/\\\\\&\1/"
}
# What the help of a command says first.
about() {
    "$program" help "$1" | head -n 1
}
# Its arguments and options: a line each, the text after two spaces or more.
options() {
    "$program" help "$1" | as_roff | awk '
        /^ +(\\-|<)/ {
            sub(/^ +/, "")
            at = match($0, /  +/)
            if (at == 0) next
            print ".TP\n\\fB" substr($0, 1, at - 1) "\\fR\n" substr($0, at + RLENGTH)
        }'
}

version=$("$program" --version)
commands=$("$program" help | sed -n '/^Commands:/,/^$/s/^  \([a-z][a-z]*\) .*/\1/p' | grep -v '^help$')

printf '.TH WOZHINNAM 1 "" "%s"\n.nh\n.ad l\n.SH NAME\n' "$version"
printf 'wozhinnam \\- a web gateway for capability-addressed storage\n' | sed 's/y-a/y\\-a/'
echo .SH SYNOPSIS
for command in $commands; do
    "$program" help "$command" | sed -n 's/^Usage: //p' | as_roff | sed 's/.*/.B &\n.br/'
done
printf '.SH DESCRIPTION\n'
"$program" help | head -n 1 | as_roff
for command in $commands; do
    printf '.SH "%s"\n' "$(echo "wozhinnam $command" | tr '[:lower:]' '[:upper:]')"
    about "$command" | as_roff
    options "$command"
done
printf '.SH "EXIT STATUS"\n'
sed -n '/^## Exit statuses/,/^## /p' "$page" | awk -F'|' '
    /^\| *[0-9]/ || /^\| *\|/ { for (at = 2; at < NF; at += 2) if ($at ~ /[0-9]/) print $at "|" $(at + 1) }' |
    sed -e 's/^ *//' -e 's/ *| */|/' -e 's/ *$//' -e 's/`//g' | sort -n | as_roff |
    awk -F'|' '{ print ".TP\n\\fB" $1 "\\fR\n" $2 }'
cat << 'END'
.SH SIGNALS
SIGTERM, SIGINT, SIGHUP, SIGUSR1 and SIGUSR2 end it at once, and cut replies; the first process of a container gets none.
POST /stop at the control address lets replies that are under way go out, for ten seconds at most.
.SH "SEE ALSO"
docs/OPERATING.md and install/README.md of its source: stores, what to do when one is lost, and proxies.
END
