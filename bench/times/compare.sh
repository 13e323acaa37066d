#!/bin/sh
# Times the work on a body of 4 MiB by `gate_bench`, built for x86-64-v2 and for x86-64-v3, and by the programs that others
# do it with, in turn, and prints the least time of each and their ratios. A processor without AVX2 runs the first alone.
# It is no test. A peer that isn't installed is left out: OpenSSL, without the processor's AES instructions and with them,
# zfec, and Python over zfec, OpenSSL's AES and hashlib, which puts and gets the body in the same formats (Debian:
# openssl, python3-zfec, python3-cryptography).
#
#     bench/times/compare.sh [ROUNDS]
#
# PYTHON names a Python that has zfec, where the first one found hasn't.
set -eu

here=$(cd "$(dirname "$0")/../.." && pwd)
rounds=${1:-20}
turns=10

case $rounds in
'' | 0* | *[!0-9]*)
    echo "usage: bench/times/compare.sh [ROUNDS]" >&2
    exit 2
    ;;
esac

folder=$(mktemp -d)
trap 'rm -rf "$folder"' EXIT

# One build of `gate_bench`: `build NAME [OPTION..]`. The plain one comes last, so that it is the one that stays.
build() {
    program=$folder/$1
    shift
    if ! (cd "$here/crates/gate_bench" && rt run "$@") > "$folder/build" 2>&1; then
        cat "$folder/build" >&2
        exit 2
    fi
    cp "$here/crates/gate_bench/out/gate_bench" "$program"
}

builds=v2
if grep -q avx2 /proc/cpuinfo; then
    builds="v3 v2"
    build v3 --cpu=x86-64-v3
fi
build v2

python=
for candidate in ${PYTHON:-} python3 /usr/bin/python3; do
    if [ -z "$python" ] && "$candidate" -c 'import zfec' 2> /dev/null; then
        python=$candidate
    fi
done

files=
for candidate in ${PYTHON:-} python3 /usr/bin/python3; do
    if [ -z "$files" ] && "$candidate" -c 'import zfec, cryptography' 2> /dev/null; then
        files=$candidate
    fi
done

# The microseconds of 4 MiB, by OpenSSL's own clock over one second: `openssl_time NAME`.
openssl_time() {
    openssl speed -elapsed -seconds 1 -bytes 4194304 -evp aes-128-ctr 2> /dev/null | awk -v name="$1" '
        tolower($1) == "aes-128-ctr" { sub("k", "", $2); printf "%s apply %.0f\n", name, 4194304 / ($2 * 1000) * 1e6 }'
}

round=0
while [ "$round" -lt "$rounds" ]; do
    for name in $builds; do
        "$folder/$name" "$turns" | sed "s/^/$name /"
    done
    if command -v openssl > /dev/null; then
        (export OPENSSL_ia32cap='~0x200000200000000' && openssl_time openssl_without)
        openssl_time openssl_with
    fi
    if [ -n "$python" ]; then
        "$python" "$here/bench/times/peer_zfec.py" "$turns" | sed 's/^/zfec /'
    fi
    if [ -n "$files" ]; then
        "$files" "$here/bench/times/peer_files.py" "$turns" | sed 's/^/python /'
    fi
    round=$((round + 1))
done > "$folder/times"

awk -v body=4194304 -v builds="$builds" '
    { key = $1 " " $2; if (!(key in least) || $3 < least[key]) least[key] = $3 }
    function row(build, name, part, peer, title, aim,   ours, theirs) {
        ours = least[build " " part]
        theirs = least[peer " " part]
        if (theirs == "") return
        printf "| %s | %s | %.2f ms | %.2f ms | %.2f | %s |\n", name, title, ours / 1000, theirs / 1000, theirs / ours, aim
    }
    function beside(build, name, part, hashing, aim,   ours, alone) {
        ours = least[build " " part]
        alone = least[build " " hashing]
        if (alone == "" || alone == 0) return
        printf "| %s | %.1f ms | %.1f ms | %.2f | %s |\n", name, ours / 1000, alone / 1000, ours / alone, aim
    }
    function tables(build,   first, again) {
        printf "## built for x86-64-%s\n\n", build
        printf "apply: %.0f MB/s (aim: 250 or more)\n\n", body / least[build " apply"]
        print "| part | against | gate_bench | peer | times as fast | aim |"
        print "|---|---|---|---|---|---|"
        row(build, "apply", "apply", "openssl_without", "OpenSSL without AES instructions", "0.5 or more")
        row(build, "apply", "apply", "openssl_with", "OpenSSL with AES instructions", "none")
        row(build, "encode", "encode", "zfec", "zfec", "4 or more")
        row(build, "decode", "decode", "zfec", "zfec", "1 or more")
        row(build, "put", "put", "python", "Python over the libraries", build == "v3" ? "1.82 or more" : "none")
        row(build, "get", "get", "python", "Python over the libraries", build == "v3" ? "1.54 or more" : "none")
        row(build, "get, last shares", "get_secondary", "python", "Python over the libraries", build == "v3" ? "1.82 or more" : "none")
        print ""
        print "| part | time | sha2 alone for its hashing | times that | aim |"
        print "|---|---|---|---|---|"
        beside(build, "put", "put", "hash_put", "0.8 or less")
        beside(build, "get", "get", "hash_get", "0.9 or less")
        beside(build, "get, last shares", "get_secondary", "hash_get", "0.9 or less")
        first = least[build " get_1m"]
        again = least[build " get_1m_again"]
        if (first > 0) printf "\n1 MiB read: %.2f ms, and again: %.2f ms, %.3f of that (aim: 0.033 or less)\n", first / 1000, again / 1000, again / first
        printf "\ngather of ten shares: %.2f us among 10, %.2f us among 100,000\n\n", least[build " gather_10"] / 1000, least[build " gather_100000"] / 1000
    }
    END {
        count = split(builds, names, " ")
        for (at = 1; at <= count; at++) tables(names[at])
    }' "$folder/times"
