#!/usr/bin/env bash
# Proves and builds programs: each crate that they stand on from its source, lowest first, as many at a time as there are
# processors with 6 GB of memory each. It says how far it is, and leaves each program at crates/NAME/out/NAME. Some versions
# of the toolchain keep what they proved: an interrupted run then goes on where it was, and the gate begins there.
# usage: bench/tools/build.sh [--cpu CPU] NAME..        as wozhinnam, woz
# CPU is x86-64-v3 where this machine's processor has AVX2 (since 2013), else what every x86-64 has; `--cpu any` is the latter.
set -euo pipefail
cd "$(dirname "${BASH_SOURCE[0]}")/../.."
top=$PWD
cpu=any
! grep -qm1 ' avx2 .* bmi2 ' /proc/cpuinfo || cpu=x86-64-v3
if [ "${1-}" = --cpu ]; then
    cpu=${2:?usage: --cpu CPU}
    shift 2
fi
test $# -gt 0 || {
    sed -n 's/^# usage: /usage: /p' "$0"
    exit 2
}
for name in "$@"; do
    test -f "crates/$name/src/main.rt" || {
        echo "build.sh: $name is no program of this repository" >&2
        exit 2
    }
done

# The lines of crates.txt of these programs and of all below them, in its order.
lines=$(awk -F: -v wanted="$*" '
    function need(name,    words, i, n) {
        if (name in needed || !(name in below)) return
        needed[name] = 1
        n = split(below[name], words, " ")
        for (i = 1; i <= n; i++) need(words[i])
    }
    /^[a-z]/ { split($1, head, " "); below[head[1]] = $2; order[++count] = head[1] }
    END {
        n = split(wanted, names, " ")
        for (i = 1; i <= n; i++) need(names[i])
        for (i = 1; i <= count; i++) if (order[i] in needed) print order[i] ":" below[order[i]]
    }' crates.txt)
crates=$(sed 's/[ :].*//' <<< "$lines")
copy=$(mktemp -d)
trap 'rm -rf "$copy"' EXIT
mkdir "$copy/crates"
cp HANDLES "$copy"
echo "$lines" > "$copy/crates.txt"
for name in $crates; do
    mkdir "$copy/crates/$name"
    for part in src specs proofs stdin stdout args status data; do
        test ! -e "crates/$name/$part" || cp -r "crates/$name/$part" "$copy/crates/$name"
    done
    find "crates/$name/src" -name '*.rt' -exec cat {} + | wc -l | sed "s/^/$name /"
done > "$copy/weights"
git -C "$copy" init -q

jobs=$(awk -v processors="$(nproc)" '/^MemTotal:/ { jobs = int($2 / 5860000); print jobs < 1 ? 1 : jobs < processors ? jobs : processors }' /proc/meminfo)
echo "build.sh: $(wc -w <<< "$crates") crates to prove, $jobs at a time; what is printed is kept in $copy/said until the end"
declare -A weight left
while read -r name lines; do weight[$name]=$lines left[$name]=1; done < "$copy/weights"
all=$(awk '{ sum += $2 } END { print sum }' "$copy/weights")
status=0
(cd "$copy" && RT_JOBS="${RT_JOBS:-$jobs}" rt ci 2>&1) | tee "$copy/said" | {
    sum=0
    while read -r said name what; do
        case "$said $what" in "rt: proved" | "rt: is kept"*) ;; *) continue ;; esac
        test -n "${left[$name]-}" || continue
        unset "left[$name]"
        sum=$((sum + weight[$name]))
        echo "$((SECONDS / 60)) minutes: $name proved; $((100 * sum / all)) % of the lines, ${#left[@]} crates left"
    done
} || status=$?
test "$status" = 0 || {
    tail -n 30 "$copy/said" >&2
    exit "$status"
}
# The gate builds for every x86-64. `rt run` builds for others, over libraries with its stamp, which the gate's have not.
test "$cpu" = any || python3 - "$copy" <<'P' || cpu=any
import functools, os, shutil, sys
sys.path.insert(0, os.path.dirname(os.path.realpath(shutil.which("rt"))))
import rtlib
rtlib.Crate.stamp = functools.cache(rtlib.Crate.stamp)
known = {}
for name in sorted(os.listdir(sys.argv[1] + "/crates")):
    folder = "%s/crates/%s" % (sys.argv[1], name)
    if os.path.isdir("%s/out/rlib/%s.rlib" % (folder, name)):
        crate = known.get(folder) or rtlib.Crate(folder, sys.argv[1], known)
        with open(folder + "/out/rlib/stamp", "w") as stamp:
            stamp.write(crate.stamp())
P
for name in "$@"; do
    built=$copy/crates/$name/out/$name
    if [ "$cpu" != any ]; then
        cp "$built" "$built.any"
        (cd "$copy/crates/$name" && timeout 600 rt run --cpu="$cpu" -- --version > "$copy/run" 2>&1 < /dev/null) || true
        cmp -s "$built" "$built.any" && echo "build.sh: $name is built for every x86-64: for $cpu rt said:" && tail -n 3 "$copy/run"
    fi
    mkdir -p "$top/crates/$name/out"
    cp "$built" "$top/crates/$name/out/$name"
    echo "build.sh: crates/$name/out/$name is proved and built"
done
