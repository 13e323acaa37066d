#!/bin/sh
# The unit of install/ under a systemd that runs: in a container of its own, over this machine's /usr and without a
# network, `install.sh` is followed as its page says, and the drop-in of that page is taken too. A file is put, read after
# a stop, after a kill and after another start; a reply that is under way at a stop is finished; the secret is a
# credential; a disk that isn't mounted is no new store. It needs root, systemd-nspawn, curl and python3.
# usage: bench/checks/booted.sh WOZHINNAM
set -eu
program=${1:?usage: bench/checks/booted.sh WOZHINNAM}
here=$(cd "$(dirname "$0")" && pwd)
. "$here/../tools/server.sh"
install=$here/../../install
test "$(id -u)" = 0 || fail 'it has to be root'
command -v systemd-nspawn > "$folder/nothing" || fail 'there is no systemd-nspawn (systemd-container)'

root=$folder/root
units=$root/etc/systemd/system
mkdir -p "$root/usr" "$root/root" "$root/var/lib" "$root/srv/grid/0" "$root/srv/grid/1" "$root/srv/grid/2" "$units"
chmod 755 "$folder" "$root"
for name in bin sbin lib lib64; do
    ln -s "usr/$name" "$root/$name"
done
printf 'root:x:0:0:root:/root:/bin/sh\n' > "$root/etc/passwd"
printf 'root:x:0:\n' > "$root/etc/group"
printf '127.0.0.1 localhost\n' > "$root/etc/hosts"
cp /etc/os-release "$root/etc/os-release"
printf 'hosts: files\npasswd: files\ngroup: files\n' > "$root/etc/nsswitch.conf"
echo 0123456789abcdef0123456789abcdef > "$root/etc/machine-id"

# /usr is this machine's, so what is installed stands in /opt, and its unit is linked as systemctl would
"$install/install.sh" --program "$program" "$root/opt" > "$folder/given"
sed -i "s|$root||g" "$root/opt/lib/systemd/system/wozhinnam.service"
ln -s /opt/lib/systemd/system/wozhinnam.service "$units/wozhinnam.service"
# the drop-in of the page, word by word
mkdir -p "$root/root/drop-in" "$root/etc/wozhinnam"
sed -n '/^    \[Unit\]/,/^    ReadWritePaths/s/^    //p' "$install/README.md" > "$root/root/drop-in/override.conf"
grep -q LoadCredential "$root/root/drop-in/override.conf" || fail 'the page has no drop-in any more'

cat > "$root/root/try" << 'END'
#!/bin/sh
exec > /root/log 2>&1
set -eux
ended() {
    systemctl poweroff --force --force
}
trap ended EXIT
answers() {
    for _ in $(seq 100); do
        ! curl -s -o /dev/null "$1/uri/URI:LIT:" || return 0
        sleep 0.1
    done
    return 1
}
reads() {
    curl -s "$1/uri/$cap" | cmp - /root/file
}
ip link set lo up 2> /dev/null || true
at=http://127.0.0.1:3456
systemd-sysusers /opt/lib/sysusers.d/wozhinnam.conf
systemctl start wozhinnam
answers $at
test "$(ps -o user:20= -C wozhinnam)" = wozhinnam
grep 'Max open files *1188 ' "/proc/$(pidof wozhinnam)/limits"
head -c 16777216 /dev/urandom > /root/file
cap=$(curl -s -T /root/file $at/uri)
reads $at
test "$(ls /var/lib/wozhinnam | tr -d '\n')" = 01234
# a reply that takes some seconds, and a stop in its middle
curl -s --limit-rate 4M -o /root/slow "$at/uri/$cap" &
sleep 1
systemctl stop wozhinnam
wait $!
cmp /root/slow /root/file
test "$(systemctl show wozhinnam -p ExecMainStatus --value)" = 0
! journalctl -u wozhinnam --no-pager | grep -i -e 'invalid' -e 'URI:'
systemctl start wozhinnam
answers $at
reads $at
kill -9 "$(pidof wozhinnam)"
sleep 6
answers $at
reads $at
systemctl stop wozhinnam

# the drop-in, over three disks
mkdir /etc/systemd/system/wozhinnam.service.d
cp /root/drop-in/override.conf /etc/systemd/system/wozhinnam.service.d/
sed -i 's/10.0.0.5/127.0.0.1/' /etc/systemd/system/wozhinnam.service.d/override.conf
printf secret > /etc/wozhinnam/secret
chmod 600 /etc/wozhinnam/secret
disk() {
    mount -t tmpfs -o "size=50m,uid=$(id -u wozhinnam),gid=$(id -g wozhinnam),mode=700" tmpfs "/srv/grid/$1"
}
for number in 0 1 2; do
    disk $number
done
systemctl daemon-reload
systemctl start wozhinnam
answers $at
cap=$(curl -s -T /root/file $at/uri)
reads $at
systemctl stop wozhinnam
umount /srv/grid/1
systemctl start wozhinnam
sleep 2
! curl -s "$at/uri/URI:LIT:"
test "$(systemctl show wozhinnam -p ExecMainStatus --value)" = 31
test -z "$(ls /srv/grid/1)"
# an empty disk in its place is meant
disk 1
sed -i 's|"MORE=|&--new /srv/grid/1/store |' /etc/systemd/system/wozhinnam.service.d/override.conf
systemctl daemon-reload
systemctl restart wozhinnam
answers $at
reads $at
echo 'as it should be'
END
chmod 755 "$root/root/try"
printf '[Unit]\nAfter=basic.target\n[Service]\nType=oneshot\nExecStart=/root/try\n' > "$units/try.service"
printf '[Unit]\nRequires=basic.target try.service\nAfter=basic.target\n' > "$units/try.target"
ln -s /etc/systemd/system/try.target "$units/default.target"

timeout 120 systemd-nspawn --quiet --register=no --keep-unit --private-network --directory="$root" --bind-ro=/usr --boot \
    < /dev/null > "$folder/console" 2>&1 || true
test -e "$root/root/log" || fail "the container doesn't start: $(tail -n 3 "$folder/console")"
grep -q '^as it should be$' "$root/root/log" || fail "$(tail -n 20 "$root/root/log")"
echo 'booted: all as it is to be'
