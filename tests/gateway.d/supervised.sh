#!/bin/bash
# supervised.sh FOLDER: systemd as the first process of namespaces of its own, over a layer on this machine's root that is gone with
# them. FOLDER has the program, its unit and its configuration, and what the first process runs (supervised.job), whose words go to
# FOLDER/out/log. For tests/gateway alone.
set -eu
folder=$1
root=$folder/root
mkdir -p "$folder/over" "$root" "$folder/out"
mount -t tmpfs tmpfs "$folder/over"
mkdir "$folder/over/upper" "$folder/over/work"
mount -t overlay overlay -o "lowerdir=/,upperdir=$folder/over/upper,workdir=$folder/over/work" "$root"

mount -t proc proc "$root/proc"
mount -t sysfs -o ro sysfs "$root/sys"
mount -t cgroup2 cgroup2 "$root/sys/fs/cgroup"
mount -t tmpfs -o mode=755 tmpfs "$root/dev"
for device in null zero full random urandom tty; do
    touch "$root/dev/$device"
    mount --bind "/dev/$device" "$root/dev/$device"
done
touch "$root/dev/console"
mount --bind /dev/null "$root/dev/console"
mkdir "$root/dev/shm" "$root/dev/pts"
mount -t devpts -o newinstance,ptmxmode=666 devpts "$root/dev/pts"
ln -s pts/ptmx "$root/dev/ptmx"
mount -t tmpfs tmpfs "$root/run"
mount -t tmpfs tmpfs "$root/tmp"
mkdir -p "$root/supervised" "$root/old"
mount --bind "$folder/out" "$root/supervised"

cp "$folder/lapd-gateway" "$root/usr/sbin/"
cp "$folder/lapd-gateway.service" "$root/etc/systemd/system/"
cp "$folder/lapd-gateway.conf" "$root/etc/"
install -m 755 "$folder/supervised.job" "$root/usr/sbin/"
grep -q '^lapd-gateway:' "$root/etc/passwd" || echo 'lapd-gateway:x:990:990::/:/usr/sbin/nologin' >> "$root/etc/passwd"
grep -q '^lapd-gateway:' "$root/etc/group" || echo 'lapd-gateway:x:990:' >> "$root/etc/group"
cat > "$root/etc/systemd/system/supervised.target" <<'UNIT'
[Unit]
Wants=systemd-journald.service lapd-gateway.service supervised.service
AllowIsolate=yes
UNIT
cat > "$root/etc/systemd/system/supervised.service" <<'UNIT'
[Unit]
DefaultDependencies=no
After=systemd-journald.service
[Service]
ExecStart=/usr/sbin/supervised.job
UNIT

cd "$root"
pivot_root . old
umount -l /old
exec env -i PATH=/usr/sbin:/usr/bin:/sbin:/bin container=other /lib/systemd/systemd --unit=supervised.target --show-status=0
