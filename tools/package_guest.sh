# Installs zonedisk's package in a guest with a zoned drive, and writes files until the power is cut. After the cut each
# synced file has to be there. tools/package_check runs it, in the Debian without a toolchain that is at /share/root.
#
# BOOT counts the starts. What was synced is in /synced, and what was found in /found. The exit status is 1 if anything
# is wrong.
if [ -d /share/root ]; then
    for name in proc sys dev tmp; do mount --bind /$name /share/root/$name; done
    exec chroot /share/root /bin/sh /package_guest.sh
fi
set -eu
PATH=/usr/sbin:/usr/bin:/sbin:/bin
fail() { echo "package_guest.sh: start $BOOT: $*"; exit 1; }

# Writes the text of file N.
text() { seq "$1" $(($1 + 3000)); }

# Serves the drive, and lets the kernel be the client: the disk is /dev/nbd0.
serve() {
    socat UNIX-LISTEN:/tmp/socket EXEC:"zonedisk nbd --device /dev/ng0n1 --blocks 40000",nofork &
    until [ -S /tmp/socket ]; do sleep 0.1; done
    nbd-client -unix /tmp/socket /dev/nbd0 -b 4096 > /tmp/client || fail "not served"
}

if [ "$BOOT" = 1 ]; then
    for name in rt cc gcc; do ! command -v $name || fail "there is a toolchain: $name"; done
    dpkg -i /zonedisk.deb || fail "not installed"
    zonedisk format --device /dev/ng0n1 || fail "not formatted"
    serve
    mkfs.ext4 -q -F -b 4096 /dev/nbd0
    mount /dev/nbd0 /mnt
    number=1
    while text $number > /mnt/$number && sync /mnt/$number; do
        echo $number >> /synced
        number=$((number + 1))
    done
    fail "writing ended"
fi
serve
e2fsck -p /dev/nbd0 || [ $? = 1 ] || fail "e2fsck -p ended badly"
e2fsck -fn /dev/nbd0 || fail "e2fsck found a fault"
mount /dev/nbd0 /mnt
while read -r number; do
    text "$number" | cmp - "/mnt/$number" || fail "file $number was synced, and is lost"
    echo "$number" >> /found
done < /synced
umount /mnt
nbd-client -d /dev/nbd0 > /tmp/client
wait $! || fail "the server ended badly"
zonedisk check --device /dev/ng0n1 || fail "the drive cannot be mounted"
