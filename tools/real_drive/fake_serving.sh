# What this machine has in the place of a guest's kernel client: nbdfuse, and a loop device on the file that it shows.
# What Linux keeps of that file is passed by, so that a block that cannot be read is asked for.
. /in/serving.sh

usleep() { sleep $(($1 / 1000000)).$(printf %06d $(($1 % 1000000))); }

# Lets go of what the kernel keeps of the files, and of nothing else on this machine.
forget_pages() { umount /tmp/files && mount -t ext4 $node /tmp/files; }

attach() {
    mkdir -p /tmp/disk || return
    nbdfuse /tmp/disk --unix /tmp/socket > /tmp/client 2>&1 &
    shown=$!
    await 600 [ -f /tmp/disk/nbd ] && node=$(losetup --find --show --sector-size 4096 --direct-io=on /tmp/disk/nbd)
}

# The device is busy while it is mounted, also if its server is gone.
detach() {
    umount -l /tmp/files 2> /dev/null
    losetup --detach $node
    await 600 fusermount3 -u /tmp/disk 2> /dev/null || fail "the disk stays mounted"
    wait $shown
}
