# Files of a drive that fails. File N has lines of N, a dot and a number.
mkdir -p /tmp/texts
for number in $(seq 1 100); do seq 1 2000 | sed "s/^/$number./" > /tmp/texts/$number; done
write() { cp /tmp/texts/$1 /tmp/files/$1 && sync /tmp/files/$1 && echo $1 >> /share/synced; }

# Files on a new file system of a new drive.
begin() {
    rm -f /share/synced /share/served
    zonedisk format --device /dev/ng0n1 --force || return
    serve
    mkfs.ext4 -q -F -b 4096 -E lazy_itable_init=1,lazy_journal_init=1 $node && mount -t ext4 $node /tmp/files || return
    for number in $(seq 1 20); do write $number || return; done
}

# Serves the disk of the drive once more.
again() {
    rm -f /share/served
    serve
    mount -t ext4 $node /tmp/files
}

write_more() {
    for number in $(seq 21 100); do write $number || return; done
}

read_all() {
    forget_pages
    cat /tmp/files/* > /dev/null
}

# Writes the whole blocks of a file where they are.
write_over() {
    dd if=/tmp/texts/$1 of=/tmp/files/$1 bs=4096 count=3 conv=notrunc,fsync
}

# Ends a session.
abandon() {
    umount -l /tmp/files
    detach
    wait $server
    echo $? > /share/ended_by
}

# Ends a session by a kill. Requests that have no answer fail once the client is gone, and not before.
kill_session() {
    kill -9 $server
    detach
    umount -l /tmp/files
    wait $server
}

# A start on a drive that is refused.
start_refused() {
    zonedisk nbd --device /dev/ng0n1 --blocks $BLOCKS < /dev/null > /dev/null 2> /share/served
    echo $? > /share/ended_by
}

# Replays the journal, looks for each synced file, and for faults of the file system. With MENDS e2fsck mends it before.
look_for_files() {
    [ -z "$MENDS" ] || e2fsck -fy $node > /share/mended 2>&1
    mount -t ext4 -o ro $node /tmp/files || return
    for number in $(cat /share/synced); do
        cmp -s /tmp/texts/$number /tmp/files/$number || echo $number >> /share/gone
    done
    umount /tmp/files
    e2fsck -fn $node > /share/fsck 2>&1
}

# Does that on a drive, which these words name.
look_at() {
    rm -f /share/gone
    DRIVE=$*
    serve
    DRIVE=
    look_for_files
    looked=$?
    detach
    wait $server && return $looked
}
