# What the scripts of guests share: the disk is served to the kernel's nbd, with ext4 on it.
#
# BLOCKS is how many logical blocks it has, and `turn` counts the starts. DRIVE has the words for another drive. With
# SPOIL things are lost on purpose, each once, to see that it is told.
served=0
mkdir -p /tmp/files

# Tells that something is wrong.
tell() { echo "start ${turn:-1}: $*" | tr '\n' ' ' | sed 's/ *$/\n/' >> /share/wrong; }
fail() { echo "start ${turn:-1}: $*"; exit 9; }

# Waits until a command succeeds: up to so many tenths of a second.
await() {
    looks=$1
    shift
    until "$@"; do
        looks=$((looks - 1))
        [ $looks -gt 0 ] || return 1
        usleep 100000
    done
}
is_free() { [ ! -e /sys/block/${1#/dev/}/pid ] && [ "$(cat /sys/block/${1#/dev/}/size)" = 0 ]; }

# Lets the kernel be the client at the socket: the disk is at $node then.
attach() {
    node=/dev/nbd$((served % 8))
    await 600 is_free $node || fail "$node is not free"
    nbd-client -unix /tmp/socket $node -b 4096 > /tmp/client 2>&1
}

# Ends what `attach` began.
detach() { nbd-client -d $node > /dev/null; }

# Lets go of what the kernel keeps of the files.
forget_pages() { echo 3 > /proc/sys/vm/drop_caches; }

# Serves the disk at $node. socat becomes the program, once the client has come.
serve() {
    served=$((served + 1))
    rm -f /tmp/socket
    program="zonedisk nbd ${DRIVE:---device /dev/ng0n1} --blocks $BLOCKS"
    socat UNIX-LISTEN:/tmp/socket EXEC:"$program",nofork 2>> /share/served &
    server=$!
    await 600 [ -S /tmp/socket ] || fail "nothing listens"
    attach || fail "not served: $(cat /tmp/client /share/served)"
    [ "$(cat /proc/$server/comm)" = zonedisk ] || fail "process $server is not the program"
}

# Replays the journal, at every second start as a mount does. Then e2fsck must not find a fault, and it is mounted.
mount_looked() {
    if [ ! -e /share/made ]; then
        mkfs.ext4 -q -F -b 4096 $node || fail "no file system can be made"
        sync
        echo made > /share/made
    elif [ $((turn % 2)) = 0 ]; then
        mount -t ext4 $node /tmp/files && umount /tmp/files || fail "a mount cannot replay the journal"
    else
        e2fsck -p $node > /tmp/replayed 2>&1
        status=$?
        [ $status -le 1 ] || fail "e2fsck -p ended by $status: $(cat /tmp/replayed)"
        grep -v -e 'recovering journal' -e ': clean,' -e '[Oo]rphan' /tmp/replayed > /tmp/repaired &&
            tell "e2fsck -p repaired: $(cat /tmp/repaired)"
    fi
    [ $turn -ge 3 ] && spoils_now tables && spoil_file_system
    find_no_fault
    mount -t ext4 $node /tmp/files || fail "not mounted"
}

# Looks whether e2fsck finds a fault. It changes nothing.
find_no_fault() {
    if e2fsck -fn $node > /tmp/looked 2>&1; then
        echo "e2fsck $turn" >> /share/boots
    else
        tell "e2fsck -fn ended by $?: $(tail -n 20 /tmp/looked)"
    fi
}

# Whether a thing is to be lost now.
spoils_now() { [ "$SPOIL" ] && [ ! -e /share/spoilt.$1 ] && echo spoilt > /share/spoilt.$1; }

# Puts zeros where the tables of ext4 are.
spoil_file_system() {
    dd if=/dev/zero of=$node bs=4096 seek=8 count=400 conv=notrunc,fsync 2> /dev/null
}

# Ends the session in order. What is written is looked at once more, and the drive without the program.
finish() {
    umount /tmp/files || fail "not unmounted"
    find_no_fault
    detach
    wait $server || tell "the program ended by $?"
    zonedisk check --device /dev/ng0n1 > /share/check
}
