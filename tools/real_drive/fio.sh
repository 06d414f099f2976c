# fio writes the served disk at random and verifies what it wrote, round by round: the disk itself, and a file on it.
. /in/serving.sh
turn=1

# Ends the session in order.
end_session() {
    nbd-client -d $node > /dev/null
    wait $server || tell "the program ended by $?"
}

# Runs fio with these words. What it measured goes to a file.
measured() {
    name=$1
    shift
    fio --name=work --thread --output-format=json --output=/share/$name.$turn --rw=randwrite --verify=crc32c \
        --verify_fatal=1 --ioengine=libaio --iodepth=8 --randseed=$seed $sizes "$@" > /tmp/fio 2>&1 ||
        tell "fio, $name: ended by $?: $(tail -n 3 /tmp/fio)"
}

# Puts other bytes into a block, for once.
spoil() { [ -z "$SPOIL" ] || dd if=/dev/urandom of=$1 bs=4096 seek=1234 count=1 conv=notrunc,fsync 2> /dev/null; }

on_disk() { measured $1 --filename=$node --direct=1 --size=$((BLOCKS * 4096)) $2; }
on_file() { measured $1 --filename=/tmp/files/file --size=$((BLOCKS * 2048)) $2; }

while [ -e /share/round.$turn ]; do
    read seed sizes < /share/round.$turn
    serve
    on_disk disk --do_verify=1
    spoil $node
    end_session
    serve
    on_disk disk-again --verify_only=1

    mkfs.ext4 -q -F -b 4096 $node && mount -t ext4 $node /tmp/files || fail "no file system"
    on_file file "--do_verify=1 --fsync=64 --end_fsync=1"
    spoil /tmp/files/file
    umount /tmp/files
    find_no_fault
    end_session
    serve
    mount -t ext4 $node /tmp/files || fail "not mounted"
    on_file file-again --verify_only=1
    umount /tmp/files
    end_session
    echo "round $turn" >> /share/boots
    turn=$((turn + 1))
done
zonedisk check --device /dev/ng0n1 > /share/check
