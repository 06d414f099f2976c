# Measures a file system by fio. SUBJECT says which one, and where it is.
. /in/serving.sh
await 600 [ -e /dev/nvme0n2 ] || fail "there is no second namespace"
await 600 [ -e /dev/nvme0n1 ] || fail "there is no block device"

# Makes the file system: $mounted has the words of a mount.
case $SUBJECT in
zonedisk) serve; mounted="ext4 $node" ;;
ordinary) node=/dev/nvme0n2; mounted="ext4 $node" ;;
btrfs) mkfs.btrfs -q -f -O zoned -d single -m single /dev/nvme0n1 > /tmp/made 2>&1; mounted="btrfs /dev/nvme0n1" ;;
f2fs) mkfs.f2fs -f -m -c /dev/nvme0n1 /dev/nvme0n2 > /tmp/made 2>&1; mounted="f2fs /dev/nvme0n2" ;;
esac
[ $? = 0 ] || fail "$SUBJECT cannot be made: $(cat /tmp/made)"
case $mounted in
ext4*) mkfs.ext4 -q -F -b 4096 -E lazy_itable_init=0,lazy_journal_init=0 $node || fail "ext4 cannot be made" ;;
esac

# Mounts it anew, so that nothing is kept in memory.
anew() {
    umount /tmp/files 2> /dev/null
    echo 3 > /proc/sys/vm/drop_caches
    mount -t $mounted /tmp/files || fail "$mounted cannot be mounted: $(dmesg | tail -n 5)"
}

# How many bytes were written to a namespace so far.
written() { awk '{ print $7 * 512 }' /sys/block/$1/stat; }

measured() {
    name=$1
    shift
    fio --name=work --thread --output-format=json --output=/share/$name --filename=/tmp/files/file --size=${MIB}m \
        --ioengine=psync --randseed=$SEED "$@" > /tmp/fio 2>&1 || fail "fio, $name: $(cat /tmp/fio)"
}

anew
measured write --rw=write --bs=1m --end_fsync=1
anew
measured read --rw=read --bs=1m
anew
measured random-write --rw=randwrite --bs=4k --fsync=1 --time_based --runtime=$SECONDS_EACH
anew
measured random-read --rw=randread --bs=4k --time_based --runtime=$SECONDS_EACH
umount /tmp/files
echo "$(written nvme0n1) $(written nvme0n2)" > /share/written
if [ $SUBJECT = zonedisk ]; then
    nbd-client -d $node > /dev/null
    wait $server
fi
