# A drive in its file on ext4 over dm-flakey, whose writes fail from some moment on, or over dm-error. Each answered line
# was flushed (--sync), and has to be there once the device is whole again, in the same boot. It runs in a guest:
#
#   tools/zns_guest/run --timeout 900 --ordinary 64 --module dm_mod --module dm_flakey --module ext4 \
#       --file /usr/sbin/dmsetup --file /usr/sbin/mkfs.ext4 --file PROGRAM=zonedisk --script tools/flaky_disk.sh
#
# The last line has figures.
set -u
base=/dev/nvme0n2; sectors=$(($(cat /sys/block/nvme0n2/size)))
good="0 $sectors linear $base 0"
bad_writes="0 $sectors flakey $base 0 0 60 1 error_writes"
bad_all="0 $sectors error"
echo "$good" | dmsetup create bad || exit 9
dmsetup mknodes
mkfs.ext4 -q -F -b 4096 /dev/mapper/bad || exit 9
mkdir -p /tmp/m; mount -t ext4 /dev/mapper/bad /tmp/m || exit 9
change() { dmsetup suspend --noflush --nolockfs bad; echo "$1" | dmsetup load bad; dmsetup resume bad; }
wrong=0; lines=0; starts=0; failed=0; refused=0
turn=1
while [ $turn -le ${TURNS:-12} ]; do
    rm -f /tmp/m/drive /tmp/fifo /tmp/replies; mkfifo /tmp/fifo
    zonedisk format --image /tmp/m/drive --in-place --block 4096 --zones 8 --size 64 --capacity 64 --transfer 16 --active 3 --open 3 > /dev/null || exit 9
    zonedisk run --image /tmp/m/drive --blocks 300 --sync < /tmp/fifo > /tmp/replies 2> /tmp/said & run=$!
    exec 9> /tmp/fifo
    n=$((3 + turn * 2)); i=0
    while [ $i -lt $n ]; do printf 'fill %d 1 %02x\n' $i $((i % 255 + 1)) >&9; i=$((i + 1)); done
    k=0; until [ $(grep -c ok /tmp/replies) -ge $n ] || [ $k -gt 300 ]; do usleep 100000; k=$((k + 1)); done
    if [ $((turn % 2)) = 0 ]; then change "$bad_all"; else change "$bad_writes"; fi
    j=0; while [ $j -lt 40 ]; do printf 'fill %d 1 %02x\n' $i $((i % 255 + 1)) >&9 || break; i=$((i + 1)); j=$((j + 1)); done
    exec 9>&-
    wait $run; status=$?
    answered=$(grep -c '^ok' /tmp/replies)
    [ $status = 0 ] && echo "turn $turn: the run ended well" || failed=$((failed + 1))
    change "$good"
    [ $((turn % 3)) = 0 ] || echo 3 > /proc/sys/vm/drop_caches
    umount /tmp/m && mount -t ext4 /dev/mapper/bad /tmp/m || { echo "turn $turn: not mounted again"; exit 9; }
    try=1
    while :; do
        echo "read 0 $answered" | zonedisk run --image /tmp/m/drive --blocks 300 > /tmp/found 2> /tmp/said2; s=$?
        starts=$((starts + 1))
        [ $s = 0 ] && break
        refused=$((refused + 1)); try=$((try + 1)); [ $try -gt 4 ] && break
    done
    i=0
    while [ $i -lt $answered ]; do printf '%d %02x*4096\n' $i $((i % 255 + 1)); i=$((i + 1)); done > /tmp/wanted
    echo ok >> /tmp/wanted
    lines=$((lines + answered))
    if cmp -s /tmp/wanted /tmp/found; then :; else
        wrong=$((wrong + 1)); echo "turn $turn WRONG: answered $answered status $s"; diff /tmp/wanted /tmp/found | head -5; head -3 /tmp/said2
    fi
    echo "turn $turn: status $status, answered $answered of $((n + 40)); $(head -2 /tmp/said | tr '\n' '|')"
    turn=$((turn + 1))
done
echo "failed $failed, lines flushed $lines, starts $starts, of which refused $refused; wrong $wrong"
