# Counts the commands of some runs of the program. BLOCKS is how many logical blocks the disk has, and PART which runs.
. /in/serving.sh

# The commands of a program go to a file of this name.
counted() {
    export COUNTS=/share/$1 LD_PRELOAD=/in/counts.so
    shift
    "$@"
    status=$?
    unset COUNTS LD_PRELOAD
    return $status
}
write_all() { dd if=/dev/urandom of=$node bs=1M count=$MIB oflag=direct; }
read_all() { dd if=$node of=/dev/null bs=1M count=$MIB iflag=direct; }
answer() { zonedisk run --device /dev/ng0n1 --blocks $BLOCKS < $1 > /tmp/replies || fail "a run ended by $?"; }

# Serves the disk, and does something with it.
session() {
    serve
    echo 3 > /proc/sys/vm/drop_caches
    "$@" 2> /tmp/copied || fail "not copied: $(cat /tmp/copied)"
    nbd-client -d $node > /dev/null
    wait $server || fail "the program ended by $?"
}

if [ $PART = lines ]; then
    counted filled answer /share/lines
    counted mounted answer /dev/null
    counted asked answer /share/asked
else
    counted written session write_all
    counted served session true
    counted read session read_all
fi
