# Kills the program that serves the disk while it is written, as often as there are files /share/moment.N. At each start
# all that was synced is looked for.
. /in/serving.sh
. /in/$WORK.sh
turn=1

# How much is synced so far.
done_so_far() { cat /share/done.* 2> /dev/null | wc -l; }
is_done() { [ $(done_so_far) -ge $wanted ]; }

# Ends the program, and what depends on it.
kill_server() {
    [ "$(cat /proc/$server/comm)" = zonedisk ] || fail "the program ended before: $(cat /share/served)"
    kill -9 $server
    wait $server
    # The requests that have no answer fail now, so those who write end.
    nbd-client -d $node > /dev/null
    wait
    umount /tmp/files 2> /dev/null || umount -l /tmp/files 2> /dev/null
    echo "killed $turn" >> /share/boots
}

# A kill while the journal is replayed, and files are read.
kill_in_start() {
    (mount -t ext4 $node /tmp/files; cat /tmp/files/* > /dev/null) 2> /dev/null &
    usleep $pause
    kill_server
}

# A kill while it is written.
kill_in_work() {
    wanted=$(($(done_so_far) + answers))
    work &
    await 6000 is_done || fail "too slow: $(cat /tmp/stopped*)"
    usleep $pause
    kill_server
}

serve
mount_looked
look
while [ -e /share/moment.$turn ]; do
    read answers pause < /share/moment.$turn
    if [ $answers = start ]; then
        umount /tmp/files
        kill_in_start
    else
        kill_in_work
    fi
    turn=$((turn + 1))
    serve
    mount_looked
    look
    echo "looked $turn" >> /share/boots
done
finish
