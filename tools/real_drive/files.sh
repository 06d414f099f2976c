# Files that are written and synced. File N has the numbers from N on, in up to 5000 lines. The last ones are looked for
# at each start; older ones are removed, so that the disk does not fill.
KEPT=200

text() { seq $1 $(($1 + $1 * 37 % 5000)); }

# Looks for each file that was synced.
look() {
    synced=$(tail -n 1 /share/done.files 2> /dev/null)
    synced=${synced:-0}
    [ $synced -gt 0 ] && spoils_now file && rm /tmp/files/$synced
    number=$((synced > KEPT ? synced - KEPT + 1 : 1))
    looked=$(tail -n 1 /share/looked 2> /dev/null)
    [ $number -le $((looked + 1)) ] || tell "files before $number are not looked at"
    while [ $number -le $synced ]; do
        text $number | cmp -s - /tmp/files/$number || tell "file $number was synced, and is lost"
        echo $number >> /share/found
        number=$((number + 1))
    done
    echo $synced >> /share/looked
}

# Writes files, and syncs each, until that fails.
work() {
    number=$((synced + 1))
    while text $number > /tmp/files/$number && sync /tmp/files/$number; do
        echo $number >> /share/done.files
        [ $number -gt $((KEPT + 50)) ] && rm -f /tmp/files/$((number - KEPT - 50))
        number=$((number + 1))
    done 2> /tmp/stopped
}
