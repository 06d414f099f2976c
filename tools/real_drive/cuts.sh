# Writes until the power of this machine is cut, CUTS times. At each start all that was synced is looked for.
. /in/serving.sh
. /in/$WORK.sh
turn=$BOOT
echo "boot $BOOT" >> /share/boots
serve
mount_looked
look
echo "looked $BOOT" >> /share/boots
if [ $BOOT -gt $CUTS ]; then
    finish
    exit
fi
work
fail "writing failed: $(cat /tmp/stopped*)"
