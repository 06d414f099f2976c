# Does what this machine asks for: the files /share/job.N, one after the other. What a job writes is at /share/told.N.
. /in/serving.sh
turn=1
while :; do
    until [ -e /share/job.$turn ]; do usleep 20000; done
    . /share/job.$turn > /share/told.$turn 2>&1 < /dev/null
    echo $? > /share/ended
    mv /share/ended /share/ended.$turn
    turn=$((turn + 1))
done
