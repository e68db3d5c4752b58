# The agent of contrib, request by request: a command in the background, one that does not end when it is asked to, a start that
# the node gave up, and a service of a systemd that is played.
. "$TOP/tests/expect.sh"

agent=$TOP/contrib/quorumd-agent

# requested LINE ANSWER WORD..: the agent gives that answer to the line of a node that waits for it
requested() {
    local line=$1 answer=$2 waits=0
    shift 2
    [ "$line" != start ] || waits=2
    same "$line: $( (printf '%s\n' "$line" && sleep "$waits") | "$agent" "$@" 2>&1)" "$line: $answer"
}

# runs FOLDER: whether the command of that folder runs
runs() {
    ! flock -n -s "$1/lock" true
}

# written FILE: waits until something stands in the file
written() {
    for _ in $(seq 100); do
        [ ! -s "$1" ] || return 0
        sleep 0.1
    done
    printf 'nothing was written to %s\n' "$1"
    return 1
}

# what does not run is stopped, and a line that is no request is refused
requested stop ok command work sleep 1000
requested restart no command work sleep 1000
requested '' no command work sleep 1000

# a command runs until it is stopped, and a second start starts no second one
requested start ok command work sh -c 'sleep 1000 & wait'
runs work
written work/group
group=$(cat work/group)
requested start ok command work sh -c 'touch second'
requested stop ok command work sleep 1000
! runs work
! kill -0 -- "-$group" 2> /dev/null
[ ! -e second ]

# what it writes is kept, and its words come whole
requested start ok command work printf '%s|' 'a b' c
written work/log
same "$(cat work/log)" 'a b|c|'

# a command that does not end when it is asked to is ended by force
requested start ok command work sh -c 'trap "" TERM; echo > ready; while :; do sleep 1; done'
written ready
AGENT_GRACE=5 requested stop ok command work sleep 1000
! runs work

# a node that closed the connection is waiting no more: nothing is started
same "$(printf 'start\n' | "$agent" command late touch started)" no
[ ! -e started ]
same "$(printf '' | "$agent" command late touch started)" ''

# a service: what systemctl is asked, and that a service which still runs is no success
mkdir bin
cat > bin/systemctl << 'END'
#!/bin/sh
echo "$*" >> "$CALLS"
case $* in
*ActiveState*) echo "$STATE" ;;
*ControlGroup*) echo ;;
esac
END
chmod +x bin/systemctl
export CALLS=$PWD/calls PATH=$PWD/bin:$PATH STATE=inactive
requested start ok service work.service
same "$(cat calls)" 'start --no-block work.service'
requested stop ok service work.service
same "$(sed -n 2p calls)" 'stop work.service'
STATE=failed requested stop ok service work.service
STATE=deactivating requested stop no service work.service

# words that are none
for words in '' service 'service a b' command 'command work' other; do
    # shellcheck disable=SC2086
    status=0; "$agent" $words < /dev/null 2> errors || status=$?
    same "$words: $status" "$words: 2"
done
