# The recipe of docs/dev/SCHEDULES.md for letting time pass, step by step from the trace, until the node starts: it gives the
# schedule of examples/. The shorter way, one answer a second, never comes to fencing.
. "$TOP/tests/expect.sh"

example=$TOP/examples/letting-time-pass.schedule

# event LINE..: appends these events to the schedule, and leaves what the node did at the last one in `outs`, and what keeps
# it from a start in `why`
event() {
    printf '%s\n' "$@" >> schedule
    "$QUORUMD" replay < schedule > trace
    read -r _ _ _ outs _ _ _ why < <(tail -n 2 trace)
}

# answer ID: lands and answers what is out, until nothing is asked for
answer() {
    local asked='(^|,)(read-header|read-slot:[0-9]+|read-mail|claim:[0-9]+|clear|reset:[0-9]+|close:[0-9]+)(,|$)'
    while [[ $outs =~ $asked ]]; do
        event "land $1" "done $1"
    done
}

# begin: the settings and times of the example, and its events up to the boot of node 2
begin() {
    sed '/^boot 2 /,$d' "$example" > schedule
}

begin
event 'boot 2 0'
answer 2
event 'view 2 1 2'
answer 2
same "$why" why=unfenced:1:10000
until [ "$why" = why=holding ]; do
    event 'pass 1000'
    event 'tick 2'
    answer 2
    event 'feed 2'
done
cmp schedule "$example"
same "$(grep -c '^[0-9]* [0-9]* 2 start,' trace)" 1

# what is out when time passes delays the rest for ever
begin
event 'boot 2 0'
event 'land 2' 'done 2' 'land 2' 'done 2' 'land 2' 'done 2' 'land 2' 'done 2'
event 'view 2 1 2'
for _ in $(seq 30); do
    event 'pass 1000' 'tick 2' 'land 2' 'done 2' 'feed 2'
    same "$why" why=unfenced:1:unwritten
done
