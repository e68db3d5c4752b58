# Times that are safe and times that are not, as `create` and a replay judge them.
. "$TOP/tests/expect.sh"

settings=$TOP/examples/one-node.conf

# head_with TIMES: the schedule of one node with these times, and no event
head_with() {
    cat "$settings"
    printf -- '----\ntiming %s\n' "$1"
}

# safe TIMES: watchdog, msgwait, loop, read limit and feed delay
safe() {
    expect 0 'created nodes 1\n' create --image disk --timing "${1// /,}" < "$settings"
    head_with "$1" > schedule
    expect 0 'end 0\n' replay < schedule
}

# unsafe TIMES: they are refused, and named in the same order
unsafe() {
    expect 10 "fault UnsafeTiming $1\\n" create --image disk --timing "${1// /,}" < "$settings"
    head_with "$1" > schedule
    expect 10 "fault UnsafeTiming $1\\n" replay < schedule
}

# out_of_range TIMES
out_of_range() {
    expect 2 'fault Usage\n' create --image disk --timing "${1// /,}" < "$settings"
    head_with "$1" > schedule
    expect 4 'fault BadSchedule line 7 BadNumber\n' replay < schedule
}

safe '5000 10000 1000 2000 1000'
safe '5000 8164 1000 2000 1000'
unsafe '5000 8163 1000 2000 1000'
safe '1 6 1 1 1'
unsafe '1 5 1 1 1'
unsafe '1 1 3600000 1 1'
safe '1764351 3600000 1 1764358 1'
unsafe '1764351 3600000 1 1764359 1'
safe '1000000 3600000 3600000 1000000 1000000'
unsafe '3600000 3600000 3600000 3600000 3600000'
unsafe '1764351 3600000 1 1764359 2'
out_of_range '5000 10000 0 2000 1000'
out_of_range '5000 3600001 1000 2000 1000'
