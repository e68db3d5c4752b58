# tests/hosts/judge: each resource signs for itself, and two hosts with any of them at once are two owners; a reset ends a holding; what a scene has to
# keep to; a host at which nobody looked is not judged. tests/hosts/handovers: how long each part of a hand-over took. tests/liars refuses words that are none.
. "$TOP/tests/expect.sh"

# judged STATUS 'SIGNS' 'EVENTS' 'LINE..' [WORD..]: what the judge makes of these files
judged() {
    local status=0 want=$1 lines=$4
    printf "$2" > signs
    printf "$3" > events
    shift 4
    "$TOP/tests/hosts/judge" "$@" signs events > said || status=$?
    same "$status" "$want"
    same "$(tr -s ' ' < said | sed 's/^ //' | paste -sd '|')" "$lines"
}

# every HOST FROM TO SIGNS: five looks a second at that host
every() { awk -v host="$1" -v from="$2" -v to="$3" -v signs="$4" 'BEGIN { for (t = from; t <= to + 0.001; t += 0.2) printf "%.3f %s %s\\n", t, host, signs }'; }

# nothing at all, and lines that are none
judged 0 '' '' ''
judged 0 'neither\n' 'neither\n' ''

# one after the other; the store of one beside the address of another; the same host twice
judged 0 '1.000 host1 address,store\n2.000 host1 address\n2.200 host1 -\n2.400 host2 address\n' '' \
    '0.00 host1 has its resources until 1.00|1.40 host2 has its resources until 1.40'
judged 1 '1.000 host1 address\n1.200 host3 store\n1.400 host1 address\n' '' \
    '0.00 host1 has its resources until 0.40|0.20 host3 has its resources until 0.20|TWO OWNERS: host1 until 0.4 s, host3 from 0.2 s'
judged 0 '1.000 host1 address\n1.200 host1 -\n1.400 host1 address\n' '' \
    '0.00 host1 has its resources until 0.00|0.40 host1 has its resources until 0.40'
# a reset ends what a host had, also where nobody looked at it in between
judged 0 '1.000 host1 store\n5.000 host2 store\n6.000 host2 -\n9.000 host1 store\n' '1.500 host1 reset\n' \
    '0.00 host1 has its resources until 0.00|4.00 host2 has its resources until 4.00|8.00 host1 has its resources until 8.00'

# scene SCENE STATUS RESET OWNER LINE..: the fault is at 10; host 1 is reset so many seconds after it, and host 2 has all from so many on; - is never
scene() {
    local end=$3 name=$1 want=$2 lines=$5 events='10.000 scene fault x\n' signs
    [ "$3" != - ] || end=30
    signs=$(every host1 0 "$(awk -v e="$end" 'BEGIN { print 10 + e }')" address,store,database)
    [ "$3" = - ] || events+="$(awk -v e="$3" 'BEGIN { printf "%.3f host1 reset\\n", 10 + e }')"
    [ "$4" = - ] || signs+=$(every host2 "$(awk -v e="$4" 'BEGIN { print 10 + e }')" 60 address,store,database)
    printf "$signs" > signs
    printf "$events" > events
    local status=0
    "$TOP/tests/hosts/judge" --scene "$name" --times 5000,10000,1000,2000,1000 signs events > said || status=$?
    same "$status" "$want"
    same "$(grep -E '^(OUT|NOT|TWO)' said | paste -sd '|')" "$lines"
}

scene hang_node 0 4.4 14.2 ''
scene hang_node 1 9.6 14.2 'OUT OF BOUNDS: host1 was reset 9.6 s after the fault, and 6.0 is the most'
scene hang_node 1 0.4 14.2 'OUT OF BOUNDS: host1 was reset 0.4 s after the fault, and 3.0 is the least'
scene kill_node 0 0.4 14.2 ''
scene kill_node 1 0.4 6 'OUT OF BOUNDS: host2 took over 6.0 s after the fault, and nobody may within 11.9'
scene kill_node 1 0.4 - 'OUT OF BOUNDS: NOBODY TOOK OVER'
scene kill_node 1 - 14.2 'TWO OWNERS: host1 until 40.0 s, host2 from 24.2 s|OUT OF BOUNDS: host1 was NOT RESET'

# a host that nobody looked at for five seconds within one boot
judged 77 "$(every host1 0 11 store)$(every host2 0 5 -)$(every host2 10 30 -)$(every host2 30.2 40 store)" '10.000 scene fault x\n11.100 host1 reset\n' \
    '0.00 host1 has its resources until 11.00|30.20 host2 has its resources until 40.00|NOT JUDGED: host2 was out of sight for 5.0 s within one boot' \
    --scene kill_node --times 5000,10000,1000,2000,1000

# handed STATUS 'LINE..' WORDS..: what is said of the hand-overs in standard input
handed() {
    local status=0
    "$TOP/tests/hosts/handovers" --loop 1000 "${@:3}" > said || status=$?
    same "$status" "$1"
    same "$(paste -sd '|' said)" "$2"
}

# lines HOST TIME:TEXT..: what the supervisor of that host says
lines() {
    local line
    for line in "${@:2}"; do printf '%s %s quorumd-resource[21]: %s\n' "${line%%:*}" "$1" "${line#*:}"; done
}

# moved TIME: host 1 stops its group from 10 to 11.5, and host 2 starts it at that time
moved() {
    lines host2 '1.0:resources: down' "$1:address: start" '13.9:database: start' '14.9:resources: runs'
    lines host1 '2.0:address: start' '4.0:resources: runs' '10.0:database: stop' '10.5:database: stop says ok after 0.4 s' '11.0:address: stop' '11.5:resources: down'
}

moved 13.0 | handed 0 'hand-overs: 1, from the first stop until all run: 4.9 s (4.9 to 4.9)|the stop: 1.5 s (1.5 to 1.5)|the nodes: 1.5 s (1.5 to 1.5)|the start: 1.9 s (1.9 to 1.9)'
moved 13.8 | handed 1 'hand-overs: 1, from the first stop until all run: 4.9 s (4.9 to 4.9)|the stop: 1.5 s (1.5 to 1.5)|the nodes: 2.3 s (2.3 to 2.3)|the start: 1.1 s (1.1 to 1.1)|host1 to host2: 2.30 s from down to the start, and 2.20 is the most'
moved 13.8 | handed 0 'hand-overs: 1, from the first stop until all run: 4.9 s (4.9 to 4.9)|the stop: 1.5 s (1.5 to 1.5)|the nodes: 2.3 s (2.3 to 2.3)|the start: 1.1 s (1.1 to 1.1)' --slow 1.5
# a group that is started again where it was
lines host1 '2.0:resources: runs' '10.0:database: stop' '10.5:database: start' '11.0:resources: runs' | handed 1 'no hand-over'
lines host1 '10.0:database: stop' '10.4:resources: down' '10.5:database: start' '11.0:resources: runs' | handed 1 'no hand-over'

# each liar names a scene of its lab that has bounds, but for the acceptance, which judges by its own
for lab in machines hosts; do
    # shellcheck disable=SC1090 # lies.sh of the lab
    (. "$TOP/tests/$lab/lies.sh" && printf '%s\n' "${liars[@]}") | cut -d : -f 2 | while IFS= read -r name; do
        [ "$name" = acceptance ] || grep -q "^$name	" "$TOP/tests/$lab/bounds"
        grep -q "^scene_$name() {" "$TOP/tests/$lab"/*.sh
    done
done
