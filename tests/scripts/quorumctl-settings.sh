# `quorumctl settings` and `quorumctl timing`: what is told of a text, each warning, each fault with its lines, and that a text is taken
# exactly where quorumd takes it.
. "$TOP/tests/expect.sh"

# told STATUS 'TEXT' 'OUTPUT': what is told of a settings text
told() {
    local status=0
    printf "$2" | "$QUORUMCTL" settings > got 2> errors || status=$?
    [ "$status" = 0 ] || sed -i '/ SETTINGS.md of the documentation /d' errors
    same "$status $(cat got errors)" "$1 $(printf "$3")"
}

told 0 'nodelist {\nnode {\nname: alpha\nnodeid: 7\nquorum_votes: 3\n}\nnode {\nfence_delay: 50\nnodeid: 02\n}\nnode {\nname: x\nname: y\nnodeid: 3\n}\n}\nquorum {\nprovider: corosync_votequorum\n}\n' \
    'node 2 name - votes 1 fence_delay 50\nnode 3 name y votes 1 fence_delay 0\nnode 7 name alpha votes 3 fence_delay 0
two_node off by default\nwait_for_all off by default\nlast_man_standing off by default\nauto_tie_breaker off by default
device none\nlast_man_standing_window 10000\nexpected_votes 5 by the sum\nquorum 3\n'

provider='quorum {\nprovider: corosync_votequorum\n}\n'
one="nodelist {\nnode {\nnodeid: 1\n}\n}\n$provider"
two="nodelist {\nnode {\nnodeid: 1\n}\nnode {\nnodeid: 2\n}\n}\n$provider"

# flags STATUS 'TEXT' 'LINES': the lines behind those of the nodes
flags() {
    local status=0
    printf "$2" | "$QUORUMCTL" settings > got 2> errors || status=$?
    same "$status $(grep -v '^node ' got; cat errors)" "$1 $(printf "$3")"
}
flags 1 "${two}quorum {\ntwo_node: 1\n}\n" 'two_node on by two_node\nwait_for_all on by two_node\nlast_man_standing off by default\nauto_tie_breaker off by default
device none\nlast_man_standing_window 10000\nexpected_votes 2 by the sum\nquorum 1\nwarning: two nodes with equal fence_delays reset each other where the network is cut\n'
flags 1 "${two}quorum {\nwait_for_all: 1\nauto_tie_breaker: 1\nlast_man_standing_window: 5\nexpected_votes: 2\n}\n" 'two_node off by default\nwait_for_all on by wait_for_all
last_man_standing off by default\nauto_tie_breaker on by auto_tie_breaker\ndevice none\nlast_man_standing_window 5\nexpected_votes 2 by expected_votes\nquorum 2
warning: Corosync arms wait_for_all again at each loss of quorum\n'
flags 1 "${two}quorum {\ndevice {\nmodel: net\nvotes: 1\n}\n}\n" 'two_node off by default\nwait_for_all off by default\nlast_man_standing off by default\nauto_tie_breaker off by default
device votes 1 timeout 10000\nlast_man_standing_window 10000\nexpected_votes 3 by the sum\nquorum 2
warning: the device has no host: nobody will ever vote\nwarning: Corosync'"'"'s node that boots alone does not expect a device'"'"'s written votes\n'

# warned 'TEXT' 'WARNINGS'
warned() {
    local status=0
    printf "$1" | "$QUORUMCTL" settings > got || status=$?
    same "$status $(grep '^warning' got)" "1 $(printf "$2")"
}
warned "${one}quorum {\nlast_man_standing: 1\n}\n" 'warning: last_man_standing without wait_for_all
warning: Corosync'"'"'s last_man_standing_window begins where nodes are lost, and not at each view
warning: Corosync gives a node that joins the expected votes of those that are quorate\n'
warned "${two}quorum {\ntwo_node: 1\nwait_for_all: 0\n}\n" 'warning: two_node without wait_for_all\nwarning: two nodes with equal fence_delays reset each other where the network is cut\n'
warned "${two}quorum {\ntwo_node: 1\n}\n" 'warning: two nodes with equal fence_delays reset each other where the network is cut\n'
warned 'nodelist {\nnode {\nnodeid: 1\nfence_delay: 5000\n}\nnode {\nfence_delay: 5000\nnodeid: 2\n}\n}\nquorum {\nprovider: corosync_votequorum\ntwo_node: 1\n}\n' 'warning: two nodes with equal fence_delays reset each other where the network is cut\n'
flags 0 'nodelist {\nnode {\nnodeid: 1\nfence_delay: 5000\n}\nnode {\nnodeid: 2\n}\n}\nquorum {\nprovider: corosync_votequorum\ntwo_node: 1\n}\n' 'two_node on by two_node\nwait_for_all on by two_node
last_man_standing off by default\nauto_tie_breaker off by default\ndevice none\nlast_man_standing_window 10000\nexpected_votes 2 by the sum\nquorum 1\n'
warned "${one}quorum {\nexpected_votes: 3\n}\n" 'warning: expected_votes 3 is above the 1 votes that there are\n'
warned "${two}quorum {\nexpected_votes: 1\n}\n" 'warning: expected_votes 1 is below the 2 votes that there are\nwarning: 2 votes can fall into halves: there is neither a device nor a tie breaker\n'
warned "$two" 'warning: 2 votes can fall into halves: there is neither a device nor a tie breaker\n'
warned "${one}quorum {\ntwo_nodes: 1\n}\n" 'warning: the key "two_nodes" is not known\n'
warned 'nodelist {\nnodes: 1\nnode {\nnodeid: 1\nvotes: 1\nring0_addr: a\n}\n}\ntotem {\nnode: 1\n}\nquorum {\nprovider: corosync_votequorum\n}\n' 'warning: the key "nodes" is not known\nwarning: the key "votes" is not known\n'

# three 'LINES' 'LINES' 'LINES': a text of three nodes, with these lines in their sections
three() {
    printf 'nodelist {\\nnode {\\nnodeid: 1\\n%s}\\nnode {\\nnodeid: 2\\n%s}\\nnode {\\nnodeid: 3\\n%s}\\n}\\n%s' "$@" "$provider"
}

# who may hold: a witness, and standbys without which nobody may; words of them at fault, with their lines
flags 0 "$(three 'standby: yes\n' 'location_score: 254\nstandby: no\n' 'location_score: 0\n')" 'two_node off by default\nwait_for_all off by default\nlast_man_standing off by default\nauto_tie_breaker off by default
device none\nlast_man_standing_window 10000\nexpected_votes 3 by the sum\nquorum 2\n'
warned "$(three 'standby: yes\nquorum_votes: 3\n' '' '')" 'warning: no majority is without node 1, which is a standby\n'
flags 0 "$(three 'standby: yes\nquorum_votes: 2\n' 'quorum_votes: 2\n' '')" 'two_node off by default\nwait_for_all off by default\nlast_man_standing off by default\nauto_tie_breaker off by default
device none\nlast_man_standing_window 10000\nexpected_votes 5 by the sum\nquorum 3\n'
warned "$(three 'standby: yes\n' 'standby: yes\n' 'standby: yes\n')" 'warning: each node is a standby: nobody may hold\n'
warned "$(three 'standby: yes\nquorum_votes: 3\n' 'standby: yes\n' 'standby: yes\n')" 'warning: no majority is without node 1, which is a standby\nwarning: each node is a standby: nobody may hold\n'
told 3 "$(three '' 'standby: maybe\n' '')" 'fault: BadConf BadNumber key standby\nline 7: standby: maybe\n'
told 3 "$(three 'location_score: 255\n' 'location_score: 9\n' '')" 'fault: BadConf BadNumber key location_score\nline 4: location_score: 255\nline 8: location_score: 9\n'
told 3 "$(three '' '' 'location_score: x\nstandby:\n')" 'fault: BadConf BadNumber key standby\nline 11: standby:\n'

# names that cannot be shown
warned "$(three 'name: a\n' 'name: b\n' 'name: a\n')" 'warning: the name of node 1 is that of another node too: its id is shown\nwarning: the name of node 3 is that of another node too: its id is shown\n'
long=$(printf 'n%.0s' {1..64})
warned "$(three "name: $long\n" "name: ${long%n}\n" '')" 'warning: the name of node 1 has not 1 to 63 bytes: its id is shown\n'

# the arbiter of a device: where it is, and its times; and what nobody reads of it
device='quorum {\nprovider: corosync_votequorum\nexpected_votes: 3\n'
flags 0 "${two}${device}device {\nmodel: net\nvotes: 1\nnet {\nhost: 192.0.2.9\nport: 7432\n}\n}\n}\n" 'two_node off by default\nwait_for_all off by default\nlast_man_standing off by default\nauto_tie_breaker off by default
device votes 1 timeout 10000\narbiter 192.0.2.9 port 7432 limit 2000 lease 12244\nlast_man_standing_window 10000\nexpected_votes 3 by expected_votes\nquorum 2\n'
warned "${two}${device}device {\nmodel: net\nvotes: 1\nsync_timeout: 30000\nnet {\nhost: third\nalgorithm: ffsplit\ntie_breaker: lowest\ntls: on\n}\nheuristics {\nmode: on\n}\n}\n}\n" 'warning: the device'"'"'s host "third" is no address: nobody will ever vote
warning: the device'"'"'s "sync_timeout" has no effect here\nwarning: the device'"'"'s "algorithm" has no effect here\nwarning: the device'"'"'s "tie_breaker" has no effect here
warning: the device'"'"'s "tls" has no effect here\nwarning: the device'"'"'s "heuristics" has no effect here\n'
warned "nodelist {\nnode {\nnodeid: 1\nring0_addr: 192.0.2.1\n}\nnode {\nnodeid: 2\nring0_addr: 192.0.2.2\n}\n}\n${device}device {\nmodel: net\nvotes: 1\ntimeout: 6000\nnet {\nhost: 192.0.2.2\n}\n}\n}\n" 'warning: the device'"'"'s host "192.0.2.2" is a node'"'"'s address: the vote is lost with that node\n'
same "$(grep '^arbiter' got)" 'arbiter 192.0.2.2 limit 1200 lease 7347'
warned "${two}quorum {\nprovider: corosync_votequorum\nexpected_votes: 2\ndevice {\nmodel: net\nvotes: 1\nnet {\nhost: 192.0.2.9\n}\n}\n}\n" 'warning: expected_votes 2 is below the 3 votes that there are\n'

told 3 'quorum {\ntwo_node 1\n}\n' 'fault: line 2: neither a section, nor `key: value`, nor `}`, nor a comment\nline 2: two_node 1\n'
told 3 '}\n' 'fault: line 1: `}` ends a section, and none is open\nline 1: }\n'
told 3 "${one}quorum {\nexpected_votes: many\n}\n" 'fault: expected_votes: a value is no number in the range of the key\nline 10: expected_votes: many\n'
told 3 '' 'fault: nodelist: there is no node section\n'
told 3 'quorum {\n' 'fault: the text ends inside a section: a `}` is missing\n'
told 3 'nodelist {\nnode {\nnodeid: 2\n}\nnode {\nnodeid: 2\n}\n}\n' 'fault: nodelist: nodeid 2 stands in two node sections\nline 3: nodeid: 2\nline 6: nodeid: 2\n'

# a text is taken exactly where quorumd takes it: the texts of examples, and those of the rows
agrees() {
    local status=0 taken=no answer
    "$QUORUMCTL" settings < "$1" > got 2> errors || status=$?
    { cat "$1"; printf '\n----\ntiming 5000 10000 1000 2000 1000\n'; } > schedule
    answer=$("$QUORUMD" replay < schedule || true)
    [ "$answer" != 'end 0' ] || taken=yes
    case $status$taken in
    0yes | 1yes) [ -z "$(grep '^fault' got)" ] ;;
    3no) grep -q '^fault: ' got ;;
    *) printf '%s: quorumctl ends with %s, and quorumd writes %s\n' "$1" "$status" "$answer"; exit 1 ;;
    esac
}
for text in "$TOP"/examples/*.conf; do
    agrees "$text"
done
while IFS=$'\t' read -r _ head _; do
    printf '%b' "$head" | sed '/^----$/,$d' > text
    agrees text
done < "$TOP/tests/rows/settings-at-fault.tsv"

# times: the least msgwait is safe, and one less is not
timing() {
    "$QUORUMCTL" timing --watchdog "$1" --loop "$2" --read-limit "$3" --feed-delay "$4" "${@:5}"
}

# short FEED-DELAY: the warning of a feed delay that is short
short() {
    if [ "$1" -lt 2 ]; then
        echo "warning: feed delay $1: no feed is in time"
    elif [ "$1" -lt 1000 ]; then
        echo "warning: feed delay $1: a feed is given within $(($1 / 2)) ms only; a longer stall of the node resets its machine. Take 1000 or more"
    fi
}

# the slowest disk and the longest take-over, or why there is none: rows that were worked out by hand from the conditions
while IFS=$'\t' read -r watchdog loop read_limit feed_delay least slowest longest; do
    [[ $watchdog != '#'* ]] || continue
    wanted="least msgwait $least"
    [ "$slowest" = 0 ] || wanted+=$'\n'"slowest disk $slowest"
    wanted+=$'\n'"longest take-over $longest"
    warning=$(short "$feed_delay")
    [ -z "$warning" ] || wanted+=$'\n'"$warning"
    same "$(timing "$watchdog" "$loop" "$read_limit" "$feed_delay")" "$wanted"
done < "$TOP/tests/rows/take-over-times.tsv"

for feed_delay in 1 2 500 999 1000 1001; do
    same "$(timing 5000 1000 2000 "$feed_delay" | sed -n '/^warning/p')" "$(short "$feed_delay")"
done

# a disk that was measured: the bound on it, or which time it is too slow for
measured() {
    same "$(timing "$1" "$2" "$3" "$4" --disk "$5" | tail -n 1)" "longest take-over $6"
}
measured 5000 1000 2000 1000 989 22444
measured 5000 1000 2000 1000 500 17454
measured 5000 1000 2000 1000 990 'none: the disk is too slow for this loop'
measured 5000 1000 900 1000 892 'none: the disk is too slow for the read limit'
measured 5000 1000 2000 3500 248 "none: the loop, two calls of the disk and the feed delay do not fit in the watchdog's time"
measured 5000 6000 2000 1000 1 "none: the loop, two calls of the disk and the feed delay do not fit in the watchdog's time"
for times in '5000 1000 2000 1000' '1 1 1 1' '3000000 2 3 4' '60000 3600000 1 1'; do
    # shellcheck disable=SC2086
    set -- $times
    least=$(timing "$1" "$2" "$3" "$4" | sed -n 's/^least msgwait //p')
    expect 0 'created nodes 1\n' create --image disk --timing "$1,$least,$2,$3,$4" < "$TOP/examples/one-node.conf"
    less=$((least - 1))
    expect 10 "fault UnsafeTiming $1 $less $2 $3 $4\\n" create --image disk --timing "$1,$less,$2,$3,$4" < "$TOP/examples/one-node.conf"
done
status=0
timing 3600000 1 1 1 > got || status=$?
same "$status $(cat got)" '10 fault: no msgwait up to 3600000 is safe with these times'
