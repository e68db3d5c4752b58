# shellcheck shell=bash
# What bed.sh sets is used here, and the other way round; what stands in single quotes is for the shell of a machine.
# shellcheck disable=SC2154,SC2034,SC2016
# The scenes. Each is a function that fails where something else came than should. Sourced by `machines`.
all_scenes=(kill_nbd kill_three kill_etcd hang panic power_off cut_nbd cut_three cut_etcd not_heard hears_nobody slow_disk dead_disk dead_server
    one_server_of_three two_servers_of_three leader_killed member_killed wrong_watchdog long_sectors long_sectors_unsaid
    message_test message_reset message_off message_exit message_crashdump mail_unread forged slewed site_off site_returns paused_machine)

# all_on WAY: three machines that boot
all_on() {
    local number
    set_up "$1" || return 1
    for number in 1 2 3; do tell power "$number"; done
}

# begun WAY: the cluster is up, and machine 1 holds: no node starts before all machines have booted, which may take one another's processor, and those of the
# others start once its own has opened
begun() {
    local number
    set_up "$1" || return 1
    for number in 1 2 3; do qemu_words "$number" 0 > "$room/qemu.$number"; done
    for number in 1 2 3; do tell power "$number"; done
    for number in 1 2 3; do
        until_true 120 boots "$number" 1 || return 1
        qemu_words "$number" 1 > "$room/qemu.$number"
    done
    order 1 'touch /run/begin'
    until_true 120 saw 1 'event=open port.* ok=yes' || return 1
    for number in 2 3; do order "$number" 'touch /run/begin'; done
    until_true 60 owns 1 && sleep 3
}

# taken_over: another machine than the first holds, and goes on
taken_over() { until_true 60 another_owns 1 && sleep 3 && another_owns 1; }

# by_watchdog: the watchdog of machine 1 has reset it, and another one holds
by_watchdog() {
    until_true 60 did 1 watchdog && taken_over && resets_are 1 0 0
}

# by_message: machine 1 reset itself, before its watchdog would have done it, and another one holds
by_message() {
    until_true 60 did 1 reset && taken_over && resets_are 1 0 0 || return 1
    ! did 1 watchdog || { echo 'its watchdog reset it'; return 1; }
}

# goes_on SECONDS [N]: machine 1, or machine N, holds for so long and does not stop in between: its signs are of the same holding. Nobody is reset
goes_on() {
    local before who=${2:-1}
    before=$(holding)
    sleep "$1"
    until_true 5 owns "$who" || return 1
    [ "$(holding)" = "$before" ] || { echo "machine $who held anew: $before, $(holding)"; return 1; }
    resets_are 0 0 0
}

kill_node() {
    FIRMWARE=60 begun "$1" || return 1
    fault 'the node of machine 1 is killed'
    order 1 'kill -KILL $(cat /run/node)'
    by_watchdog
}

# A killed node: its watchdog resets the machine, and another one takes over. The machine comes back, and its node holds nothing.
scene_kill_nbd() {
    FIRMWARE=45 kill_node nbd || return 1
    until_true 90 boots 1 2 || return 1
    sleep 15
    another_owns 1 && resets_are 1 0 0
}
scene_kill_three() { kill_node three; }
scene_kill_etcd() { kill_node etcd; }

# A node that stands still is fed no more.
scene_hang() {
    FIRMWARE=60 begun nbd || return 1
    fault 'the node of machine 1 stands still'
    order 1 'kill -STOP $(cat /run/node)'
    by_watchdog
}

# A kernel that panics, and stays so.
scene_panic() {
    FIRMWARE=60 begun nbd || return 1
    fault 'the kernel of machine 1 panics'
    order 1 'echo c > /proc/sysrq-trigger'
    by_watchdog
}

# A machine without power is taken over after msgwait.
scene_power_off() {
    begun nbd || return 1
    fault 'machine 1 is switched off'
    tell off 1
    taken_over && resets_are 0 0 0
}

cut_off() {
    FIRMWARE=60 begun "$1" || return 1
    fault 'the cable of machine 1 is pulled'
    ip -n "$tag" link set t1 nomaster
}

# A holder that is cut off still reads its mailbox on the shared disk: the reset there ends it.
scene_cut_nbd() { cut_off nbd && by_message; }

# Where the disk lies behind the same cable, nothing feeds it any more.
scene_cut_three() { cut_off three && by_watchdog; }
scene_cut_etcd() { cut_off etcd && by_watchdog; }

# A holder that hears the others, but that they do not hear: it is reset, and another one takes over.
scene_not_heard() {
    FIRMWARE=60 begun nbd || return 1
    fault 'what machine 1 sends comes to nobody'
    order 1 'arp -s 10.7.0.2 52:54:00:07:00:22; arp -s 10.7.0.3 52:54:00:07:00:33'
    by_message
}

# hears FLAG: whether frames for machine 1 come to it; the addresses of all machines stand, so nothing has to be asked for
hears() {
    ip -n "$tag" link set t1 type bridge_slave flood "$1" mcast_flood "$1" bcast_flood "$1" learning "$1"
    bridge -n "$tag" fdb flush dev t1 2> /dev/null || ip -n "$tag" link set t1 type bridge_slave fdb_flush
}

# A holder that hears nobody says so: the others do without it, and reset it.
scene_hears_nobody() {
    FIRMWARE=60 begun nbd || return 1
    fault 'machine 1 hears nobody'
    hears off
    by_message
}

# A disk that moves a hundred bytes a second answers after the read limit.
scene_slow_disk() {
    FIRMWARE=60 begun nbd || return 1
    fault 'the disk of machine 1 is slow'
    tell slow 1 100
    by_watchdog
}

# A disk that is gone fails each call at once.
scene_dead_disk() {
    FIRMWARE=60 begun nbd || return 1
    fault 'machine 1 loses its disk'
    tell unplug 1
    by_watchdog
}

# The block server of the holder is killed.
scene_dead_server() {
    FIRMWARE=60 begun nbd || return 1
    fault 'the block server of machine 1 is killed'
    order 1 'kill -KILL $(cat /run/server)'
    by_watchdog
}

# One block server of three may stand still, die and come back: the holder goes on.
scene_one_server_of_three() {
    begun three || return 1
    fault 'the first server stands still'
    kill -STOP "${servers[0]}"
    goes_on 15 || return 1
    note 'it is killed'
    kill -KILL "${servers[0]}"
    goes_on 15 || return 1
    note 'it is back, and the second one is killed'
    serve 0
    sleep 3
    kill -KILL "${servers[1]}"
    goes_on 15
}

# Two of three: every machine is reset, and nobody holds until they are back.
scene_two_servers_of_three() {
    FIRMWARE=10 begun three || return 1
    note 'two servers are killed'
    kill -KILL "${servers[0]}" "${servers[1]}"
    until_true 60 did 1 reset && until_true 60 did 2 reset && until_true 60 did 3 reset && until_true 10 nobody_owns || return 1
    sleep 20
    nobody_owns || return 1
    note 'they are back'
    serve 0
    serve 1
    until_true 150 owner
}

# lead_elsewhere: the leader of etcd is not the member of machine 1
lead_elsewhere() {
    [ "$(leader)" = 1 ] || return 0
    local second
    second=$(inside env ETCDCTL_API=3 etcdctl --endpoints 127.0.0.1:2372 endpoint status | cut -d , -f 2)
    inside env ETCDCTL_API=3 etcdctl --endpoints 127.0.0.1:2371 move-leader "${second# }" && [ "$(leader)" != 1 ]
}

# The leader of etcd is killed, and not the holder's member: the holder goes on. A machine whose own member it was is reset.
scene_leader_killed() {
    local dead other
    FIRMWARE=60 begun etcd && lead_elsewhere || return 1
    dead=$(leader)
    other=$((5 - dead))
    note "member $dead leads, and is killed"
    kill -KILL "${servers[dead]}"
    until_true 30 did "$dead" reset || return 1
    owns 1 && [ "$(resets 1)" = 0 ] && [ "$(resets "$other")" = 0 ] || return 1
    note 'it is back'
    member "$dead"
    sleep 10
    owns 1 && [ "$(resets 1)" = 0 ] && [ "$(resets "$other")" = 0 ]
}

# The holder's own member is killed.
scene_member_killed() {
    FIRMWARE=60 begun etcd || return 1
    fault 'the member of machine 1 is killed'
    kill -KILL "${servers[1]}"
    by_watchdog
}

# A watchdog whose time is above the image's: the node is not started, nothing is armed, and the others go on without it.
scene_wrong_watchdog() {
    WRONG=1 all_on nbd || return 1
    until_true 150 saw 1 'its time is 30 s' && until_true 60 another_owns 1 || return 1
    sleep 40
    another_owns 1 && resets_are 0 0 0
}

# A disk of sectors of 4096 bytes, and an image that is laid out for it
scene_long_sectors() {
    STRIDE=@4096 FIRMWARE=60 begun nbd || return 1
    leave reset
    by_message
}

# The same disk without that word: the opening fails, and nothing is armed.
scene_long_sectors_unsaid() {
    local number
    LONG=1 all_on nbd || return 1
    for number in 1 2 3; do until_true 150 saw "$number" '@4096' || return 1; done
    sleep 20
    nobody_owns && resets_are 0 0 0
}

# leave_for N KIND: the machine after it leaves a message for the node of machine N, on each image that the disk is of
leave_for() { order $(($1 % 3 + 1)) "for part in ${image//,/ }; do quorumd message --image \$part --id $1 --kind $2; done"; }

# leave KIND: machine 2 leaves a message for the node of machine 1
leave() {
    fault "machine 2 leaves $1 for machine 1"
    leave_for 1 "$1"
}

scene_message_test() {
    begun nbd || return 1
    leave test
    until_true 20 saw 2 'sent test to 1' && goes_on 20 && looked | grep 'node 1 .* mail test'
}

scene_message_reset() {
    FIRMWARE=60 begun nbd || return 1
    leave reset
    by_message
}

# A reset is written to a node whose network is well, and which nobody misses: it reads its mailbox each loop, and is gone within two.
scene_mail_unread() {
    FIRMWARE=60 begun nbd || return 1
    leave reset
    by_message
}

# What anybody on a machine can send to its node: votes of a quorum device, and Hellos of both others. Machine 1 is cut off, and with either of them it would
# be a majority. It must not believe them, and says so: nobody is reset, and since the two others are no majority without the device either, nobody holds.
scene_forged() {
    DEVICE=2 begun nbd || return 1
    order 1 'while :; do for packet in "\005\001" "\003\001" "\003\002"; do printf "QN$packet" | socat -u - UDP4-SENDTO:10.7.0.1:7400; done; done &'
    fault 'machine 1 is cut off, and votes and Hellos are forged on it'
    ip -n "$tag" link set t1 nomaster
    sleep 45
    saw 1 'event=packets-refused .*elsewhere=[1-9]' && nobody_owns && resets_are 0 0 0
}

# runs_fast N: the clock of machine N that a time daemon sets goes on by more than 10.5 s in ten seconds of this host
runs_fast() {
    local look='echo "uptime $(cut -d \" \" -f 1 /proc/uptime)"'
    order "$1" "$look"
    until_true 10 said_times "$1" 'uptime [0-9]' 1 && sleep 10 || return 1
    order "$1" "$look"
    until_true 10 said_times "$1" 'uptime [0-9]' 2 || return 1
    awk -v who="$1" '$2 == who && $4 == "uptime" { from = to; at = now; to = $5; now = $1 }
        END { printf "the clock of machine %s: %.2f s in %.2f s\n", who, to - from, now - at; exit !(to - from > 1.05 * (now - at)) }' "$room/events"
}

# The clocks of both others are slewed, a tenth fast, as a time daemon does it. The next owner begins msgwait after its reset was written, by the clock of the
# hypervisor; machine 1 has no power any more, so nothing else is seen of that reset.
scene_slewed() {
    begun nbd || return 1
    order 2 'adjtimex -t 11000'
    order 3 'adjtimex -t 11000'
    runs_fast 2 && runs_fast 3 || return 1
    note 'machine 1 is switched off'
    tell watch 1 "$room/disk"
    tell off 1
    taken_over && resets_are 0 0 0
}

# site_is_off: the plugs of all machines are pulled, and nobody holds
site_is_off() {
    local number
    fault 'all machines are switched off'
    for number in 1 2 3; do tell off "$number"; done
    for number in 1 2 3; do until_true 10 did "$number" off || return 1; done
    sleep 20
    nobody_owns
}

# switched_on N: that machine has its power again, and boots
switched_on() {
    note "machine $1 is switched on"
    tell power "$1"
}

# A whole site loses its power and has it back: all machines boot at once, and one of them holds.
scene_site_off() {
    local number
    begun nbd && site_is_off || return 1
    for number in 1 2 3; do switched_on "$number"; done
    until_true 120 owner && sleep 3 && goes_on 10 "$(owner)"
}

# The same, and they come back one after the other. One alone holds nothing. The second makes a majority, and holds once the machine that held cannot any more: for all that
# they know it still runs. That one comes back last, is not reset, and takes nothing.
scene_site_returns() {
    local from
    begun nbd && site_is_off || return 1
    switched_on 2
    until_true 90 boots 2 2 && sleep 30 && nobody_owns || return 1
    switched_on 3
    until_true 120 another_owns 1 || return 1
    from=$(($(wc -l < "$room/events") + 1))
    switched_on 1
    until_true 120 all_there "$from" && goes_on 10 "$(owner)" && another_owns 1
}

# A machine that was told to go off stays off.
scene_message_off() {
    FIRMWARE=5 begun nbd || return 1
    leave off
    until_true 30 did 1 off && taken_over && sleep 10 && resets_are 0 0 0 && ! boots 1 2
}

# A node that leaves is not reset by its watchdog, and another one takes over at once.
scene_message_exit() {
    begun nbd || return 1
    leave exit
    until_true 12 another_owns 1 || return 1
    sleep 12
    another_owns 1 && resets_are 0 0 0 && looked | grep '^node 1 .* clean'
}

# A crash dump ends in a kernel that panics; here nothing is dumped, and the watchdog resets the machine.
scene_message_crashdump() {
    FIRMWARE=60 begun nbd || return 1
    leave crashdump
    by_watchdog
}

# A machine that stood still for longer than msgwait goes on beside its successor, against the premises: until it reads its mailbox. That is
# a second and a half, the loop, and a read.
scene_paused_machine() {
    FIRMWARE=60 begun nbd || return 1
    fault 'machine 1 stands still'
    tell pause 1
    until_true 60 another_owns 1 || return 1
    sleep 3
    note 'it goes on'
    tell go-on 1
    until_true 30 did 1 reset && resets_are 1 0 0 && another_owns 1 || return 1
    two_owners='until it read its mailbox'
    beside 3
}

# beside SECONDS: after it went on machine 1 signed for no longer
beside() {
    awk -v most="$1" '$2 == 1 && $3 == "goes-on" { from = $1 } $2 == 1 && $3 == "sign" && from { last = $1 }
        END { beside = last ? last - from : 0; printf "machine 1 signed for %.2f s after it went on\n", beside; exit beside > most }' "$room/events"
}
