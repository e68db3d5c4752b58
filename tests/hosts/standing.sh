# shellcheck shell=bash
# What bed.sh, scenes.sh, postgres.sh and arbiter.sh set is used here.
# shellcheck disable=SC2154
# Who is to hold by an operator's word, with PostgreSQL and a client that writes rows: moves by name, a standby, a node that is unfit, a witness, and the same with
# two_node, a quorum device and last_man_standing. Sourced by `containers`.

# in_text: standard input is the settings text of each host, and a new image is made of it
in_text() {
    local n text
    text=$(cat)
    printf '%s\n' "$text" > "$room/corosync.conf"
    for n in 1 2 3; do cp "$room/corosync.conf" "$room/host$n/etc/quorumd/"; done
    rm -f "$shared/disk"
    in_root "$room/host1" quorumd create --image /var/tmp/disk < "$room/corosync.conf" && mv "$room/host1/var/tmp/disk" "$shared/disk"
}

# database_written: PostgreSQL runs on host 1, and the writer writes
database_written() {
    database_on_store "$UNIT" && begun && load
}

# move_to N: the resources are moved to host N by its name; says how long nobody had them
move_to() {
    # shellcheck disable=SC2086
    on "$1" quorumctl move ${MOVE-} || return 1
    until_true 30 owns "$1" && writes_again 20
}

# moved_around ROUNDS HOST..: so many moves by name, to these hosts in turn, of which the last one holds at first
moved_around() {
    local round rounds=$1
    shift
    for ((round = 0; round < rounds; round++)); do
        move_to "${@:$((round % $# + 1)):1}" || { echo "move $((round + 1)) of $rounds"; return 1; }
    done
}

# handed_over: how long each hand-over took, by what the supervisors said of it
handed_over() {
    local n loop=${TIMES#*,*,}
    for n in 1 2 3; do on "$n" journalctl -o short-unix -u quorumd-resource; done | "$here/handovers" --loop "${loop%%,*}" --slow "$slow"
}

none_reset() { not_reset 1 && not_reset 2 && not_reset 3; }

# An operator moves the resources by name, three times or as often as QUORUMD_TEST_MOVES says: nobody is reset, and no row is lost.
scene_moves_by_name() {
    database_written || return 1
    fault 'the resources are moved by name, again and again'
    moved_around "${QUORUMD_TEST_MOVES:-3}" 2 3 1 && none_reset && judge_rows && handed_over
}

# kill_node_of N: the node of host N is killed, and another host owns
kill_node_of() {
    on "$1" systemctl kill --kill-whom=main -s KILL "quorumd@$1.service"
    until_true 40 another_owns "$1" && writes_again 40
}

# A standby hands over, is one over a reboot, does not hold where the next holder dies, and may hold again at a word.
scene_standby() {
    local who
    FIRMWARE=20 database_written || return 1
    fault 'host 1 is to be a standby'
    on 1 quorumctl standby || return 1
    until_true 20 another_owns 1 && writes_again 20 || return 1
    not_reset 1 || return 1
    on 1 systemctl reboot
    until_true 60 resets 1 && until_true 90 well_again 1 || return 1
    on 1 quorumctl move && return 1
    who=$(owner) && kill_node_of "$who" && another_owns 1 || return 1
    until_true 90 well_again "$who" || return 1
    on 1 quorumctl unstandby && move_to 1 && judge_rows
}

# broken_while_there N: PostgreSQL of host N is not started while /srv/broken is there
broken_while_there() {
    local folder="$room/host$1/etc/systemd/system/postgresql@15-main.service.d"
    mkdir -p "$folder" && printf '[Service]\nExecStartPre=/bin/sh -c "[ ! -e /srv/broken ]"\n' > "$folder/broken.conf"
}

# Where the database cannot be started on a host its node stays, and is unfit; another host owns, and nobody is reset. Once that is mended it may hold again.
scene_unfit() {
    broken_while_there 1
    database_written || return 1
    on 1 touch /srv/broken
    fault 'the database of host 1 is killed, and cannot be started there'
    on 1 sh -c 'kill -KILL $(head -n 1 /var/lib/postgresql/15/main/postmaster.pid)'
    until_true 90 another_owns 1 && writes_again 20 || return 1
    said 1 'this node is unfit' -u quorumd-resource.service && unit_is 1 active || return 1
    on 1 quorumctl move && return 1
    on 1 rm /srv/broken
    on 1 quorumctl fit && move_to 1 && none_reset && judge_rows
}

# nobody_may: the node of host 1 says that nobody may hold
nobody_may() { on 1 quorumctl status | grep -q 'no owner'; }

# Where each host is a standby nobody owns, and the status says why; the first that is none any more owns.
scene_all_standby() {
    local n
    database_written || return 1
    fault 'each host is to be a standby'
    for n in 3 2; do on "$n" quorumctl standby || return 1; done
    # in vain: the database is to go on elsewhere
    on 1 quorumctl standby && return 1
    until_true 20 nobody_owns || return 1
    sleep 10
    nobody_owns && nobody_may || { on 1 quorumctl status; return 1; }
    on 1 quorumctl status
    on 2 quorumctl unstandby && until_true 20 owns 2 && writes_again 20 && none_reset && judge_rows
}

# A witness that has a majority of votes of its own never holds, also while both others are away.
scene_witness() {
    local n
    text_of '' 1 2 3 | sed '/nodeid: 3$/a \  standby: yes\n  quorum_votes: 3' | in_text || return 1
    database_on_store "$UNIT" || return 1
    rm "$room/host3/etc/quorumd/resources.conf"
    echo 'AGENT=none' > "$room/host3/etc/quorumd/agent.env"
    FIRMWARE=25 begun && load || return 1
    fault 'the nodes of hosts 1 and 2 are killed'
    for n in 1 2; do on "$n" systemctl kill --kill-whom=main -s KILL "quorumd@$n.service" & done
    until_true 5 nobody_owns || return 1
    sleep 20
    nobody_owns && unit_is 3 active && on 3 cat /run/quorumd/node-3.json | grep -q '"quorate":true' || return 1
    until_true 60 owner && writes_again 40 && not_reset 3 && judge_rows
}

# The rest is played on hosts 1 and 2, whose text has them alone.

# begun_by_two: both run, host 1 owns, and the writer writes
begun_by_two() {
    database_on_store "$UNIT" || return 1
    power 1 && power 2
    until_true 60 owns 1 && load
}

# moved_and_lost: the resources are moved by name to host 2 and back; then the node of host 1 is killed, and host 2 takes them
moved_and_lost() {
    moved_around 2 2 1 && not_reset 1 && not_reset 2 || return 1
    fault 'the node of host 1 is killed'
    kill_node_of 1 && owns 2 && until_true 60 unit_is 1 active && not_reset 2 && judge_rows
}

# Two hosts with two_node: moves by name, and the holder's node dies.
scene_two_node() {
    text_of ' two_node: 1' 1 2 | in_text || return 1
    FIRMWARE=20 begun_by_two && moved_and_lost
}

# with_arbiter: hosts 1 and 2 are the members of a text with a device, whose arbiter runs on host 3
with_arbiter() {
    device_text "$room/device.conf" 'host: 192.0.2.3'
    in_text < "$room/device.conf" || return 1
    rm -f "$room/host3/etc/quorumd/node-3.env"
    in_root "$room/host3" systemctl -q disable quorumd@3.service
    power 3
    has_booted 3 || return 1
    cp "$room/device.conf" "$room/key" "$shared/"
    on 3 quorumd-setup /srv/cluster/device.conf --arbiter --key /srv/cluster/key && on 3 systemctl enable --now quorumd-arbiter.service || return 1
    until_true 10 said 3 'event=arbiter-open' -u quorumd-arbiter.service
}
has_answer() { said 1 'event=device .*answer=yes' -u quorumd@1.service; }

# Two hosts and an arbiter: moves by name, and the holder's node dies.
scene_device() {
    with_arbiter && FIRMWARE=20 begun_by_two && until_true 40 has_answer && moved_and_lost
}

# Two hosts and an arbiter: the cable between the two is cut for good, and the database of the holder goes on as the same process.
scene_device_cut() {
    local pid
    with_arbiter && FIRMWARE=20 begun_by_two && until_true 40 has_answer || return 1
    pid=$(postmaster)
    fault 'the cable between hosts 1 and 2 is cut for good'
    cut_link 1 2 && cut_link 2 1 || return 1
    until_true 30 resets 2 || return 1
    sleep 40
    owns 1 && [ "$(postmaster)" = "$pid" ] && not_reset 1 && [ "$(resets 2)" = 1 ] && writes_again 10 && judge_rows
}

# With last_man_standing the expected votes follow a host that left: the resources move by name between the two that stay, and to it once it is back.
scene_last_man() {
    text_of $' last_man_standing: 1\n last_man_standing_window: 10000\n wait_for_all: 1' 1 2 3 | in_text || return 1
    database_written || return 1
    on 3 systemctl stop quorumd@3.service || return 1
    sleep 15
    on 1 quorumctl status
    fault 'the resources are moved by name while host 3 is away'
    # host 3 told nobody that it leaves: it had nothing to stop
    MOVE=--yes moved_around 2 2 1 || return 1
    on 3 systemctl start quorumd@3.service && until_true 40 sees_all 3 && move_to 3 && none_reset && judge_rows
}

# A cluster of names: each host says who holds, before and after a take-over; another key on one host is told by its name with the count of its packets.
scene_named() {
    local n
    text_of '' 1 2 3 | sed 's/^\( *\)nodeid: \([0-9]\)$/&\n\1name: db\2/' | in_text || return 1
    FIRMWARE=20 begun || return 1
    for n in 1 2 3; do until_true 10 on "$n" quorumctl status || return 1; on "$n" quorumctl status; done
    for n in 1 2 3; do on "$n" quorumctl status | grep -qx 'quorumd healthy: db1 holds' || return 1; done
    fault 'the node of host 1 is killed'
    on 1 systemctl kill --kill-whom=main -s KILL quorumd@1.service
    until_true 4 told_by 2 '^quorumd .*: owner not known\|no owner\|does not see db1' || { on 2 quorumctl status; return 1; }
    until_true 40 another_owns 1 || return 1
    until_true 10 told_by 2 "db$(owner) holds" && until_true 4 told_by 3 "db$(owner) holds" || return 1
    until_true 90 well_again 1 || return 1
    head -c 32 /dev/urandom > "$room/host3/etc/quorumd/key"
    [ "$(owner)" != 3 ] || move_to_any_but_3 || return 1
    on 3 systemctl restart --no-block quorumd@3.service
    until_true 90 told_by 1 'does not see db3 ([0-9]* packets of it refused: another key or text)' || { on 1 quorumctl status; return 1; }
    on 1 quorumctl status
    return 0
}
told_by() { on "$1" quorumctl status | grep -q "$2"; }
move_to_any_but_3() { on 1 quorumctl move && until_true 30 owns 1; }
