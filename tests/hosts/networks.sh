# shellcheck shell=bash
# What bed.sh, scenes.sh, postgres.sh and standing.sh set is used here.
# shellcheck disable=SC2154
# Hosts on two networks, 192.0.2.N at host0 and 198.51.100.N at host1, with PostgreSQL and a client that writes rows. Sourced by `containers`.

# second_addresses: standard input is a text of one network, standard output the same with a second one
second_addresses() { sed 's/^\( *\)ring0_addr: 192\.0\.2\.\([0-9]*\)$/&\n\1ring1_addr: 198.51.100.\2/'; }

# second_network: a bridge, and each host's address there; `power` plugs in the card of a host at each of its boots
second_network() {
    local n folder
    SECOND_NETWORK=yes
    ip -n "$tag" link add br1 type bridge && ip -n "$tag" link set br1 up || return 1
    for n in 1 2 3; do
        folder="$room/host$n/etc/systemd/system/test-network.service.d"
        mkdir -p "$folder"
        printf "[Service]\nExecStart=/bin/sh -c 'ip addr add 198.51.100.%s/24 dev host1; ip link set host1 up'\n" "$n" > "$folder/second.conf"
    done
}

# on_two_networks: the text has both, PostgreSQL runs on host 1, and the writer writes
on_two_networks() {
    second_network && second_addresses < "$room/corosync.conf" | in_text && database_written
}

# unplugged N, plugged N: the second card of host N has no cable, or has it again
unplugged() { ip -n "$tag" link set "second$1" down; }
plugged() { ip -n "$tag" link set "second$1" up; }

# first_cut N, first_whole: no packet of the first network goes between host N and the other hosts; clients reach it. Then all go again
first_cut() {
    local other
    for other in 1 2 3; do [ "$other" = "$1" ] || { cut_link "$1" "$other" && cut_link "$other" "$1"; } || return 1; done
}
first_whole() { ip netns exec "$tag" nft delete table bridge cuts; }

# times N TEXT: how many lines of the node of host N have that
times() { on "$1" journalctl -o cat -u "quorumd@$1.service" | grep -c "$2"; }

# lost_and_back NETWORK COUNT: hosts 1 and 2 said so often that this network to the other one is lost, and as often that it is back
lost_and_back() {
    local got
    got="$(times 1 "event=network-lost network=$1 id=2") $(times 1 "event=network-back network=$1 id=2") $(times 2 "event=network-lost network=$1 id=1") $(times 2 "event=network-back network=$1 id=1")"
    [ "$got" = "$2 $2 $2 $2" ] || { echo "lost and back on network $1: $got"; return 1; }
}

# Either network of the holder is lost for a while: the database goes on as the same process, nobody is reset, and each change is said once.
scene_one_network() {
    local pid view
    on_two_networks || return 1
    sleep 5
    pid=$(postmaster)
    view=$(times 1 'event=view')
    fault 'the second card of host 1 is unplugged, and then the first network is cut'
    unplugged 1 && until_true 10 told_by 2 'network 1 to .*1 is down' && sleep 20 && plugged 1 && sleep 5 && lost_and_back 1 1 || return 1
    first_cut 1 && until_true 10 told_by 2 'network 0 to .*1 is down' && sleep 20 && first_whole && sleep 5 && lost_and_back 0 1 || return 1
    until_true 5 on 1 quorumctl status && owns 1 && [ "$(postmaster)" = "$pid" ] && [ "$(times 1 'event=view')" = "$view" ] && writes_again 10 && none_reset && judge_rows
}

# Both networks of the holder are lost: it is reset, and another host owns after msgwait.
scene_both_networks() {
    FIRMWARE=20 on_two_networks || return 1
    fault 'both networks of host 1 are lost'
    unplugged 1 && first_cut 1 || return 1
    until_true 60 another_owns 1 && writes_again 40 || return 1
    [ "$(resets 1) $(resets 2) $(resets 3)" = '1 0 0' ] || return 1
    first_whole && until_true 90 well_again 1 && judge_rows
}

# One node after the other goes from a text of one network to that of two, and back: the standbys first, the holder last. Nobody is reset.
scene_network_added() {
    local n conf
    for n in 1 2 3; do sed -i 's#^EDGE=.*#& --seal-meaning#' "$room/host$n/etc/quorumd/node-$n.env"; done
    second_network && database_written || return 1
    second_addresses < "$room/corosync.conf" > "$room/two.conf"
    fault 'the second network comes into the text, and goes out of it'
    for conf in two corosync; do
        for n in 3 2 1; do
            # the seal goes over what the text says, of which the second address is no part
            cp "$room/$conf.conf" "$room/host$n/etc/quorumd/corosync.conf"
            on "$n" systemctl restart "quorumd@$n.service" && until_true 60 well_again "$n" && writes_again 40 || return 1
        done
        [ "$conf" != two ] || { owner_moves_to_1 && until_true 20 on 1 quorumctl status; } || return 1
    done
    none_reset && judge_rows
}
owner_moves_to_1() { owns 1 || move_to 1; }

# A standby boots while it has no card of the second network: it is a member, and uses that network once it is there.
scene_late_second_network() {
    second_network && second_addresses < "$room/corosync.conf" | in_text || return 1
    printf "[Service]\nExecStart=/bin/true\n" > "$room/host3/etc/systemd/system/test-network.service.d/second.conf"
    database_written && until_true 40 sees_all 3 || return 1
    fault 'host 3 gets its address on the second network'
    told_by 1 'network 1 to .*3 is down' || { on 1 quorumctl status; return 1; }
    on 3 sh -c 'ip addr add 198.51.100.3/24 dev host1; ip link set host1 up' || return 1
    until_true 10 on 1 quorumctl status && owns 1 && none_reset && judge_rows
}
