# shellcheck shell=bash
# What bed.sh and scenes.sh set is used here, and the other way round.
# shellcheck disable=SC2154
# The scenes of docs/MACHINES.md: three hosts that are set up from nothing by the commands of that page, as they stand there, and then its tests.
# What is not the page's: its device names are links to the devices of the bed, eth0 is host0, the watchdog is the pipe of the bed, the judge
# signs beside PostgreSQL, and its clients need no password. Sourced by `containers`.
page=$here/../../docs/MACHINES.md
. "$here/../page.bash"

# bare_hosts: three hosts with Debian and nothing of a cluster
bare_hosts() {
    local n
    for n in 1 2 3; do
        in_root "$room/host$n" systemctl -q disable "quorumd@$n.service" && in_root "$room/host$n" systemctl -q unmask postgresql.service || return 1
        rm -f "$room/host$n/etc/quorumd/"{node-$n.env,corosync.conf,key,resources.conf}
        cp "$package" "$room/host$n/root/quorumd_0_amd64.deb" # whatever its name is: the page has one of this form
        power "$n"
    done
    for n in 1 2 3; do has_booted "$n" || return 1; done
}

# each_host COMMAND..: the same on the three, with the number of the host behind it
each_host() {
    local n
    for n in 1 2 3; do "$@" "$n" || return 1; done
}

# adapted N: the commands of a block for host N
adapted() {
    sed -e "s/quorumd@1\\.service/quorumd@$1.service/g; s/node-1\\.env/node-$1.env/g" -e 's/\beth0\b/host0/g'
}

# run NAME.. N: these blocks, one script, on host N
run() {
    local n=${*: -1} name
    { echo 'cd /root'; for name in "${@:1:$#-1}"; do block "run $name" || return 1; done; } | adapted "$n" > "$room/script"
    echo "host $n: ${*:1:$#-1}"
    on "$n" bash -eu -o pipefail < "$room/script" || { echo "host $n: the block ${*:1:$#-1} ended with $?"; return 1; }
}

# file PATH N: the file of the page at its path
file() {
    block "file $1" | on "$2" sh -c "mkdir -p '$(dirname "$1")' && cat > '$1'"
}

# the ways of the disk image, and the block that has the word of each
declare -A words=([device]=image-device [servers]=image-servers [etcd]=image-etcd)
image_device() {
    each_host file /etc/systemd/system/quorumd-disk.service && each_host file '/etc/systemd/system/quorumd@.service.d/disk.conf' && each_host run device
}
image_servers() {
    each_host file /etc/systemd/system/quorumd-server.service && each_host file '/etc/systemd/system/quorumd@.service.d/server.conf' &&
        each_host file /etc/nftables.conf && each_host run server
}
image_etcd() {
    local n
    each_host file '/etc/systemd/system/quorumd@.service.d/etcd.conf' || return 1
    for n in 1 2 3; do
        on "$n" systemctl -q enable --now etcd.service # as the package does it
        block 'file /etc/default/etcd' | sed -e "s/^ETCD_NAME=.*/ETCD_NAME=db$n/" -e "/^ETCD_INITIAL_CLUSTER=/!s/192\\.0\\.2\\.1:/192.0.2.$n:/" |
            on "$n" sh -c 'cat > /etc/default/etcd' || return 1
    done
    each_host run etcd && until_true 60 on 1 env ETCDCTL_API=3 etcdctl endpoint health
}

# by_the_page WAY: the page, from its first command to its check, before a node starts
by_the_page() {
    local n way=$1
    bare_hosts && each_host run install && file /root/corosync.conf 1 && run key 1 || return 1
    for n in 2 3; do cp -p "$room/host1/root/"{corosync.conf,key} "$room/host$n/root/" || return 1; done
    "image_$way" && each_host file /etc/quorumd/resources.conf && each_host run database && run store 1 && each_host run no-data || return 1
    for n in 1 2 3; do
        printf '\n[signs]\nagent = systemd:database.service\nmonitor-interval = 2\n' >> "$room/host$n/etc/quorumd/resources.conf"
        # the client of the bed has no password
        sed -i 's#^\(host all all 192.0.2.0/24\) scram-sha-256$#\1 trust#' "$room/host$n/etc/postgresql/15/main/pg_hba.conf"
        [ "$n" = 1 ] && create='' || create='s/ --create//'
        { block "run ${words[$way]}" && block 'run setup' | sed "$create"; } | on "$n" bash -eu || { echo "host $n: setup ended with $?"; return 1; }
        sed -i 's#^WATCHDOG=.*#WATCHDOG=/srv/watchdog/watchdog#; $a WATCHDOG_IS_NO_DEVICE=yes' "$room/host$n/etc/quorumd/node-$n.env"
        run check "$n" || return 1
    done
}

# from_nothing WAY: the page, from its first command to a database that takes rows. Where it fails before that the hosts are no cluster, and what they had is not judged.
from_nothing() {
    by_the_page "$1" || { take_down; judged_from_now; return 1; }
    judged_from_now
    fault 'the nodes are started'
    each_host run start && until_true 60 owns 1 && load && until_true 20 on 1 quorumctl status && run look 1 && each_host unit_active
}
unit_active() { unit_is "$1" active; }
load_goes_on() { until_true "${1:-40}" grows "$(wc -l < "$room/acknowledged")"; }

# well_again N: host N is a standby, and the three see one another
well_again() {
    local other=$((1 + $1 % 3))
    until_true 90 unit_is "$1" active && until_true 40 sees_all "$other" && sleep 3
}
sees_all() { on "$1" sh -c 'cat /run/quorumd/node-*.json' | grep -q '"members":\[1,2,3\]'; }

# test_of NAME RESETS: that test on the host that holds: another one takes over, the host is reset so often by it, and is a standby then
test_of() {
    local who before
    who=$(owner) || return 1
    before=$(resets "$who")
    echo "-- $1 on host $who"
    run "$1" "$who" && until_true 60 another_owns "$who" && load_goes_on 60 && well_again "$who" || return 1
    [ $(($(resets "$who") - before)) = "$2" ] || { echo "host $who was reset $(($(resets "$who") - before)) times, not $2"; return 1; }
}

# test_stays NAME: that test on the host that holds, which goes on holding, and is not reset
test_stays() {
    local who before
    who=$(owner) || return 1
    before=$(resets "$who")
    echo "-- $1 on host $who"
    run "$1" "$who" && sleep 15 && owns "$who" && load_goes_on 40 && [ "$(resets "$who")" = "$before" ]
}

# full: rows are refused while the disk is full, and taken again afterwards; nobody is reset
full() {
    local who before
    who=$(owner) && before=$(wc -l < "$room/events") || return 1
    echo "-- test-full on host $who"
    run test-full "$who"
    sleep 15
    echo "rows acknowledged while the disk was full: a row says $(sql 'insert into rows values (-1)' && echo taken || echo refused)"
    on "$who" quorumd-resource status
    run test-full-end "$who" && load_goes_on 60 && [ "$(wc -l < "$room/events")" = "$before" ]
}

# power_cut: the power of all three is lost and comes back
power_cut() {
    local n
    echo '-- a power cut of all'
    for n in 1 2 3; do kill -KILL "$(lead "$n")"; done
    until_true 10 nobody_owns && until_true 120 owner && load_goes_on 60 && each_host well_again
}

# rebooted: the host that holds is rebooted: its node leaves in order, another one takes over, and it is a standby then
rebooted() {
    local who
    who=$(owner) || return 1
    echo "-- test-reboot on host $who"
    run test-reboot "$who"
    until_true 30 another_owns "$who" && load_goes_on 60 && well_again "$who" && said "$who" 'event=disarm ok=yes' -b -1 -u "quorumd@$who.service"
}

# one_by_one NAME: that block on each host, the one that holds last
one_by_one() {
    local n who
    who=$(owner) || return 1
    for n in 1 2 3; do [ "$n" = "$who" ] || { run "$1" "$n" && well_again "$n" || return 1; }; done
    run "$1" "$who" && until_true 60 owner && well_again "$who" && load_goes_on
}

# copied PATH: that file of host 1, on the others too
copied() {
    local n
    for n in 2 3; do cp -p "$room/host1$1" "$room/host$n$1" || return 1; done
}

# stop_all NAME: that block on a standby, on the host that holds, and on the other standby: the resource does not move
stop_all() {
    local who
    who=$(owner) || return 1
    run "$1" $((1 + who % 3)) && run "$1" "$who" && nobody_owns && run "$1" $((1 + (who + 1) % 3)) && nobody_owns
}

# anew WAY: a new image, while all nodes are off
anew() {
    echo '-- a new image'
    stop_all stop && run "${words[$1]}" new-image 1 && copied /etc/quorumd/key && each_host run start && until_true 60 owner && load_goes_on 60 &&
        on 1 quorumd list --image nbd:unix:/run/quorumd-disk/socket
}

# without_nodes: the database runs on host 2 by hand, and then in the cluster again
without_nodes() {
    echo '-- without nodes'
    stop_all off && run by-hand 2 && load_goes_on 60 && run by-hand-end 2 && each_host run start &&
        until_true 60 owner && load_goes_on 60
}

# another_machine: host 3 is lost, and another one takes its place, with the same disk
another_machine() {
    echo '-- another machine is node 3'
    printf '%032d\n' 3 > "$room/host3/etc/machine-id"
    kill -KILL "$(lead 3)"
    until_true 90 said 3 'quorumd/writer/02 is of machine' && run forget 1 && well_again 3
}

upgraded() {
    echo '-- a package installed anew'
    each_host run upgrade && each_host unit_active && one_by_one restart
}

# new_key: three rounds
new_key() {
    local round
    echo '-- a new key'
    run new-key 1 && copied /etc/quorumd/key.new || return 1
    for round in rotate-1 rotate-2 rotate-3; do one_by_one "$round" || return 1; done
    for n in 1 2 3; do on "$n" ls /etc/quorumd | grep -x key.new && return 1; done
    return 0
}

# ended: what each host saw, and that no row is lost
ended() {
    each_host run history && judge_rows
}

scene_page_device() {
    FIRMWARE=20 from_nothing device || return 1
    test_of test-move 0 && test_stays test-database && test_of test-hang 1 && test_of test-kill 1 && test_of test-cable 1 && test_of test-disk 1 &&
        test_stays test-server && full && rebooted && power_cut && anew device && without_nodes && ended
}

scene_page_servers() {
    FIRMWARE=20 from_nothing servers || return 1
    test_of test-kill 1 && test_of test-cable 1 && rebooted && new_key && ended
}

scene_page_etcd() {
    FIRMWARE=20 from_nothing etcd || return 1
    test_of test-kill 1 && test_of test-cable 1 && rebooted && another_machine && upgraded && ended
}
