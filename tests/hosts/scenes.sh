# The scenes. Each is a function that fails where something else came than should. Sourced by `containers`.
all_scenes='clean_stop exit_message off_message reboot_of_holder poweroff_of_holder kill_node looks hang_node cable_cut deaf_holder no_image other_image slow_stop reset_in_leave stuck_stop
by_hand supervisor_dies supervisor_hangs reexecuted reloaded slow_start quorum_back quorum_lost all_off all_rebooted late_disk late_network isolated run_full journal_hangs moves stop_while_starting edited start_mode resource_dies start_fails maintenance planned_handover third_handover turns_used renewed three_images confined
postgres pgsql system_upgraded database_upgraded upgrade purge pages setup setup_by_names page_device page_servers page_etcd acceptance acceptance_witness acceptance_arbiter acceptance_servers acceptance_red arbiter arbiter_by_name arbiter_removed
moves_by_name standby unfit all_standby witness two_node device device_cut last_man named one_network both_networks network_added late_second_network'

# begun [HOST]: the cluster is up and this host holds
begun() {
    local n
    for n in 1 2 3; do power "$n"; done
    until_true "${BEGIN:-60}" owns "${1:-1}"
}

# unit_is N WORD: the state of the unit of host N's node
unit_is() { [ "$(on "$1" systemctl is-active "quorumd@$1.service")" = "$2" ]; }
# has_booted N: before that systemd empties /tmp under whoever works there
has_booted() { until_true 60 on "$1" systemctl -q is-active multi-user.target; }
not_reset() { [ "$(resets "$1")" = 0 ] || { echo "host $1 was reset"; return 1; }; }
said() { on "$1" journalctl -o cat "${@:3}" | grep -e "$2"; }

# A clean stop of the unit lets the node leave: another host takes over, and this one stays up.
scene_clean_stop() {
    begun || return 1
    fault 'the unit of host 1 is stopped'
    on 1 systemctl stop quorumd@1.service || { echo "stop: $?"; return 1; }
    until_true 20 another_owns 1 || return 1
    sleep 3
    not_reset 1 || return 1
    on 1 quorumd list --image /srv/cluster/disk | grep '^node 1 .* clean '
}

# small_resource: the resources of host 1 are the service alone, whose stop ends within two loops also on a slow machine. A node that waits
# longer for a stop, which nothing began before, is missed and fenced by the others.
small_resource() {
    sed -i '/^\[address\]/,/^\[database\]/{/^\[database\]/!d}' "$room/host1/etc/quorumd/resources.conf"
}

# An exit hands over, and neither resets the host nor brings the node back.
scene_exit_message() {
    small_resource
    begun || return 1
    fault 'host 2 leaves an exit for host 1'
    on 2 quorumd message --image /srv/cluster/disk --id 1 --kind exit || return 1
    until_true 20 another_owns 1 || return 1
    sleep 3
    not_reset 1 && unit_is 1 inactive
}

# The message off switches the host off, and it stays off.
scene_off_message() {
    begun || return 1
    fault 'host 2 leaves an off for host 1'
    on 2 quorumd message --image /srv/cluster/disk --id 1 --kind off || return 1
    until_true 30 is_off 1 || return 1
    until_true 30 another_owns 1 || return 1
    sleep 8
    is_off 1 && not_reset 1
}

# A reboot of the host that holds: another takes over within seconds, and the host goes down in order and comes back as a standby.
scene_reboot_of_holder() {
    begun || return 1
    fault 'host 1 is rebooted'
    on 1 systemctl reboot
    until_true 20 another_owns 1 || { on 1 systemctl list-jobs; return 1; }
    until_true 60 unit_is 1 active || return 1
    said 1 'event=disarm ok=yes' -b -1 -u quorumd@1.service || return 1
    sleep 5
    until_true 3 another_owns 1
}

# A power-off of the host that holds is none that ends in a reset.
scene_poweroff_of_holder() {
    begun || return 1
    fault 'host 1 is switched off in order'
    on 1 systemctl poweroff
    until_true 20 another_owns 1 || return 1
    until_true 30 is_off 1 || return 1
    sleep 8
    is_off 1 && not_reset 1
}

# A killed node: its host is reset at once and says why, another takes over after msgwait, and it comes back as a standby.
scene_kill_node() {
    FIRMWARE=20 begun || return 1
    fault 'the node of host 1 is killed'
    on 1 systemctl kill --kill-whom=main -s KILL quorumd@1.service
    until_true 5 nobody_owns || return 1
    until_true 30 another_owns 1 || return 1
    until_true 60 unit_is 1 active || return 1
    said 1 'node 1 ended with killed' -b -1 || return 1
    sleep 5
    until_true 3 another_owns 1 && [ "$(resets 1)" = 1 ]
}

# is_page HOST WORDS: whether the page of that host has these words
is_page() { on "$1" grep -qsF "$2" /run/quorumd-page/index.html; }

# is_written_after COUNT: whether the page of host 2 was written more often than that
is_written_after() { [ "$(on 2 cat /run/quorumd-page/index.html.seen | wc -l)" -gt "$1" ]; }

# A host shows its cluster on a page that a timer writes, before and after a take-over; and what it packs for whoever helps has its journal and no key.
scene_looks() {
    local name
    FIRMWARE=20 begun || return 1
    on 1 systemctl enable --now quorumd-page.timer && on 2 systemctl enable --now quorumd-page.timer || return 1
    until_true 40 is_page 1 'holds the resource for ' || return 1
    until_true 40 is_page 2 '<h2>The last hour</h2>' || return 1
    fault 'the node of host 1 is killed'
    on 1 systemctl kill --kill-whom=main -s KILL quorumd@1.service
    until_true 30 another_owns 1 || return 1
    until_true 40 is_page 2 'node 1 was fenced by node 2' || return 1
    until_true 40 is_page 2 'holds the resource for ' || return 1
    # it is enabled, so it is written after the reset too
    until_true 60 unit_is 1 active || return 1
    until_true 40 is_page 1 'hears node 2' || return 1
    until_true 40 is_written_after "$(on 2 cat /run/quorumd-page/index.html.seen | wc -l)" || return 1
    [ "$(on 2 systemctl is-failed quorumd-page.service)" != failed ] || { on 2 journalctl -u quorumd-page; return 1; }
    on 2 quorumd-collect /root/host2.tar.gz && on 2 tar -C /root -xzf /root/host2.tar.gz || return 1
    on 2 grep -q 'node 2 fenced node 1' /root/host2/history || { on 2 cat /root/host2/README; return 1; }
    for name in settings/quorumd/corosync.conf status/text journal images/1/list images/1/check records/quorumd/node-2.json versions/packages; do
        on 2 test -s "/root/host2/$name" || { echo "the archive has no $name"; on 2 cat /root/host2/README; return 1; }
    done
    on 2 cmp -s /root/host2/settings/quorumd/corosync.conf /etc/quorumd/corosync.conf || return 1
    ! on 2 find /root/host2 -name 'key*' | grep . || return 1
    [ "$(resets 1)" = 1 ] && not_reset 2
}

# A node that hangs is fed no more: its watchdog resets the host.
scene_hang_node() {
    FIRMWARE=20 begun || return 1
    fault 'the node of host 1 stands still'
    on 1 systemctl kill --kill-whom=main -s STOP quorumd@1.service
    until_true 30 another_owns 1 || return 1
    grep 'host1 watchdog' "$room/events" && until_true 60 unit_is 1 active
}

# cut_link A B: what host A sends comes to host B no more, also after a reset of either
cut_link() {
    ip netns exec "$tag" nft "add table bridge cuts; add chain bridge cuts forward { type filter hook forward priority 0; };
        add rule bridge cuts forward ip saddr 192.0.2.$1 ip daddr 192.0.2.$2 drop"
}

# The cable between two hosts is cut for good: the standby of them is reset once, and stays off the majority; the holder goes on.
scene_cable_cut() {
    local pid
    begun || return 1
    pid=$(database 1)
    fault 'the cable between hosts 1 and 2 is cut for good'
    cut_link 1 2 && cut_link 2 1 || return 1
    until_true 30 resets 2 || return 1
    sleep 45
    [ "$(resets 2) $(resets 3)" = '1 0' ] && unit_is 2 active && is_as_before "$pid"
}

# The holder hears nobody any more, and is heard: it stops and is reset, another host owns after msgwait, and once it is back it waits.
scene_deaf_holder() {
    FIRMWARE=20 begun || return 1
    fault 'host 1 hears nobody, for good'
    cut_link 2 1 && cut_link 3 1 || return 1
    until_true 60 another_owns 1 || return 1
    until_true 60 unit_is 1 active || return 1
    sleep 30
    [ "$(resets 1) $(resets 2) $(resets 3)" = '1 0 0' ] && another_owns 1
}

# A host that boots without the image stays up, and its unit fails.
scene_no_image() {
    echo 'WAIT=5' >> "$room/host3/etc/quorumd/node-3.env"
    touch "$room/no-storage"
    fault 'host 3 boots without the image'
    power 3
    until_true 40 unit_is 3 failed || return 1
    sleep 10
    not_reset 3 && said 3 'no such image'
}

# Nor is a host reset whose image is that of another cluster.
scene_other_image() {
    printf 'nodelist {\n node {\n nodeid: 3\n }\n}\nquorum {\n provider: corosync_votequorum\n}\n' > "$room/host3/etc/quorumd/corosync.conf"
    fault 'host 3 boots with an image of another cluster'
    power 3
    until_true 40 unit_is 3 failed || return 1
    sleep 10
    not_reset 3
}

# slowly N: the database of host N takes 9 seconds to stop, which is longer than the watchdog's time
slowly() {
    printf '[Service]\nExecStop=/bin/sleep 9\nTimeoutStopSec=20\n' | on "$1" sh -c 'mkdir -p /run/systemd/system/database.service.d; cat > /run/systemd/system/database.service.d/slow.conf; systemctl daemon-reload'
}

# A stop that is planned may take longer than the watchdog's time.
scene_slow_stop() {
    begun || return 1
    slowly 1
    fault 'the unit of host 1 is stopped, and its database takes nine seconds'
    on 1 systemctl stop quorumd@1.service || return 1
    until_true 20 another_owns 1 || return 1
    not_reset 1
}

# A reset that comes while a node leaves is not passed over: the node dies of it, with the database that it stops.
scene_reset_in_leave() {
    FIRMWARE=20 begun || return 1
    slowly 1
    on 1 systemctl stop --no-block quorumd@1.service
    until_true 5 said 1 'database: stop' -u quorumd-resource.service || return 1
    fault 'host 2 leaves a reset for host 1, which leaves'
    on 2 quorumd message --image /srv/cluster/disk --id 1 --kind reset || return 1
    until_true 40 another_owns 1 || return 1
    until_true 60 unit_is 1 active || return 1
    said 1 'fault SelfReset reset' -b -1 || return 1
    sleep 5
    another_owns 1 && [ "$(resets 1)" = 1 ]
}

# A resource that does not stop is ended with its host.
scene_stuck_stop() {
    # a process of the host keeps the file system, and the agent may not kill it
    sed -i '/^\[store\]/a force_unmount = false\nstop-timeout = 20' "$room/host1/etc/quorumd/resources.conf"
    FIRMWARE=20 begun || return 1
    on 1 sh -c 'cd /srv/db && exec sleep 1000' &
    sleep 1
    fault 'the unit of host 1 is stopped, and a resource does not stop'
    on 1 systemctl stop --no-block quorumd@1.service
    until_true 150 another_owns 1 || return 1
    [ "$(resets 1)" = 1 ]
}

# again PID: whether the database of host 1 runs again, as another process
again() {
    local pid
    pid=$(on 1 systemctl show -P MainPID database.service) && [ "$pid" != 0 ] && [ "$pid" != "$1" ] && owns 1
}

kill_database() { on 1 systemctl kill -s KILL database.service; }

# A resource that dies is started again, and after three times handed over; the node comes back as a standby.
scene_resource_dies() {
    local round pid
    begun || return 1
    for round in 1 2 3; do
        pid=$(on 1 systemctl show -P MainPID database.service)
        kill_database
        until_true 15 again "$pid" || return 1
    done
    fault 'the database of host 1 is killed for the fourth time'
    kill_database
    until_true 30 another_owns 1 || return 1
    said 1 'this node is to leave (database' -u quorumd-resource.service || return 1
    said 1 'hands over' -u quorumd-handover.service || return 1
    until_true 60 unit_is 1 active || return 1
    sleep 5
    until_true 3 another_owns 1 && not_reset 1
}

# The supervisor of a standby starts nothing, is not stopped by hand, and a move is refused there; nor is a second node of one host started.
scene_by_hand() {
    begun || return 1
    fault 'an operator does by hand what is refused'
    on 2 systemctl start quorumd-resource.service || return 1
    on 2 systemctl stop quorumd-resource.service && return 1
    on 2 systemctl start quorumd-move.service && return 1
    said 2 'this node does not hold them' -u quorumd-move.service || return 1
    cp "$room/host2/etc/quorumd/node-2.env" "$room/host2/etc/quorumd/node-3.env"
    on 2 systemctl start quorumd@3.service && return 1
    said 2 'is a node of this host' || return 1
    owns 1 && unit_is 2 active && not_reset 2
}

# database N: the number of the process of the database of host N
database() { on "$1" systemctl show -P MainPID database.service; }

# is_as_before PID: host 1 holds, and its database is the process of before
is_as_before() { owns 1 && [ "$(database 1)" = "$1" ] && not_reset 1; }

# Where the process that looks after the resources dies they go on, and the next one looks after them.
scene_supervisor_dies() {
    local pid
    begun || return 1
    pid=$(database 1)
    fault 'the supervisor of host 1 is killed'
    on 1 systemctl kill --kill-whom=main -s KILL quorumd-resource.service
    sleep 10
    is_as_before "$pid" || return 1
    on 1 systemctl kill --kill-whom=main -s KILL quorumd-resource.service
    kill_database
    until_true 30 again "$pid" && not_reset 1
}

# One that hangs is ended by systemd, and the next one looks after what runs.
scene_supervisor_hangs() {
    local pid
    begun || return 1
    pid=$(database 1)
    fault 'the supervisor of host 1 stands still'
    on 1 systemctl kill --kill-whom=main -s STOP quorumd-resource.service
    sleep 45
    is_as_before "$pid" || return 1
    on 1 cat /run/quorumd/resource.json | grep '"state": "runs"' || return 1
    kill_database
    until_true 25 again "$pid" && not_reset 1
}

# systemd that is executed again, and a unit that is reloaded, under a monitor: nothing is started again.
scene_reexecuted() {
    local pid
    begun || return 1
    pid=$(database 1)
    fault 'systemd of host 1 is executed again, eight times'
    for _ in 1 2 3 4 5 6 7 8; do
        on 1 systemctl daemon-reexec
        sleep 5
    done
    is_as_before "$pid"
}

scene_reloaded() {
    local pid
    printf '[Service]\nExecReload=/bin/sleep 1\n' | on_disk reload.conf
    begun || return 1
    pid=$(database 1)
    fault 'the database of host 1 is reloaded, eight times'
    for _ in 1 2 3 4 5 6 7 8; do
        on 1 systemctl reload database.service
        sleep 2
    done
    is_as_before "$pid"
}

# on_disk NAME: standard input is a drop-in of the database's unit on each host
on_disk() {
    local n text
    text=$(cat)
    for n in 1 2 3; do
        mkdir -p "$room/host$n/etc/systemd/system/database.service.d"
        printf '%s\n' "$text" > "$room/host$n/etc/systemd/system/database.service.d/$1"
    done
}

# A start of 75 seconds, on every host: systemd judges how long a start may take.
scene_slow_start() {
    printf '[Service]\nTimeoutStartSec=0\nExecStartPre=/bin/sh -c "[ ! -e /srv/cluster/slow ] || sleep 75"\n' | on_disk slow.conf
    FIRMWARE=22 begun || return 1
    touch "$shared/slow"
    fault 'the node of host 1 is killed, and a start takes 75 s'
    on 1 systemctl kill --kill-whom=main -s KILL quorumd@1.service
    until_true 5 nobody_owns || return 1
    until_true 150 another_owns 1
}

# The quorum is lost while both standbys are reset, and is back before the database, which takes twelve seconds to stop, is down: the holder goes on.
scene_quorum_back() {
    local n
    printf '[Service]\nExecStop=/bin/sleep 12\nTimeoutStopSec=90\n' | on_disk slow.conf
    FIRMWARE=4 begun || return 1
    fault 'the nodes of hosts 2 and 3 are killed'
    for n in 2 3; do on "$n" systemctl kill --kill-whom=main -s KILL "quorumd@$n.service" & done
    sleep 50
    until_true 40 owner && not_reset 1
}

# The quorum is lost for longer than the database, which takes sixty seconds, needs to stop: the node is fed until it is down, nobody is reset, and once the
# others are back one of the hosts owns again.
scene_quorum_lost() {
    local n
    printf '[Service]\nExecStop=/bin/sleep 60\nTimeoutStopSec=90\n' | on_disk slow.conf
    FIRMWARE=75 begun || return 1
    fault 'the nodes of hosts 2 and 3 are killed, and their hosts stay away for longer than the stop takes'
    for n in 2 3; do on "$n" systemctl kill --kill-whom=main -s KILL "quorumd@$n.service" & done
    until_true 80 said 1 'event=stop ok=yes' -u quorumd@1.service || return 1
    until_true 5 nobody_owns || return 1
    until_true 90 owner && not_reset 1 && unit_is 1 active
}

# The file system of the holder's state and sockets is full for a while: what cannot be written is lost, and nothing else.
scene_run_full() {
    local pid
    begun || return 1
    pid=$(database 1)
    fault 'nothing more can be written to /run of host 1'
    on 1 sh -c 'mount -o remount,size=32M /run; cat /dev/zero > /run/filler; ! echo x > /run/more' || return 1
    sleep 15
    is_as_before "$pid" || return 1
    on 1 rm /run/filler /run/more
    sleep 3
    on 1 quorumd-resource status || return 1
    kill_database
    until_true 25 again "$pid" && not_reset 1
}

# What takes the lines of the node and of the supervisor stands still for a minute.
scene_journal_hangs() {
    local pid
    begun || return 1
    pid=$(database 1)
    fault 'the journal of host 1 stands still'
    on 1 systemctl kill --kill-whom=main -s STOP systemd-journald.service
    sleep 60
    on 1 systemctl kill --kill-whom=main -s CONT systemd-journald.service
    is_as_before "$pid" || return 1
    kill_database
    until_true 25 again "$pid" && not_reset 1
}

# All hosts are switched off at once, with a database that takes thirty seconds to stop: in order, they stay off, and each has left clean.
scene_all_off() {
    local n
    printf '[Service]\nExecStop=/bin/sleep 30\nTimeoutStopSec=90\n' | on_disk slow.conf
    FIRMWARE=25 begun || return 1
    fault 'all hosts are switched off in order'
    for n in 1 2 3; do on "$n" systemctl poweroff & done
    for n in 1 2 3; do until_true 90 is_off "$n" || return 1; done
    for n in 1 2 3; do not_reset "$n" || return 1; done
    cp "$shared/disk" "$room/host1/var/tmp/" || return 1
    [ "$(in_root "$room/host1" quorumd list --image /var/tmp/disk | grep -c ' clean ')" = 3 ]
}

# All hosts are rebooted at once: each leaves clean, and one of them owns again.
scene_all_rebooted() {
    local n
    printf '[Service]\nExecStop=/bin/sleep 12\nTimeoutStopSec=90\n' | on_disk slow.conf
    FIRMWARE=10 begun || return 1
    fault 'all hosts are rebooted'
    for n in 1 2 3; do on "$n" systemctl reboot & done
    until_true 60 nobody_owns || return 1
    for n in 1 2 3; do until_true 90 unit_is "$n" active || return 1; done
    for n in 1 2 3; do said "$n" 'event=disarm ok=yes' -b -1 -u "quorumd@$n.service" || return 1; done
    until_true 40 owner && [ "$(resets 1) $(resets 2) $(resets 3)" = '1 1 1' ]
}

# The disk image is there twenty seconds after the hosts booted: the nodes wait for it.
scene_late_disk() {
    local n
    mv "$shared/disk" "$shared/disk.away"
    for n in 1 2 3; do power "$n"; done
    until_true 40 on 3 systemctl is-active basic.target
    fault 'the image is not there yet'
    sleep 20
    mv "$shared/disk.away" "$shared/disk"
    until_true 60 owner || return 1
    for n in 1 2 3; do until_true 30 unit_is "$n" active && not_reset "$n" || return 1; done
}

# The network of a standby comes twenty seconds after the others: it is a member then, and nobody is reset.
scene_late_network() {
    mkdir -p "$room/host3/etc/systemd/system/test-network.service.d"
    printf '[Service]\nExecStartPre=/bin/sleep 20\n' > "$room/host3/etc/systemd/system/test-network.service.d/late.conf"
    begun || return 1
    fault 'the network of host 3 is not there yet'
    until_true 60 unit_is 3 active || return 1
    until_true 20 said 1 'event=view .*members=1,2,3 ' -u quorumd@1.service || return 1
    owns 1 && not_reset 1 && not_reset 2 && not_reset 3
}

# The holder goes to rescue.target: another host takes over, and this one is not reset.
scene_isolated() {
    FIRMWARE=30 begun || return 1
    fault 'host 1 goes to rescue.target'
    on 1 systemctl isolate --no-block rescue.target
    until_true 30 another_owns 1 && not_reset 1
}

# An operator moves the resources five times, or as often as QUORUMD_TEST_MOVES says: no node is switched off by it.
scene_moves() {
    local who round
    begun || return 1
    fault 'an operator moves the resources again and again'
    for round in $(seq "${QUORUMD_TEST_MOVES:-5}"); do
        who=$(owner) || return 1
        on "$who" systemctl start --no-block quorumd-move.service
        until_true 30 another_owns "$who" || return 1
        until_true 60 unit_is "$who" active || return 1
        sleep 3
    done
    for who in 1 2 3; do not_reset "$who" || return 1; done
}

# A stop while a resource still waits for its start: it is called off, and does not come later.
scene_stop_while_starting() {
    local n
    mkdir -p "$room/host1/etc/systemd/system/database.service.d"
    printf '[Unit]\nWants=slow.service\nAfter=slow.service\n' > "$room/host1/etc/systemd/system/database.service.d/slow.conf"
    printf '[Service]\nType=oneshot\nExecStart=/bin/sleep 12\n' > "$room/host1/etc/systemd/system/slow.service"
    for n in 1 2 3; do power "$n"; done
    until_true 60 said 1 'database: start' -u quorumd-resource.service || return 1
    fault 'the unit of host 1 is stopped while a resource waits for its start'
    on 1 systemctl stop quorumd@1.service || return 1
    until_true 20 another_owns 1 || return 1
    sleep 14
    ! grep ' 1$' "$shared/journal" && not_reset 1
}

# What was started is stopped, also where the file does not name it any more.
scene_edited() {
    begun || return 1
    sed -i '/^\[database\]/,$d' "$room/host1/etc/quorumd/resources.conf"
    fault 'the file of the resources is another one, and the unit of host 1 is stopped'
    on 1 systemctl stop quorumd@1.service || return 1
    until_true 20 another_owns 1 || return 1
    [ "$(on 1 systemctl is-active database.service)" = inactive ] && not_reset 1
}

# Start mode 1 and a mailbox that it refuses: said before anything is armed.
scene_start_mode() {
    sed -i 's/^OPTIONS=.*/OPTIONS=--start-mode 1/' "$room/host3/etc/quorumd/node-3.env"
    FIRMWARE=1 begun || return 1
    until_true 20 unit_is 3 active || return 1
    fault 'the mailbox of node 3 holds a reset, and it starts in mode 1'
    on 3 systemctl stop quorumd@3.service || return 1
    on 1 quorumd message --image /srv/cluster/disk --id 3 --kind reset || return 1
    on 3 systemctl start quorumd@3.service && return 1
    said 3 'start mode 1' && not_reset 3
}

# A resource that does not start is handed over.
scene_start_fails() {
    local n
    rm "$room/host1/usr/local/bin/database"
    for n in 1 2 3; do power "$n"; done
    until_true 60 another_owns 1 || return 1
    until_true 60 unit_is 1 active || return 1
    not_reset 1
}

# In maintenance nothing is started again, and after it is.
scene_maintenance() {
    begun || return 1
    fault 'host 1 is in maintenance, and its database is killed'
    on 1 quorumd-resource maintenance on || return 1
    kill_database
    until_true 5 nobody_owns || return 1
    sleep 8
    nobody_owns || return 1
    on 1 systemctl start database.service
    until_true 5 owns 1 || return 1
    on 1 systemctl stop database.service
    on 1 quorumd-resource maintenance off || return 1
    until_true 25 owns 1 || return 1
    not_reset 1
}

# An operator moves the resources.
scene_planned_handover() {
    begun || return 1
    fault 'an operator moves the resources'
    on 1 systemctl start --no-block quorumd-move.service || return 1
    until_true 20 another_owns 1 || return 1
    until_true 60 unit_is 1 active || return 1
    sleep 5
    until_true 3 another_owns 1 && not_reset 1
}

# After the third hand-over within an hour the node stays off, and says so.
scene_third_handover() {
    begun || return 1
    on 1 sh -c 'now=$(cut -d . -f 1 /proc/uptime); printf "%s\n" "$now" "$now" > /run/quorumd/handovers'
    fault 'the third hand-over of host 1 within an hour'
    on 1 systemctl start quorumd-handover.service && return 1
    until_true 20 another_owns 1 || return 1
    said 1 'stays off' -u quorumd-handover.service || return 1
    unit_is 1 inactive && not_reset 1
}

# A node whose turns are used up leaves and is started again.
scene_turns_used() {
    local n
    sed -i '$a LEAVE=300' "$room/host1/etc/quorumd/node-1.env"
    small_resource
    for n in 1 2 3; do power "$n"; done
    until_true 60 owns 1 || return 1
    fault 'the turns of node 1 run out'
    until_true 60 said 1 'left after its turns' || return 1
    until_true 20 owner || return 1
    until_true 20 unit_is 1 active || return 1
    not_reset 1
}

# A node is started anew in good time before its turns are used up.
scene_renewed() {
    local pid
    mkdir -p "$room/host1/etc/systemd/system/quorumd-renew@1.timer.d"
    printf '[Timer]\nOnActiveSec=\nOnActiveSec=20s\nRandomizedDelaySec=0\nAccuracySec=1s\n' > "$room/host1/etc/systemd/system/quorumd-renew@1.timer.d/soon.conf"
    begun || return 1
    pid=$(on 1 systemctl show -P MainPID quorumd@1.service)
    until_true 40 said 1 'event=disarm ok=yes' -u quorumd@1.service || return 1
    until_true 20 owner || return 1
    until_true 20 unit_is 1 active || return 1
    [ "$(on 1 systemctl show -P MainPID quorumd@1.service)" != "$pid" ] && not_reset 1
}

# The same on three images, of which one is lost under a holder that then leaves.
scene_three_images() {
    local n
    for n in 1 2 3; do
        cp "$shared/disk" "$shared/disk.$n"
        printf 'COMMAND=node3\nIMAGE=/srv/cluster/disk.1,/srv/cluster/disk.2,/srv/cluster/disk.3\n' >> "$room/host$n/etc/quorumd/node-$n.env"
    done
    begun || return 1
    rm "$shared/disk.1"
    fault 'one image of three is gone, and the unit of host 1 is stopped'
    on 1 systemctl stop quorumd@1.service || return 1
    until_true 20 another_owns 1 || return 1
    not_reset 1 && unit_is 1 inactive || return 1
    on 1 systemctl start quorumd@1.service && unit_is 1 active
}

# What the node may do, and when it runs.
scene_confined() {
    local pid
    begun || return 1
    pid=$(on 1 systemctl show -P MainPID quorumd@1.service)
    on 1 grep -E '^(CapEff|CapBnd|NoNewPrivs|Seccomp):' "/proc/$pid/status"
    on 1 chrt -p "$pid"
    on 1 ionice -p "$pid"
    on 1 grep -q '^CapEff:[[:space:]]*0*$' "/proc/$pid/status" && on 1 grep -q '^Seccomp:[[:space:]]*2' "/proc/$pid/status" &&
        on 1 chrt -p "$pid" | grep -q SCHED_RR && on 1 cat "/proc/$pid/oom_score_adj" &&
        on 1 journalctl -o cat QUORUMD_NODE=1 | grep -q 'event=start ok=yes'
}

# The package is not removed under a node, and a purge leaves nothing.
scene_purge() {
    begun || return 1
    if on 3 dpkg --purge quorumd; then echo 'purged under a node'; return 1; fi
    on 3 systemctl stop quorumd@3.service
    on 3 dpkg --purge quorumd || return 1
    on 3 find /etc /usr /var/lib -name '*quorumd*' -not -path '/var/lib/dpkg/*' | grep . && return 1
    owns 1 && not_reset 3
}

# The examples of the pages of the package, as they stand there, beside a node of the host; nothing is written into the package.
scene_pages() {
    local pages
    begun || return 1
    cp "$here/../parts/package.py" "$shared/"
    pages=(README.md docs/{README,NIGHT,STATUS,HOST,IMAGE,QUORUM,SETTINGS}.md docs/dev/{SAFETY,FORMATS}.md contrib/README.md
        examples/{incidents,live}/README.md)
    on 1 sh -c 'cd "$(mktemp -d)" && python3 -B /srv/cluster/package.py /usr/share/quorumd "$@"' sh "${pages[@]}" || return 1
    on 1 dpkg --verify quorumd | grep -v ' /etc/' && return 1
    not_reset 1
}

# One command makes a host a member.
scene_setup() {
    local n
    cp "$room/corosync.conf" "$room/key" "$shared/"
    rm "$shared/disk"
    for n in 1 2 3; do
        rm -f "$room/host$n/etc/quorumd/node-$n.env" "$room/host$n/etc/quorumd/corosync.conf" "$room/host$n/etc/quorumd/key"
        power "$n"
    done
    for n in 1 2 3; do has_booted "$n" || return 1; done
    for n in 1 2 3; do
        create=()
        [ "$n" != 1 ] || create=(--create)
        on "$n" quorumd-setup /srv/cluster/corosync.conf --image /srv/cluster/disk --key /srv/cluster/key --watchdog /srv/watchdog/watchdog "${create[@]}" || return 1
        on "$n" sh -c "echo WATCHDOG_IS_NO_DEVICE=yes >> /etc/quorumd/node-$n.env"
    done
    for n in 1 2 3; do
        on "$n" systemctl start --no-block "quorumd@$n.service" || return 1
    done
    until_true 30 owner && on 1 cat /etc/systemd/system/quorumd@1.service.d/setup.conf
}

# bare N: host N as a package alone leaves it, with the names of the hosts, and off
bare() {
    local number
    rm -f "$room/host$1/etc/quorumd/node-$1.env" "$room/host$1/etc/quorumd/corosync.conf" "$room/host$1/etc/quorumd/key"
    for number in 1 2 3; do echo "192.0.2.$number host$number"; done >> "$room/host$1/etc/hosts"
}

# set_up_host N WORD..: what a new operator says on host N
set_up_host() {
    local n=$1
    shift
    on "$n" quorumd-setup /srv/cluster/corosync.conf --image /srv/cluster/disk --watchdog /srv/watchdog/watchdog "$@" || return 1
    on "$n" sh -c "echo WATCHDOG_IS_NO_DEVICE=yes >> /etc/quorumd/node-$n.env"
}

# A cluster of hosts by their names: the first one makes the key and the image, each has the same text after it, and the holder says that all is well.
scene_setup_by_names() {
    local n sums
    rm "$shared/disk"
    sed 's/192\.0\.2\./host/' "$room/corosync.conf" > "$shared/corosync.conf"
    for n in 1 2 3; do bare "$n" && power "$n"; done
    for n in 1 2 3; do has_booted "$n" || return 1; done
    # another host first, which has no key yet
    set_up_host 2 && return 1
    set_up_host 1 --create || return 1
    on 1 cp /etc/quorumd/key /srv/cluster/key
    for n in 2 3; do set_up_host "$n" --key /srv/cluster/key || return 1; done
    sums=$(for n in 1 2 3; do on "$n" sha256sum /etc/quorumd/corosync.conf; done | sort -u | wc -l)
    [ "$sums" = 1 ] || { echo 'the texts of the hosts differ'; return 1; }
    on 1 grep -A 1 'ring0_addr: 192.0.2.1$' /etc/quorumd/corosync.conf || return 1
    for n in 1 2 3; do on "$n" systemctl enable --now --no-block "quorumd@$n.service" || return 1; done
    until_true 30 owns 1 || return 1
    until_true 20 on 1 sh -c 'quorumctl status /run/quorumd/node-*.json' || return 1
    on 1 sh -c 'quorumctl status /run/quorumd/node-*.json'
    for n in 1 2 3; do not_reset "$n" || return 1; done
}
