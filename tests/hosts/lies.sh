# shellcheck shell=bash
# What bed.sh sets is used here.
# shellcheck disable=SC2154,SC2034
# What a liar does on the hosts, and the scene that has to fail by it. Sourced by `containers`, which lies where QUORUMD_TEST_LIAR names one; `tests/liars`
# plays them all. No unproved program can be built, so what lies is what stands around the right one.
liars=(early_start:kill_node early_start:hang_node late_feed:hang_node second_mount:clean_stop stray_reset:clean_stop agent_goes_on:exit_message lost_row:postgres
    early_start:acceptance late_feed:acceptance second_mount:acceptance stray_reset:acceptance lost_row:acceptance no_watchdog:acceptance)

# The next host takes the address six seconds after the loss, as if msgwait were none.
lie_early_start() {
    {
        sleep 6
        on 2 ip address add 192.0.2.100/24 dev host0
    } > /dev/null 2>&1 &
}

# A standby mounts the shared file system and takes the address for three seconds.
lie_second_mount() {
    on 3 sh -c 'mkdir -p /srv/db && mount -o ro,noload /srv/store /srv/db && ip address add 192.0.2.100/24 dev host0
        sleep 3
        umount /srv/db; ip address del 192.0.2.100/24 dev host0' > /dev/null 2>&1
}

# Who answers the node of host 1 says `ok` to a stop at once, and its resources go on.
lie_agent_goes_on() {
    on 1 rm -f /run/quorumd/agent.sock
    on 1 systemd-socket-activate --listen=/run/quorumd/agent.sock --accept --inetd sh -c 'read -r asked; echo ok' > /dev/null 2>&1 &
    until_true 5 on 1 test -S /run/quorumd/agent.sock
}

# Each feed reaches the watchdog five seconds late: it is one of ten seconds from the boot on.
lie_late_feed() { :; }

# The watchdog of each host resets nothing.
lie_no_watchdog() { :; }

# A host that has nothing to do with it is reset.
lie_stray_reset() { kill -KILL "$(lead 3)"; }

# The database forgets a row that it acknowledged.
lie_lost_row() { until_true 30 sql 'delete from rows where number = (select min(number) from rows)'; }
