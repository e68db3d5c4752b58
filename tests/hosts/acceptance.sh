# shellcheck shell=bash
# What bed.sh and scenes.sh set is used here.
# shellcheck disable=SC2154
# quorumd-acceptance on the three hosts with PostgreSQL: it is reached by nsenter in place of ssh, a plug is the end of the first process of a host, a cable its
# link. It judges by itself. Sourced by `containers`.

# acceptance_bed: PostgreSQL runs on host 1 and takes rows, and a plan of all that is at $room/plan
acceptance_bed() {
    database_on_store "$UNIT" && FIRMWARE=25 begun && acceptance_plan
}

# acceptance_plan [HOST..]: a plan of these hosts, or of all three, at $room/plan
acceptance_plan() {
    [ $# -gt 0 ] || set -- host1 host2 host3
    until_true 40 sql 'create table rows (number bigint primary key)' || return 1
    cat > "$room/reach" << END
#!/bin/bash
# a boot of a container has an id of its own once that is mounted: a look that began before has the id of this machine, and the next one would be at another boot
pid=\$(cat "$room/\$1.pid" 2> /dev/null) && first=\$(pgrep -P "\$pid" | head -n 1) && [ -n "\$first" ] &&
    grep -q ' /proc/sys/kernel/random/boot_id ' "/proc/\$first/mountinfo" 2> /dev/null || { echo "\$1 is off" >&2; exit 255; }
exec nsenter -t "\$first" -m -u -i -p -n --root env -i -C / PATH=/usr/sbin:/usr/bin:/sbin:/bin HOME=/root LANG=C.UTF-8 SYSTEMD_COLORS=0 sh -c "\$2"
END
    cat > "$room/pull" << END
#!/bin/bash
kill -9 \$(pgrep -P "\$(cat "$room/\$1.pid")")
END
    chmod 755 "$room/reach" "$room/pull"
    cat > "$room/plan" << END
reach = $room/reach {host}
hosts = $*
sign.address = ip -o address show | grep -q ' 192\.0\.2\.100/'
sign.store = grep -q ' /var/lib/postgresql ' /proc/mounts
sign.postgres = pgrep -u postgres -f '[b]in/postgres -D'
database = postgresql@15-main.service
write = timeout 3 ip netns exec $tag chroot $base /usr/lib/postgresql/15/bin/psql -h 192.0.2.100 -U postgres -qAtc "insert into rows values ({row})"
read = timeout 60 ip netns exec $tag chroot $base /usr/lib/postgresql/15/bin/psql -h 192.0.2.100 -U postgres -qAtc "select number from rows"
plug = $room/pull {host}
plug-back = true
cable = $room/reach {host} 'ip link set host0 down'
cable-back = true
stop = 15
start = 15
most-slow = ${ACCEPTANCE_SLOW:-4}
page = $room/page.md
END
}

# behind_servers: the disk image lies on a device that each host has behind a block server, as docs/MACHINES.md has it
behind_servers() {
    local n units
    dd if="$shared/disk" of="$room/image" conv=notrunc status=none || return 1
    for n in 1 2 3; do
        units=$room/host$n/etc/systemd/system
        mkdir -p "$units/quorumd@.service.d"
        block 'file /etc/systemd/system/quorumd-disk.service' | sed 's#/dev/mapper/quorumd#/srv/image#' > "$units/quorumd-disk.service"
        block 'file /etc/systemd/system/quorumd@.service.d/disk.conf' > "$units/quorumd@.service.d/disk.conf"
        sed -i 's#^IMAGE=.*#IMAGE=nbd:unix:/run/quorumd-disk/socket#' "$room/host$n/etc/quorumd/node-$n.env"
        in_root "$room/host$n" systemctl -q enable quorumd-disk.service || return 1
    done
}

# test_of_liar LIAR: the test that has to fail by it
test_of_liar() {
    case $1 in
    early_start) echo kill ;;
    late_feed) echo hang ;;
    no_watchdog) echo watchdog ;;
    lost_row) echo database ;;
    *) echo move ;;
    esac
}

# told: what the acceptance says, from standard input; the lie, where one is wanted, begins with the fault
told() {
    local line
    while IFS= read -r line; do
        echo "$line"
        [[ $line != 'the fault: '* ]] || fault "${line#*: }"
    done
}

# accepted: each test that fits containers passes
accepted() {
    local status tests=${ACCEPTANCE_TESTS-}
    [ -z "${QUORUMD_TEST_LIAR-}" ] || tests=$(test_of_liar "$QUORUMD_TEST_LIAR")
    # shellcheck disable=SC2086
    "$here/../../contrib/quorumd-acceptance" --yes watchdog,hang,kill,panic,reboot,disk,plug,cable,off "$room/plan" $tests | told
    status=${PIPESTATUS[0]}
    cat "$room/page.md"
    # panic, disk, server and arbiter have nothing here to be played on
    [ "$status" != 77 ] || grep -q '| not judged |' "$room/page.md" || status=0
    return "$status"
}

scene_acceptance() { acceptance_bed && accepted; }

# Three hosts of which one is a witness, as docs/MACHINES.md has it.
scene_acceptance_witness() {
    text_of '' 1 2 3 | sed '/nodeid: 3$/a \  standby: yes' | in_text && database_on_store "$UNIT" || return 1
    rm "$room/host3/etc/quorumd/resources.conf"
    echo 'AGENT=none' > "$room/host3/etc/quorumd/agent.env"
    FIRMWARE=25 begun && acceptance_plan || return 1
    echo 'witness = host3' >> "$room/plan"
    accepted
}

# Two hosts and their arbiter, which runs on host 3.
scene_acceptance_arbiter() {
    with_arbiter && database_on_store "$UNIT" || return 1
    FIRMWARE=25 power 1 && FIRMWARE=25 power 2 && until_true 60 owns 1 && until_true 40 has_answer && acceptance_plan host1 host2 || return 1
    echo 'arbiter = host3' >> "$room/plan"
    accepted
}

# A block server that is killed ends nothing, and one that is gone ends the owner alone.
scene_acceptance_servers() {
    behind_servers && acceptance_bed || return 1
    printf '%s\n' 'server = quorumd-disk.service' "disk = $room/reach {host} 'systemctl stop quorumd-disk.service'" 'disk-back = true' >> "$room/plan"
    "$here/../../contrib/quorumd-acceptance" --yes disk "$room/plan" server disk
    local status=$?
    cat "$room/page.md"
    return $status
}

# spoil_host2: what an operator may have left at fault on a host, a line each of what has to be red
spoil_host2() {
    local raw
    raw=$(losetup --find --show --sector-size 4096 "$room/image") && loops+=("$raw") && make_node "$room/host2/srv/raw" "$raw" || return 1
    on 2 sh -e << 'END'
echo another > /etc/quorumd/key
echo '# another' >> /etc/quorumd/corosync.conf
echo '# another' >> /etc/quorumd/resources.conf
sed -i /WATCHDOG_IS_NO_DEVICE/d /etc/quorumd/node-2.env
systemctl -q unmask postgresql.service
systemctl -q enable postgresql.service
echo auto > /etc/postgresql/15/main/start.conf
printf '[Service]\nExecStart=/bin/true\n[Install]\nWantedBy=multi-user.target\n' > /etc/systemd/system/unattended-upgrades.service
systemctl -q enable unattended-upgrades.service
echo 'APT::Periodic::Unattended-Upgrade "1";' > /etc/apt/apt.conf.d/20auto-upgrades
systemd-run -q qemu-nbd -f raw --cache=none --persistent --shared=0 -k /run/raw.sock /srv/raw
END
}
reds_of_host2='the key: not that of host1
corosync.conf: not that of host1
resources.conf: not that of host1
its watchdog is none: no time in /sys/class/watchdog
postgresql@15-main.service is started at boot: systemctl disable, and `manual` in start.conf
unattended upgrades restart the database: Unattended-Upgrade::Package-Blacklist has no postgresql-15, postgresql-common
qemu-nbd -f raw over sectors of 4096 bytes: /srv/raw: -f host_device, and an image @4096'

# Nothing is red on a right cluster, and each fault of a host by its name; then nothing is played.
scene_acceptance_red() {
    acceptance_bed || return 1
    "$here/../../contrib/quorumd-acceptance" --check "$room/plan" || return 1
    spoil_host2 || return 1
    ! "$here/../../contrib/quorumd-acceptance" "$room/plan" move > "$room/reds" || return 1
    cat "$room/reds"
    while IFS= read -r line; do
        grep -qxF "RED  host2: $line" "$room/reds" || { echo "not red: $line"; return 1; }
    done <<< "$reds_of_host2"
    [ "$(grep -c '^RED ' "$room/reds")" = "$(wc -l <<< "$reds_of_host2")" ] && tail -n 1 "$room/reds" | grep -q '^no test was played' && owns 1
}
