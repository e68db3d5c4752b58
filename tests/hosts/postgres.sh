# The scenes of PostgreSQL: its data lies on the disk that all hosts see, and a client outside the hosts writes a row after the other. Sourced by `containers`.

# database_on_store AGENT: PostgreSQL with its data on the shared disk is the resource, and its clients come from outside the hosts
database_on_store() {
    local n root etc
    # in a name space of its own: a container of another run that starts meanwhile would keep the mount, and the device busy, while it lives
    mkdir -p "$room/mnt"
    unshare --mount sh -ec 'mount "$1" "$2"; mv "$3/15" "$2/15"; chown --reference="$3" "$2"; umount "$2"' sh "${loops[1]}" "$room/mnt" "$room/host1/var/lib/postgresql" || return 1
    for n in 1 2 3; do
        root=$room/host$n
        etc=$root/etc/postgresql/15/main
        rm -rf "$root/var/lib/postgresql/15"
        echo manual > "$etc/start.conf"
        echo "listen_addresses = '*'" >> "$etc/postgresql.conf"
        echo 'host all all 192.0.2.0/24 trust' >> "$etc/pg_hba.conf"
        sed -i 's#directory = .*#directory = /var/lib/postgresql#; /^\[database\]/,$d' "$root/etc/quorumd/resources.conf"
        printf '[postgres]\n%s\nmonitor-interval = 2\n\n[database]\nagent = systemd:database.service\nmonitor-interval = 2\n' "$1" >> "$root/etc/quorumd/resources.conf"
    done
}

UNIT='agent = systemd:postgresql@15-main.service'
PGSQL='agent = ocf:heartbeat:pgsql
pgctl = /usr/lib/postgresql/15/bin/pg_ctl
psql = /usr/lib/postgresql/15/bin/psql
pgdata = /var/lib/postgresql/15/main
config = /etc/postgresql/15/main/postgresql.conf
socketdir = /var/run/postgresql
logfile = /var/log/postgresql/ocf.log'

# sql STATEMENT: a client of the cluster's address, who waits for no more than three seconds
sql() {
    timeout 3 ip netns exec "$tag" chroot "$base" /usr/lib/postgresql/15/bin/psql -h 192.0.2.100 -U postgres -qAtc "$1" 2> /dev/null
}

# write_rows: writes the numbers from 1 on, one commit each, some ten a second, and keeps those that were acknowledged, with the time of that
write_rows() {
    local number=0
    : > "$room/acknowledged"
    while [ ! -e "$room/enough" ]; do
        number=$((number + 1))
        ! sql "insert into rows values ($number)" || echo "$number $(date +%s%3N)" >> "$room/acknowledged"
        sleep 0.05
    done
}

# load: makes the table, and the writer that goes on until judge_rows
load() {
    rm -f "$room/enough"
    until_true 30 sql 'create table rows (number int primary key)' || return 1
    write_rows &
    writer=$!
    until_true 10 has_rows 5
}

has_rows() { [ "$(wc -l < "$room/acknowledged")" -ge "$1" ]; }
grows() { has_rows $(($1 + 5)); }

# writes_again SECONDS: the writer's rows are acknowledged again; says the longest time between two of them
writes_again() { until_true "$1" grows "$(wc -l < "$room/acknowledged")"; }

# judge_rows: no row is lost that was acknowledged
judge_rows() {
    stop_writer
    sql 'select number from rows' > "$room/found"
    "$here/../judge-rows" "$room/acknowledged" "$room/found"
}

# postgres_scene AGENT: no row is lost over kill -9 of the server and of the node, and a reboot; the address goes with it
postgres_scene() {
    local who
    database_on_store "$1" || return 1
    FIRMWARE=20 begun || return 1
    load || return 1
    on 1 quorumd-resource status
    on 1 sh -c 'kill -KILL $(head -n 1 /var/lib/postgresql/15/main/postmaster.pid)'
    until_true 30 said 1 'postgres: FAILED' || return 1
    writes_again 40 || return 1
    fault 'the node of host 1 is killed'
    on 1 systemctl kill --kill-whom=main -s KILL quorumd@1.service
    until_true 40 another_owns 1 || return 1
    who=$(owner)
    writes_again 40 || return 1
    on "$who" ip -4 -o addr show dev host0 | grep 192.0.2.100 || return 1
    until_true 60 unit_is 1 active || return 1
    on "$who" systemctl reboot
    until_true 40 another_owns "$who" || return 1
    writes_again 40 || return 1
    judge_rows
}

scene_postgres() { postgres_scene "$UNIT"; }
scene_pgsql() { postgres_scene "$PGSQL"; }

# installed_anew PACKAGE..: host 1 unpacks and configures these packages of the base anew, as an upgrade does, while it holds
installed_anew() {
    local name
    for name in "$@"; do cp "$base/var/cache/apt/archives/${name}_"*.deb "$room/host1/var/tmp/" || return 1; done
    on 1 sh -c 'dpkg -i --force-confold /var/tmp/*_*.deb'
}

# postmaster: the number of the first process of PostgreSQL of host 1
postmaster() { on 1 head -n 1 /var/lib/postgresql/15/main/postmaster.pid; }

# An upgrade of the system on the holder: the database goes on.
scene_system_upgraded() {
    local pid
    database_on_store "$UNIT" || return 1
    begun || return 1
    load || return 1
    pid=$(postmaster)
    fault 'libc6 and systemd of host 1 are installed anew'
    installed_anew libc6 systemd || return 1
    writes_again 10 || return 1
    sleep 15
    [ "$(postmaster)" = "$pid" ] && unit_is 1 active && not_reset 1 && judge_rows
}

# An upgrade of the database on the holder, in maintenance, as contrib/README.md says: its package starts it again, and nobody else does.
scene_database_upgraded() {
    local pid
    database_on_store "$UNIT" || return 1
    begun || return 1
    load || return 1
    pid=$(postmaster)
    fault 'PostgreSQL of host 1 is installed anew'
    on 1 quorumd-resource maintenance on || return 1
    installed_anew postgresql-15 || return 1
    on 1 systemctl start postgresql@15-main.service
    writes_again 20 || return 1
    on 1 quorumd-resource maintenance off || return 1
    sleep 10
    [ "$(postmaster)" != "$pid" ] && unit_is 1 active && not_reset 1 && judge_rows
}

# A new version of the package under nodes that run and a database that is written: nothing is restarted by it; then the standbys, and the
# holder last.
scene_upgrade() {
    local n
    database_on_store "$UNIT" || return 1
    begun || return 1
    load || return 1
    fault 'the package is installed anew'
    for n in 2 3 1; do
        cp "${QUORUMD_TEST_NEWER:-$package}" "$room/host$n/var/tmp/newer.deb"
        on "$n" dpkg -i --force-confold /var/tmp/newer.deb || return 1
        unit_is "$n" active || return 1
    done
    owns 1 || return 1
    for n in 2 3 1; do
        on "$n" systemctl restart "quorumd@$n.service" || return 1
        writes_again 40 || return 1
    done
    judge_rows && not_reset 1 && not_reset 2 && not_reset 3
}
