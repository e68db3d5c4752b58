# shellcheck shell=bash
# What bed.sh and scenes.sh set is used here.
# shellcheck disable=SC2154
# The arbiter's units on host 3, which is no member there: hosts 1 and 2 stay off, and the bed polls as node 1. Sourced by `containers`.

# device_text FILE [HOST-LINE..]: a text of nodes 1 and 2 beside a quorum device, with these lines in its `net`, if any
device_text() {
    local file=$1
    shift
    {
        echo 'nodelist {'
        printf ' node {\n  nodeid: %s\n  ring0_addr: 192.0.2.%s\n }\n' 1 1 2 2
        printf '}\nquorum {\n provider: corosync_votequorum\n device {\n  model: net\n  votes: 1\n'
        [ $# = 0 ] || printf '  net {\n'
        [ $# = 0 ] || printf '   %s\n' "$@"
        [ $# = 0 ] || echo '  }'
        printf ' }\n}\n'
    } > "$file"
}

# named NAME PORT [LINE..]: the files of the arbiter NAME on host 3, whose text has these lines in its `net`
named() {
    local folder=$room/host3/etc/quorumd/arbiter/$1 port=$2
    shift 2
    mkdir -p "$folder"
    device_text "$folder/corosync.conf" "$@"
    cp "$room/key" "$folder/key"
    echo "PORT=$port" > "$folder/arbiter.env"
}

# host_3_alone: host 3 runs, without a node; the bed has the address of node 1
host_3_alone() {
    ip -n "$tag" address add 192.0.2.1/32 dev br0
    bare 3
    power 3
    has_booted 3
}

# answers SECONDS FOLDER PORT: what the arbiter of that text and key answers to node 1 for so long
answers() { ip netns exec "$tag" "$here/ask_arbiter" "$2" 192.0.2.3 "$3" "$1"; }

# arbiter_pid NAME: the process of that unit
arbiter_pid() { on 3 systemctl show -P MainPID "$1"; }
runs_anew() { local pid; pid=$(arbiter_pid "$1") && [ "$pid" != 0 ] && [ "$pid" != "$2" ]; }

# is_confined PID: it is of a user of its own, without a right that a root has
is_confined() {
    on 3 ps -o user:32=,args= -p "$1"
    [ "$(on 3 ps -o uid= -p "$1")" -ge 61184 ] && on 3 grep -q '^CapEff:[[:space:]]*0*$' "/proc/$1/status" &&
        on 3 grep -q '^NoNewPrivs:[[:space:]]*1' "/proc/$1/status" && on 3 grep -q '^Seccomp:[[:space:]]*2' "/proc/$1/status"
}

# does_not_run NAME LINE: that arbiter says this line, and does not run
does_not_run() {
    on 3 systemctl start "quorumd-arbiter@$1.service"
    until_true 10 said 3 "$2" -u "quorumd-arbiter@$1.service" || return 1
    until_true 5 on 3 systemctl is-failed "quorumd-arbiter@$1.service"
}

# By quorumd-setup: a user of its own reads the key, says no for a lease and then yes, and is back with a lease after a kill.
scene_arbiter() {
    local pid
    device_text "$shared/corosync.conf" 'host: host3'
    cp "$room/key" "$shared/key"
    host_3_alone || return 1
    on 3 systemd-analyze verify --man=no /lib/systemd/system/quorumd-arbiter.service /lib/systemd/system/quorumd-arbiter@.service || return 1
    on 3 quorumd-setup /srv/cluster/corosync.conf --arbiter --key /srv/cluster/key || return 1
    on 3 systemctl enable --now quorumd-arbiter.service || return 1
    until_true 10 said 3 'event=arbiter-open lease=12244 limit=2000' -u quorumd-arbiter.service || return 1
    pid=$(arbiter_pid quorumd-arbiter.service)
    is_confined "$pid" || return 1
    [ "$(answers 4 "$room/host3/etc/quorumd" 7400) $(answers 14 "$room/host3/etc/quorumd" 7400)" = 'no no yes' ] || return 1
    fault 'the arbiter is killed'
    on 3 systemctl kill -s KILL quorumd-arbiter.service
    until_true 5 runs_anew quorumd-arbiter.service "$pid" || return 1
    [ "$(answers 14 "$room/host3/etc/quorumd" 7400)" = 'no yes' ] || return 1
    on 3 setpriv --reuid=nobody --clear-groups cat /run/quorumd-arbiter/status.json || return 1
    on 3 systemctl reboot
    until_true 60 resets 3 || return 1
    until_true 40 said 3 'event=arbiter-open' -b -u quorumd-arbiter.service || return 1
    [ "$(answers 14 "$room/host3/etc/quorumd" 7400)" = 'no yes' ]
}

# Two by name on one host, each with its own port, text and key, beside some that are refused: each says its line, and is not started again; one whose port is in
# use is.
scene_arbiter_by_name() {
    local name
    named one 7500 'host: 192.0.2.3'
    named two 7600 'host: 192.0.2.3' 'port: 7700'
    named taken 7668 'host: 192.0.2.3' 'port: 7700'
    named no-device-host 7800
    named no-address 7800 'host: third'
    named no-key 7800 'host: 192.0.2.3'
    rm "$room/host3/etc/quorumd/arbiter/no-key/key"
    named short-key 7800 'host: 192.0.2.3'
    echo short > "$room/host3/etc/quorumd/arbiter/short-key/key"
    named no-text 7800 'host: 192.0.2.3'
    echo 'quorum {' > "$room/host3/etc/quorumd/arbiter/no-text/corosync.conf"
    named no-device 7800
    printf 'nodelist {\n node {\n  nodeid: 1\n  ring0_addr: 192.0.2.1\n }\n}\n' > "$room/host3/etc/quorumd/arbiter/no-device/corosync.conf"
    host_3_alone || return 1
    for name in one two; do
        on 3 systemctl enable --now "quorumd-arbiter@$name.service" || return 1
        until_true 10 said 3 'event=arbiter-open lease=12244' -u "quorumd-arbiter@$name.service" || return 1
        is_confined "$(arbiter_pid "quorumd-arbiter@$name.service")" || return 1
        on 3 cat "/run/quorumd-arbiter-$name/status.json" || return 1
    done
    fault 'the others are started'
    on 3 systemctl start quorumd-arbiter@no-key.service && return 1
    does_not_run no-device-host 'conf: device: no host' || return 1
    does_not_run no-address 'conf: device: third is no address' || return 1
    does_not_run short-key 'key: 6 bytes, a key has 32 to 4096' || return 1
    does_not_run no-device 'conf: device: no host' || return 1
    does_not_run no-text 'conf: BadConf Unclosed' || return 1
    [[ $(answers 14 "$room/host3/etc/quorumd/arbiter/one" 7500) == *yes ]] && on 3 systemctl is-active quorumd-arbiter@one.service quorumd-arbiter@two.service || return 1
    # a port that another one has is free later
    on 3 systemctl start quorumd-arbiter@taken.service
    until_true 10 said 3 'Address already in use' -u quorumd-arbiter@taken.service || return 1
    on 3 systemctl stop quorumd-arbiter@two.service
    until_true 10 said 3 'event=arbiter-open' -u quorumd-arbiter@taken.service
}

# The package installed anew leaves an arbiter running, and a purge ends it and leaves nothing.
scene_arbiter_removed() {
    local pid
    named one 7500 'host: 192.0.2.3'
    host_3_alone || return 1
    on 3 systemctl enable --now quorumd-arbiter@one.service || return 1
    until_true 10 said 3 'event=arbiter-open' -u quorumd-arbiter@one.service || return 1
    pid=$(arbiter_pid quorumd-arbiter@one.service)
    fault 'the package is installed anew, and then purged'
    cp "${QUORUMD_TEST_NEWER:-$package}" "$room/host3/var/tmp/newer.deb"
    on 3 dpkg -i --force-confold /var/tmp/newer.deb | grep 'quorumd-arbiter@one.service goes on' || return 1
    [ "$(arbiter_pid quorumd-arbiter@one.service)" = "$pid" ] || { echo 'the arbiter was started anew'; return 1; }
    on 3 dpkg --purge quorumd || return 1
    on 3 pgrep -af 'quorumd.* arbiter' && return 1
    ! on 3 find /etc /usr /var/lib -name '*quorumd*' -not -path '/var/lib/dpkg/*' | grep .
}
