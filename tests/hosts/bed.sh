# The bed of containers: a base system, three hosts on it, their network, their watchdogs. Sourced by `containers`.

# what the hosts need beside the package: PostgreSQL, OCF agents, and what a disk image can lie behind
PACKAGES='resource-agents postgresql e2fsprogs libpam-systemd iputils-arping psmisc kmod qemu-utils etcd-server etcd-client nftables jq xxd'

# make_base: a Debian 12 with systemd and these packages, kept for the next run
make_base() {
    base=$cache/base
    [ "$(cat "$cache/complete" 2> /dev/null)" = "$PACKAGES" ] && return
    echo "containers: making a Debian in $cache: some minutes, once" >&2
    rm -rf "$cache"
    mkdir -p "$cache"
    # shellcheck disable=SC2086
    debootstrap --variant=minbase --include=systemd,systemd-sysv,dbus,iproute2,procps,python3 bookworm "$base" ${mirror:+"$mirror"} > "$cache/log" 2>&1 &&
        printf '#!/bin/sh\nexit 101\n' > "$base/usr/sbin/policy-rc.d" && chmod 755 "$base/usr/sbin/policy-rc.d" &&
        DEBIAN_FRONTEND=noninteractive chroot "$base" apt-get install --no-install-recommends -y $PACKAGES >> "$cache/log" 2>&1 &&
        rm "$base/usr/sbin/policy-rc.d" && echo "$PACKAGES" > "$cache/complete" || { tail "$cache/log" >&2; exit 1; }
}

in_root() { chroot "$1" env PATH=/usr/sbin:/usr/bin:/sbin:/bin DEBIAN_FRONTEND=noninteractive "${@:2}"; }

# install: the base with the package installed, which every host of the run stands on
install() {
    mkdir -p "$room/installed" "$room/work" "$room/root"
    mount -t overlay "$tag" -o "lowerdir=$base,upperdir=$room/installed,workdir=$room/work" "$room/root" || exit 1
    cp "$package" "$room/root/var/tmp/quorumd.deb"
    in_root "$room/root" dpkg -i /var/tmp/quorumd.deb > "$room/dpkg" 2>&1
    local status=$?
    umount "$room/root"
    [ "$status" = 0 ] || { cat "$room/dpkg"; exit 1; }
}

# text_of LINES N..: the settings text of these hosts, with these lines in its section `quorum`
text_of() {
    local n lines=$1
    shift
    echo 'nodelist {'
    for n in "$@"; do printf ' node {\n  nodeid: %s\n  ring0_addr: 192.0.2.%s\n }\n' "$n" "$n"; done
    printf '}\nquorum {\n provider: corosync_votequorum\n%s}\n' "${lines:+$lines$'\n'}"
}

# set_up: three hosts that are off, of one settings text, with the package installed
set_up() {
    local n conf=$room/corosync.conf
    rm -rf "$room"/host?.upper "$room"/host?.consoles "$shared"
    mkdir -p "$shared"
    : > "$shared/journal"
    : > "$room/events"
    : > "$room/signs"
    text_of '' 1 2 3 > "$conf"
    (umask 077 && head -c 32 /dev/urandom > "$room/key")
    rm -f "$shared/disk"
    # a disk for the resource's file system, which all hosts see
    rm -f "$room/store" "$room/image"
    truncate -s 256M "$room/store"
    mkfs.ext4 -q "$room/store"
    # and one for an image that lies behind a block server on each host
    truncate -s 4M "$room/image"
    ip netns add "$tag"
    ip -n "$tag" link add br0 type bridge
    ip -n "$tag" address add 192.0.2.254/24 dev br0
    ip -n "$tag" link set br0 up
    ip -n "$tag" link set lo up
    for n in 1 2 3; do
        # a loop device for each host: a cache of its own, as hosts have of a shared disk
        loops[n]=$(losetup --find --show "$room/store") && loops[n + 3]=$(losetup --find --show "$room/image") || exit 1
        mkdir -p "$room/host$n" "$room/host$n.upper" "$room/host$n.work" "$room/wd$n"
        mkfifo "$room/wd$n/watchdog"
        mount -t overlay "$tag-$n" -o "lowerdir=$room/installed:$base,upperdir=$room/host$n.upper,workdir=$room/host$n.work" "$room/host$n"
        fill_host "$n" "$room/host$n" || exit 1
    done
    chroot "$room/host1" /usr/sbin/quorumd create --image /var/tmp/disk < "$conf" > "$room/created" 2>&1 && mv "$room/host1/var/tmp/disk" "$shared/disk"
}

# make_node PATH DEVICE: the same device at that path
make_node() {
    mknod "$1" b $((0x$(stat -c %t "$2"))) $((0x$(stat -c %T "$2")))
}

# fill_host N ROOT: what an operator does on host N
fill_host() {
    local n=$1 root=$2
    echo "host$n" > "$root/etc/hostname"
    : > "$root/etc/machine-id"
    mkdir -p "$root/var/log/journal" "$root/srv/cluster" "$root/srv/watchdog" "$root/srv/db"
    make_node "$root/srv/store" "${loops[n]}"
    make_node "$root/srv/image" "${loops[n + 3]}"
    cp "$room/corosync.conf" "$room/key" "$root/etc/quorumd/"
    sed -e 's#^WATCHDOG=.*#WATCHDOG=/srv/watchdog/watchdog#' -e 's#^EDGE=.*#EDGE=--links /etc/quorumd/corosync.conf --key /etc/quorumd/key#' "$root/etc/quorumd/node.env" > "$root/etc/quorumd/node-$n.env"
    # no kernel watchdog in a container: the check of the package is told so
    echo 'WATCHDOG_IS_NO_DEVICE=yes' >> "$root/etc/quorumd/node-$n.env"
    cp "$here/database" "$root/usr/local/bin/"
    cp "$here/test-network.service" "$here/database.service" "$root/etc/systemd/system/"
    sed -i "s/@N@/$n/" "$root/etc/systemd/system/test-network.service" "$root/usr/local/bin/database"
    in_root "$root" systemctl -q enable test-network.service "quorumd@$n.service" || return 1
    in_root "$root" systemctl -q disable etcd.service || return 1
    in_root "$root" systemctl -q mask postgresql.service systemd-logind-varlink.socket e2scrub_reap.service || return 1
    [ -e "$root/usr/sbin/quorumd-resource" ] && cp "$here/resources.conf" "$root/etc/quorumd/resources.conf"
    return 0
}

# trees: the control groups in which systemd keeps its units: one hierarchy, or two of them where the first is of version 1
trees() {
    awk '$3 == "cgroup2" || ($3 == "cgroup" && $4 ~ /name=systemd/) { print $2 }' /proc/mounts
}

# in_group NAME COMMAND..: a control group of its own for each host, or their units would share theirs
in_group() {
    local tree
    for tree in $(trees); do
        mkdir -p "$tree/$1" && echo "$BASHPID" > "$tree/$1/cgroup.procs"
        [ ! -e "$tree/$1/cpu.weight" ] || echo 10000 > "$tree/$1/cpu.weight"
    done
    shift
    exec "$@"
}

# processors: the folder of the control groups that share the processors, where they are of version 1
processors() { awk '$3 == "cgroup" && $4 ~ /(^|,)cpu(,|$)/ { print $2; exit }' /proc/mounts; }

# come_first: the hosts get their processors before all else that this machine has to do: a node that is fed too late is reset, which is no failure
# of it. Priorities do not reach that far: each unit of a host is a session of its own, and a system that groups sessions weighs them alike.
come_first() {
    local tree
    tree=$(processors)
    [ -n "$tree" ] && mkdir "$tree/$tag" 2> /dev/null || return 0
    echo 262144 > "$tree/$tag/cpu.shares" # the most that a group can have
    # nodes run in real time, which such a group may do only where it is given a part of it
    [ ! -e "$tree/$tag/cpu.rt_runtime_us" ] || echo 150000 > "$tree/$tag/cpu.rt_runtime_us"
    echo $$ > "$tree/$tag/cgroup.procs"
}

# leave_group: what come_first made goes
leave_group() {
    local tree
    tree=$(processors)
    [ -n "$tree" ] && [ -d "$tree/$tag" ] || return 0
    echo $$ > "$tree/cgroup.procs"
    rmdir "$tree/$tag"
}

drop_groups() {
    local tree group
    for tree in $(trees); do
        for group in "$tree/$tag"-host?; do
            [ ! -d "$group" ] || find "$group" -depth -type d -exec rmdir {} \;
        done
    done
}

# device_time: the seconds of each watchdog: those of the image, and five more where a liar has each feed reach it so late
device_time() {
    local milliseconds=${TIMES%%,*}
    case ${QUORUMD_TEST_LIAR-} in
    late_feed) echo $((milliseconds / 1000 + 5)) ;;
    no_watchdog) echo 1000000 ;;
    *) echo $((milliseconds / 1000)) ;;
    esac
}

# plug_in LINK: that link of a host that boots is put on the bridge of the second network, once it is there
plug_in() {
    local round
    for ((round = 0; round < 100; round++)); do
        ! ip -n "$tag" link set "$1" master br1 up 2> /dev/null || return 0
        sleep 0.1
    done
}

# power N: lets host N run; a reset starts it again after the time of a firmware, a power-off does not
power() {
    local n=$1
    (
        while :; do
            binds=(--bind="$room/wd$n:/srv/watchdog")
            [ -e "$room/no-storage" ] || binds+=(--bind="$shared:/srv/cluster")
            [ -z "${SECOND_NETWORK-}" ] || { binds+=(--network-veth-extra="second$n:host1"); plug_in "second$n" & }
            python3 "$here/watchdog" "$room/wd$n/watchdog" "$room/host$n.pid" "$room/events" "host$n" "$(device_time)" &
            dog=$!
            in_group "$tag-host$n" nsenter --net="/run/netns/$tag" systemd-nspawn --quiet --register=no --keep-unit --directory="$room/host$n" --machine="$tag-host$n" --hostname="host$n" \
                --network-bridge=br0 "${binds[@]}" --boot systemd.log_target=journal > "$room/host$n.console" 2>&1 < /dev/null &
            echo $! > "$room/host$n.pid"
            wait $!
            status=$?
            kill "$dog" 2> /dev/null
            rm -f "$room/host$n.pid"
            cat "$room/host$n.console" >> "$room/host$n.consoles"
            how=reset
            [ "$status" != 0 ] || how=off
            printf '%s host%s %s\n' "$(date +%s.%3N)" "$n" "$how" >> "$room/events"
            [ "$how" = reset ] && [ ! -e "$room/ending" ] || break
            sleep "${FIRMWARE:-6}"
            [ ! -e "$room/ending" ] || break
        done
    ) &
    powered+=($!)
    look "$n" &
    powered+=($!)
}

# fault TEXT: the deed of the scene, from which its bounds count; a liar, where one is wanted, begins to lie with it
fault() {
    printf '%s scene fault %s\n' "$(date +%s.%3N)" "$*" >> "$room/events"
    [ -z "${QUORUMD_TEST_LIAR-}" ] || "lie_$QUORUMD_TEST_LIAR"
}

# keep_awake: a host that is switched off stops its processes before it ends them, and each nsenter stands still with its own. The host would never be off then, and
# whoever waits for that nsenter would wait for ever.
keep_awake() {
    while [ -d "$room" ]; do
        pkill -CONT --session 0 -x nsenter
        sleep 0.5
    done
}

# look N: which of its resources host N has, five times a second, by its own looking: the address, the file system, the database, each for itself
look() {
    local watcher
    while [ ! -e "$room/ending" ]; do
        on "$1" sh -c 'while :; do
            signs=
            ! ip -o address show | grep -q " 192\.0\.2\.100/" || signs=$signs,address
            ! grep -qE "^[^ ]+ (/srv/db|/var/lib/postgresql) " /proc/mounts || signs=$signs,store
            ! pgrep -f "^(/usr/bin/python3 /usr/local/bin/database|.*[b]in/postgres -D)" > /dev/null || signs=$signs,database
            echo "${signs:--}"
            sleep 0.15
        done' 2> /dev/null > >(note_signs "$1") &
        watcher=$!
        while kill -0 "$watcher" 2> /dev/null; do
            sleep 0.5
            [ ! -e "$room/ending" ] || kill "$watcher" 2> /dev/null
        done
        sleep 0.2
    done
}

# note_signs N: standard input has a line of signs of host N, each of which gets its time
note_signs() {
    local signs
    while read -r signs; do
        printf '%s host%s %s\n' "${EPOCHREALTIME/,/.}" "$1" "${signs#,}"
    done >> "$room/signs"
}

# judged_from_now: what hosts had before is not of the cluster: each of them has a database of its own until it is set up
judged_from_now() { : > "$room/signs"; }

# lead N: the first process of host N. A child that is not in a name space of its own yet is none: a command would run on this machine
lead() {
    local pid child space own
    pid=$(cat "$room/host$1.pid" 2> /dev/null) || return 1
    own=$(readlink /proc/self/ns/pid)
    for child in $(pgrep -P "$pid"); do
        space=$(readlink "/proc/$child/ns/pid")
        [ -z "$space" ] || [ "$space" = "$own" ] || { echo "$child"; return 0; }
    done
    return 1
}

# on N COMMAND..: runs a command on host N
on() {
    local first
    first=$(lead "$1") || return 99
    [ -n "$first" ] || return 99
    shift
    nsenter -t "$first" -m -u -i -p -n --root env -i -C / PATH=/usr/sbin:/usr/bin:/sbin:/bin HOME=/root LANG=C.UTF-8 SYSTEMD_COLORS=0 "$@"
}

# owner: the host that wrote into the journal within the last second
owner() {
    local when who now=${EPOCHREALTIME/[.,]/}
    read -r when who < <(tail -n 1 "$shared/journal") || return 1
    when=${when/./}
    [ -n "$who" ] && [ $((now / 1000 - when)) -lt 1000 ] && echo "$who"
}
owns() { [ "$(owner)" = "$1" ]; }
nobody_owns() { ! owner; }
another_owns() { local who; who=$(owner) && [ "$who" != "$1" ]; }

# overlaps: the moments at which two hosts ran the resource at once
overlaps() {
    awk '{ if ($2 != last && last != "" && ($2 in seen) && $1 - seen[$2] < 0.3) print "two owners:", last, $2, "at", $1; seen[$2] = $1; last = $2 }' "$shared/journal"
}

# owners: who owned after whom, and how long nobody did
owners() {
    awk '{ if ($2 != last && last != "") printf "%s after %s: %.1f s without an owner\n", $2, last, $1 - when; last = $2; when = $1 }' "$shared/journal"
}

# resets N: how often host N was reset
resets() { grep -c "host$1 reset" "$room/events"; }
is_off() { [ ! -e "$room/host$1.pid" ] && tail -n 1 <(grep "host$1 " "$room/events") | grep -q ' off$'; }

# stop_writer: the client that writes rows ends, also where its scene failed; a statement of it takes three seconds at most
stop_writer() {
    touch "$room/enough"
    [ -z "$writer" ] || wait "$writer" 2> /dev/null
    writer=
}

take_down() {
    local n pid
    touch "$room/ending"
    stop_writer
    for n in 1 2 3; do
        timeout 2 nsenter -t "$(lead "$n")" -m -p --root journalctl --sync 2> /dev/null
        pid=$(lead "$n") && [ -n "$pid" ] && kill -KILL "$pid" 2> /dev/null
    done
    for pid in "${powered[@]-}"; do
        [ -n "$pid" ] && wait "$pid" 2> /dev/null
    done
    powered=()
    for n in 1 2 3; do
        umount "$room/host$n" 2> /dev/null
    done
    for loop in "${loops[@]-}"; do
        [ -z "$loop" ] || losetup --detach "$loop"
    done
    loops=()
    drop_groups
    ip netns delete "$tag" 2> /dev/null
    SECOND_NETWORK=
    rm -f "$room/ending" "$room/no-storage"
    rm -rf "$room"/host?.work "$room"/wd?
    return 0
}

# between scenes the hosts are made anew; at the end nothing stays but the base
tear_down() {
    take_down
    umount "$room/root" 2> /dev/null
    rm -rf "$room"
    [ -z "$waker" ] || wait "$waker"
    leave_group
}
powered=()
loops=()
writer=
waker=
