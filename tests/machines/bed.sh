# shellcheck shell=bash
# What `machines` and scenes.sh set is used here, and the other way round.
# shellcheck disable=SC2154,SC2034
# The bed of machines: a kernel and a root for them, their network, their disks, and the servers of those. Sourced by `machines`.

# of the image: watchdog, msgwait, loop, read limit, feed delay. README.md says why they are longer than the usual ones
TIMES=${QUORUMD_TEST_TIMES:-8000,16000,1500,3000,1000}
WATCHDOG=$((${TIMES%%,*} / 1000))
# KVM where the processor has it. Some clouds have a /dev/kvm that boots only kernels made for it: there QEMU translates
ACCEL=${QUORUMD_TEST_ACCEL:-$(if [ -w /dev/kvm ] && grep -qwE 'vmx|svm' /proc/cpuinfo; then echo kvm; else echo tcg,tb-size=64; fi)}
FILE_MODULES='crc16 crc32c_generic mbcache jbd2 ext4' # of machines with a database
MODULES='watchdog virtio_ring virtio virtio_pci_legacy_dev virtio_pci_modern_dev virtio_pci failover net_failover virtio_net virtio_blk i6300esb'

# the commands of the block servers and the options of the watchdog are those of the page for operators
page=$here/../../docs/MACHINES.md
. "$here/../page.bash"
. "$here/../waiting.bash"

# server_words UNIT: the command of that unit of the page
server_words() { block "file /etc/systemd/system/$1" | sed -n 's|^ExecStart=/usr/bin/||p'; }

# make_kernel: Debian's kernel and the drivers that the machines need; kept for the next run
make_kernel() {
    [ -e "$cache/complete" ] && [ -n "$(find "$cache/tree" -name ext4.ko)" ] && return
    local name
    rm -rf "$cache"
    mkdir -p "$cache/tree"
    name=$(apt-cache depends linux-image-amd64 | sed -n 's/^ *Depends: //p' | head -n 1)
    (cd "$cache" && apt-get download -o APT::Sandbox::User=root "$name" > log 2>&1) &&
        dpkg-deb --fsys-tarfile "$cache"/*.deb | tar x -C "$cache/tree" --wildcards './boot/vmlinuz-*' './lib/modules/*/kernel/drivers/virtio/*' \
            './lib/modules/*/kernel/drivers/block/virtio_blk.ko' './lib/modules/*/kernel/drivers/net/virtio_net.ko' \
            './lib/modules/*/kernel/drivers/net/net_failover.ko' './lib/modules/*/kernel/net/core/failover.ko' './lib/modules/*/kernel/drivers/watchdog/*' \
            './lib/modules/*/kernel/fs/ext4/*' './lib/modules/*/kernel/fs/jbd2/*' './lib/modules/*/kernel/fs/mbcache.ko' './lib/modules/*/kernel/lib/crc16.ko' \
            './lib/modules/*/kernel/crypto/crc32c_generic.ko' &&
        unpack_kernel "$cache"/tree/boot/vmlinuz-* "$cache/vmlinux" && rm "$cache"/*.deb && touch "$cache/complete" && return
    echo "machines: no kernel: $cache/log" >&2
    exit 1
}

# unpack_kernel PACKED KERNEL: the kernel itself, out of the file that unpacks itself: QEMU starts it at once, and a translated one need not unpack
unpack_kernel() {
    local at
    while IFS=: read -r at _; do
        tail -c +$((at + 1)) "$1" 2> /dev/null | xz -dc > "$2" 2> /dev/null
        [ "$(head -c 4 "$2" | tail -c 3)" = ELF ] && return
    done < <(LC_ALL=C grep -abo $'\xfd7zXZ' "$1")
    return 1
}

# make_python: what machines with a supervisor have besides: Python, the supervisor, and the agents of what its group runs
make_python() {
    local root=$room/python name
    [ ! -e "$root" ] || return 0
    mkdir -p "$root/bin" "$root/lib" "$root/lib64" "$root/usr/lib" "$root/q/ocf/resource.d/t"
    cp -L /usr/bin/python3 "$root/bin/python3" && cp -a /usr/lib/python3.11 "$root/usr/lib/" || return 1
    (cd "$root/usr/lib/python3.11" && rm -rf test idlelib lib2to3 ensurepip pydoc_data turtledemo tkinter distutils unittest asyncio config-3.11-* dist-packages)
    cp "$here/../../contrib/quorumd-resource" "$here"/../../contrib/*.py "$here/held" "$here/signs" "$root/q/" && cp "$asker" "$root/bin/quorumctl" || return 1
    for name in $(ldd "$root/bin/python3" "$root/bin/quorumctl" "$root"/usr/lib/python3.11/lib-dynload/_ctypes.*.so | grep -o '/[^ ]*' | grep -v ':$' | sort -u); do
        case $name in */ld-linux*) ;; *) cp -L "$name" "$root/lib/" ;; esac
    done
    printf '#!/bin/sh\nexit 0\n' > "$root/bin/systemctl"
    printf '[file]\nagent = ocf:t:File\n' > "$root/q/resources.supervised"
    printf '[%s]\nagent = ocf:t:%s\nmonitor-interval = 2\n' address Address store Store database Database > "$root/q/resources.database"
    echo AGENT=group > "$root/q/agent.env"
    cp "$here"/ocf/* "$root/q/ocf/resource.d/t/"
    chmod 755 "$root/bin/systemctl" "$root"/q/ocf/resource.d/t/* "$root/q/held"
}

# make_root: what a machine boots on: busybox, the drivers, the program, a block server and a relay
make_root() {
    local root=$room/root name
    mkdir -p "$root/bin" "$root/lib" "$root/lib64" "$root/mod" "$root/dev"
    cp "$(command -v busybox)" "$root/bin/busybox" && cp "$here/init" "$root/init" || exit 1
    cp "$program" "$root/bin/quorumd" && cp "$(command -v qemu-nbd)" "$(command -v socat)" "$root/bin/" || exit 1
    echo "$MODULES" > "$root/modules"
    server_words quorumd-disk.service | sed 's|/run/quorumd-disk/socket|/run/disk.sock|; s|/dev/mapper/quorumd|/dev/vda|' > "$root/server" &&
        block 'file /etc/modprobe.d/quorumd.conf' | sed -n 's/^options i6300esb //p' > "$root/watchdog" && [ -s "$root/server" ] && [ -s "$root/watchdog" ] || exit 1
    echo "$FILE_MODULES" > "$root/file_modules"
    for name in $MODULES $FILE_MODULES; do
        cp "$(find "$cache/tree" -name "$name.ko" | head -n 1)" "$root/mod/" || exit 1
    done
    for name in $(ldd "$root/bin/quorumd" "$root/bin/qemu-nbd" "$root/bin/socat" | grep -o '/[^ ]*' | grep -v ':$' | sort -u); do
        case $name in */ld-linux*) cp -L "$name" "$root/lib64/" ;; *) cp -L "$name" "$root/lib/" ;; esac
    done
}

# inside COMMAND..: in the network of the machines
inside() { ip netns exec "$tag" "$@"; }

# quickly COMMAND..: the same, in the place of this shell, before whatever else this host has to do
quickly() { exec nice -n -15 ip netns exec "$tag" setsid sh -c 'echo -15 2> /dev/null > /proc/self/autogroup; exec "$@"' sh "$@"; }
note() { printf '%s scene note %s\n' "$(date +%s.%3N)" "$*" >> "$room/events"; }

# fault TEXT: the deed of the scene, from which its bounds count; a liar, where one is wanted, begins to lie with it
fault() {
    printf '%s scene fault %s\n' "$(date +%s.%3N)" "$*" >> "$room/events"
    [ -z "${QUORUMD_TEST_LIAR-}" ] || "lie_$QUORUMD_TEST_LIAR"
}

# set_up WAY: three machines that are off, their network, and a disk made in that way: nbd, three, etcd. With ARBITER the third one is the arbiter of the
# two others, and with ARBITER=2 there is a fourth one with the same address. With DATABASE the resource is PostgreSQL: database.sh
set_up() {
    way=$1
    numbers=(1 2 3)
    [ "${ARBITER-}" != 2 ] || numbers=(1 2 3 4)
    : > "$room/events"
    rm -f "$room"/*.log
    make_settings
    make_network
    "disk_$way" || { echo "no disk: $way"; return 1; }
    [ -z "${DATABASE-}" ] || data_disk || { echo 'no data'; return 1; }
    pack_root
    local number
    for number in "${numbers[@]}"; do
        qemu_words "$number" 1 > "$room/qemu.$number"
    done
    mkfifo "$room/commands"
    quickly "$here/hypervisor" "$room" < "$room/commands" > "$room/hypervisor.log" 2>&1 &
    hypervisor=$!
    exec 7> "$room/commands"
}

# with DEVICE a quorum device of so many votes, for which nobody speaks; with FENCE so many milliseconds before a node is reset
make_settings() {
    local number nodes=(1 2 3)
    [ -z "${ARBITER-}" ] || nodes=(1 2)
    {
        echo 'nodelist {'
        for number in "${nodes[@]}"; do printf ' node {\n  nodeid: %s\n  ring0_addr: 10.7.0.%s\n%s }\n' "$number" "$number" "${FENCE:+  fence_delay: $FENCE$'\n'}"; done
        printf '}\nquorum {\n provider: corosync_votequorum\n'
        [ -z "${DEVICE-}" ] || printf ' device {\n  model: net\n  votes: %s\n }\n' "$DEVICE"
        [ -z "${ARBITER-}" ] || printf ' device {\n  model: net\n  votes: 1\n  timeout: 10000\n  net {\n   host: 10.7.0.3\n  }\n }\n'
        printf '}\n'
    } > "$room/conf"
    (umask 077 && head -c 32 /dev/urandom > "$room/key")
}

# the network: a bridge with a port for each machine, and this host at 10.7.0.254
make_network() {
    local number
    ip netns add "$tag" && ip -n "$tag" link set lo up && ip -n "$tag" link add br0 type bridge && ip -n "$tag" address add 10.7.0.254/24 dev br0 &&
        ip -n "$tag" link set br0 up || exit 1
    for number in "${numbers[@]}"; do
        ip -n "$tag" tuntap add "t$number" mode tap && ip -n "$tag" link set "t$number" master br0 && ip -n "$tag" link set "t$number" up || exit 1
    done
    [ -z "${ARBITER-}" ] || relayed
}

# relayed: what passes between machine 3 and the bridge goes through a relay, which has its commands from $room/passing
relayed() {
    ip -n "$tag" link set t3 nomaster && ip -n "$tag" link add r3 type veth peer name b3 && ip -n "$tag" link set b3 master br0 &&
        ip -n "$tag" link set b3 up && ip -n "$tag" link set r3 up || exit 1
    mkfifo "$room/passing"
    quickly "$here/relay" t3 r3 < "$room/passing" > "$room/relay.log" 2>&1 &
    servers[9]=$!
    disown
    exec 6> "$room/passing"
}

create() { inside "$program" create --image "$1" --timing "$TIMES" < "$room/conf"; }

# one disk that all machines share, and in each of them a block server over it
disk_nbd() {
    image=nbd:unix:/run/disk.sock${STRIDE-}
    truncate -s 4M "$room/disk"
    looked_at=("$room/disk${STRIDE-}")
    create "$room/disk${STRIDE-}"
}

# three block servers, each with a disk of its own, which no machine has
disk_three() {
    local number
    image=
    looked_at=()
    for number in 0 1 2; do
        truncate -s 4M "$room/disk.$number"
        create "$room/disk.$number" || return 1
        serve "$number"
        image=$image${image:+,}nbd:10.7.0.254:1080$number
        looked_at+=("$room/disk.$number")
    done
}

# serve NUMBER: the block server of that number begins
serve() {
    local words
    read -ra words < <(server_words quorumd-server.service | sed "s|--port=10809|--bind=10.7.0.254 --port=1080$1|; s|/var/lib/quorumd-image|$room/disk.$1|")
    quickly "${words[@]}" > "$room/server.$1.log" 2>&1 &
    servers[$1]=$!
    disown
}

# an etcd of three members beside the machines, of which each machine reaches one through its own loopback address
disk_etcd() {
    local number
    image=etcd:127.0.0.1:2379/cluster
    looked_at=("etcd:127.0.0.1:2371/cluster")
    for number in 1 2 3; do
        member "$number"
    done
    until_true 30 inside env ETCDCTL_API=3 etcdctl --endpoints 127.0.0.1:2371 endpoint health || return 1
    create "etcd:127.0.0.1:2371/cluster"
}

# member NUMBER: that member of etcd begins, or goes on with what it had
member() {
    local all="m1=http://127.0.0.1:2381,m2=http://127.0.0.1:2382,m3=http://127.0.0.1:2383"
    quickly etcd --pre-vote --name "m$1" --data-dir "$room/member.$1" --listen-peer-urls "http://127.0.0.1:238$1" \
        --initial-advertise-peer-urls "http://127.0.0.1:238$1" --initial-cluster "$all" --initial-cluster-state new \
        --listen-client-urls "http://127.0.0.1:237$1,http://10.7.0.254:237$1" --advertise-client-urls "http://127.0.0.1:237$1" > "$room/member.$1.log" 2>&1 &
    servers[$1]=$!
    disown
}

# leader: the number of the member that leads
leader() {
    local number
    for number in 1 2 3; do
        if inside env ETCDCTL_API=3 etcdctl --endpoints "127.0.0.1:237$number" endpoint status 2> /dev/null | grep -q ', true, '; then echo "$number"; return; fi
    done
    return 1
}

pack_root() {
    cp "$room/conf" "$room/key" "$room/root/"
    chmod 400 "$room/root/key"
    (cd "$room/root" && find . | busybox cpio -o -H newc 2> /dev/null) > "$room/initrd"
    [ -z "${ARBITER-}${DATABASE-}" ] || { make_python && (cd "$room/python" && find . | busybox cpio -o -H newc 2> /dev/null) >> "$room/initrd"; }
}

# qemu_words NUMBER START: the words of QEMU for that machine, one a line. Its node starts at once where START is 1, else when it is told
qemu_words() {
    local number=$1 port sectors=512 seconds=$WATCHDOG address=$1 role=node
    [ -z "${DATABASE-}" ] || role=database
    [ -z "${ARBITER-}" ] || role=supervised
    [ -z "${ARBITER-}" ] || [ "$number" -lt 3 ] || { address=3; role=arbiter; }
    [ -z "${STRIDE-}${LONG-}" ] || sectors=4096
    [ "$number" != "${WRONG-0}" ] || seconds=30
    printf '%s\n' qemu-system-x86_64 -machine pc -accel "$ACCEL" -cpu max -m 256 -smp 1 -nodefaults -no-user-config -display none -no-reboot \
        -kernel "$cache/vmlinux" -initrd "$room/initrd" -append \
        "console=ttyS0 quiet panic=0 clocksource=hpet tsc=unstable no_timer_check lab.id=$number lab.way=$way lab.watchdog=$seconds lab.image=$image lab.start=$2 lab.address=$address lab.role=$role lab.liar=${QUORUMD_TEST_LIAR-none}" \
        -device i6300esb -action watchdog=reset \
        -netdev "tap,id=net,ifname=t$number,script=no,downscript=no" -device "virtio-net-pci,netdev=net,mac=52:54:00:07:00:0$number,romfile=${ARBITER:+,csum=off}"
    for port in console orders signs; do
        printf '%s\n' -serial "unix:$room/$port.$number"
    done
    printf '%s\n' -qmp "unix:$room/qmp.$number"
    [ "$way" != nbd ] || [ "$role" = arbiter ] || printf '%s\n' -drive "if=none,id=shared,file=$room/disk,format=raw,cache=none,file.locking=off" \
        -device "virtio-blk-pci,id=disk,drive=shared,share-rw=on,logical_block_size=$sectors,physical_block_size=$sectors"
    [ "$role" != database ] || data_words
}

# tell COMMAND..: a command for the hypervisor
tell() { echo "$*" >&7; }
order() { tell order "$@"; }

# owner: the machine that signed within the last second
owner() {
    local when who now=${EPOCHREALTIME/[.,]/}
    read -r when who _ < <(grep ' sign ' "$room/events" | tail -n 1) || return 1
    when=${when/./}
    [ -n "$who" ] && [ $((now / 1000 - when)) -lt 1000 ] && echo "$who"
}
owns() { [ "$(owner)" = "$1" ]; }

# holding: the machine that signed last, and for which holding of its boot
holding() {
    local who number
    read -r _ who _ number _ < <(grep ' sign ' "$room/events" | tail -n 1) && echo "$who $number"
}
nobody_owns() { ! owner; }
another_owns() { local who; who=$(owner) && [ "$who" != "$1" ]; }

# saw N TEXT: machine N said it; said_times N TEXT COUNT: so often; did N WHAT: that became of it
saw() { grep -q -- "^[0-9.]* $1 console .*$2" "$room/events"; }
said_times() { [ "$(grep -c -- "^[0-9.]* $1 console .*$2" "$room/events")" -ge "$3" ]; }
did() { grep -q "^[0-9.]* $1 $2\$" "$room/events"; }
resets() { grep -c "^[0-9.]* $1 reset\$" "$room/events"; }
boots() { [ "$(grep -c "^[0-9.]* $1 console machine: up" "$room/events")" -ge "$2" ]; }

# resets_are A B C: how often each machine was reset
resets_are() {
    [ "$(resets 1) $(resets 2) $(resets 3)" = "$*" ] || { echo "resets: $(resets 1) $(resets 2) $(resets 3), not $*"; return 1; }
}

# looked: what `list` says of each image now
looked() {
    local word
    for word in "${looked_at[@]}"; do inside "$program" list --image "$word"; done
}

keep() {
    rm -rf "$1"
    mkdir -p "$1" && cp "$room"/events "$room"/said "$room"/judged "$room"/journal "$1/"
}

take_down() {
    local pid
    [ -z "${hypervisor-}" ] || { tell end; exec 7>&- 6>&-; wait "$hypervisor" 2> /dev/null; }
    hypervisor=
    rm -f "$room/loaded"
    for pid in "${servers[@]-}"; do
        [ -z "$pid" ] || kill -KILL "$pid" 2> /dev/null
    done
    servers=()
    ip netns delete "$tag" 2> /dev/null
    rm -rf "$room"/qemu.? "$room"/console.? "$room"/orders.? "$room"/signs.? "$room"/qmp.? "$room/commands" "$room/passing" "$room/saved" "$room"/disk* "$room"/member.? "$room/data" "$room/data-root"
    return 0
}

tear_down() {
    take_down
    rm -rf "$room"
}
hypervisor=
servers=()
looked_at=()
numbers=(1 2 3)
