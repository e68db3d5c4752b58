# quorumd-setup, without root: what it writes, and what it refuses, in a folder that plays /etc. Nothing is written over, and where something is
# refused nothing is written.
. "$TOP/tests/expect.sh"

mkdir calls etc etc/quorumd
ln -s "$QUORUMD" calls/quorumd
ln -s "$QUORUMCTL" calls/quorumctl
printf '#!/bin/sh\nexit 0\n' > calls/systemctl
printf '#!/bin/sh\necho beta\n' > calls/hostname
printf '#!/bin/sh\necho "2: eth0 inet 192.0.2.1/24 brd 192.0.2.255"\n' > calls/ip
cat > calls/getent << 'END'
#!/bin/sh
case $2 in
beta.example) echo '127.0.1.1 STREAM beta.example'; echo '192.0.2.8 STREAM' ;;
gamma.example) echo '192.0.2.9 STREAM gamma.example' ;;
lone.example) echo '127.0.1.1 STREAM lone.example' ;;
*) exit 2 ;;
esac
END
chmod 755 calls/systemctl calls/hostname calls/ip calls/getent
export PATH=$PWD/calls:$PATH QUORUMD_ETC=$PWD/etc QUORUMD_HELPERS=$TOP/packaging
cp "$TOP/packaging/node.env" etc/quorumd/
node() {
    printf ' node {\n  nodeid: %s\n  name: %s\n  ring0_addr: %s\n }\n' "$@"
}
{ echo 'nodelist {'; node 1 alpha 192.0.2.7; node 2 beta 192.0.2.8; node 3 gamma 192.0.2.9; echo '}'; } > three.conf
{ echo 'nodelist {'; node 1 alpha 192.0.2.1; node 2 beta 192.0.2.8; echo '}'; } > both.conf
{ echo 'nodelist {'; node 1 alpha 192.0.2.7; echo '}'; } > none.conf
(umask 077; head -c 32 /dev/zero > key)

# setup STATUS 'LAST LINE' WORD..: what it answers; the last line is of both outputs
setup() {
    local status=$1 line=$2 got=0
    shift 2
    "$TOP/packaging/quorumd-setup" "$@" > said 2>&1 < /dev/null || got=$?
    line=${line//HERE/$PWD}
    same "$*: $got $(tail -n 1 said)" "$*: $status $line"
}
written() {
    (cd etc && find . -type f | sort | xargs)
}
usage='usage: quorumd-setup CONF [--image IMAGE[,IMAGE,IMAGE] | --arbiter] [--key FILE | --no-key] [--id N] [--watchdog DEVICE] [--port Q] [--create]'
disk=$PWD/disk

# words
setup 2 "$usage"
same "$(head -n 1 said)" 'quorumd-setup: no corosync.conf: the text of the cluster stands first'
for words in three.conf '--image /d' 'three.conf --image' 'three.conf --image d' 'three.conf --image /d,/e' 'three.conf --image /d,/e,/f,/g' 'three.conf --image /d,,/f' \
    'three.conf --image /d --id 0' 'three.conf --image /d --id x' 'three.conf --image /d --id 99999999999' 'three.conf --image /d --port 80' \
    'three.conf --image /d --watchdog dog' 'three.conf --image /d;e' 'three.conf --image nbd:' 'three.conf --image /d,nbd:x,e' 'three.conf --image ftp:x' 'three.conf --image /d --watchdog nbd:x' 'three.conf --image /d other' 'three.conf --image /d --id' \
    'three.conf --image /d --key k --no-key' 'three.conf --arbiter --image /d' 'three.conf --arbiter --create' 'three.conf --arbiter --no-key' \
    'three.conf --arbiter --id 1' 'three.conf --arbiter --port 80'; do
    # shellcheck disable=SC2086
    setup 2 "$usage" $words
done
setup 2 "$usage" three.conf --image "/a b"
# the settings text, and the id of this host in it
for conf in absent.conf etc; do
    setup 2 "$usage" $conf --image "$disk"
    same "$(head -n 1 said)" "quorumd-setup: $conf is no file that can be read: look at its path, as root"
done
echo 'nodelist {' > wrong.conf
setup 1 "$("$QUORUMCTL" settings < wrong.conf | sed '1s/^/quorumd-setup: wrong.conf: /' | tail -n 1)" wrong.conf --image "$disk"
# another host, and no key; a cluster on one host has none
setup 1 'quorumd-setup: alpha is another host, and no key seals what is said to it: --key FILE, or --create makes one' three.conf --image "$disk"
setup 1 'quorumd-setup: alpha is another host: --no-key is for a cluster on one host' three.conf --image "$disk" --no-key
printf 'nodelist {\n node {\n  nodeid: 1\n }\n node {\n  nodeid: 2\n  name: beta\n }\n}\n' > here.conf
setup 1 'quorumd-setup: etcd:192.0.2.7:2379/q is another host: --no-key is for a cluster on one host' here.conf --image etcd:192.0.2.7:2379/q --no-key
setup 1 'quorumd-setup: nbd:192.0.2.7:10809 is another host, and no node has an address: each wants its ring0_addr' here.conf --image nbd:192.0.2.7:10809
setup 1 'quorumd-setup: HERE/disk is not there: --create on one host makes it' here.conf --image "$disk"
# the id of this host
setup 1 'quorumd-setup: none.conf has not one node with a name or an address of this host: say --id N' none.conf --image "$disk" --key key
setup 1 'quorumd-setup: both.conf has not one node with a name or an address of this host: say --id N' both.conf --image "$disk" --key key
setup 1 'quorumd-setup: three.conf has no node 4: --id is one of its nodeids, 1 2 3' three.conf --image "$disk" --id 4 --key key
# names of hosts
named() {
    printf 'nodelist {\n node {\n  nodeid: 1\n  ring0_addr: 192.0.2.7\n }\n node {\n  nodeid: 2\n  ring0_addr: %s\n }\n node {\n  nodeid: 3\n  name: third\n  ring0_addr: gamma.example\n }\n}\n' "$1"
}
for name in absent lone; do
    named "$name.example" > named.conf
    setup 1 "quorumd-setup: named.conf: $name.example has no address that other hosts reach: getent ahosts $name.example" named.conf --image "$disk" --key key
done
# the image
setup 1 'quorumd-setup: HERE/disk is not there: --create on one host makes it' three.conf --image "$disk" --key key
[ ! -e disk ]
printf 'important' > disk
setup 1 'quorumd-setup: HERE/disk is no image of three.conf: another path, or all nodes off and the file away' three.conf --image "$disk" --create --key key
same "$(cat disk)" important
rm disk
# a server that is off
setup 1 'quorumd-setup: nbd:127.0.0.1:9: Connection refused: start the server. Nothing was changed' three.conf --image nbd:127.0.0.1:9 --create
same "$(written)" './quorumd/node.env'

# a host of its own name, with a key that is made; a second time, and the host of another node
setup 0 'node 2 of three.conf is set up: systemctl enable --now quorumd@2.service' three.conf --image "$disk" --create
grep -q "^a key was made: copy $PWD/etc/quorumd/key to the other hosts" said
grep -q "^the text is $(sha256sum < three.conf | cut -c 1-16): the same on each host" said
same "$(stat -c '%a %s' etc/quorumd/key)" '600 32'
same "$(written)" './quorumd/corosync.conf ./quorumd/key ./quorumd/node-2.env ./quorumd/node.env ./systemd/system/quorumd@2.service.d/setup.conf'
cmp three.conf etc/quorumd/corosync.conf
edge='--links /etc/quorumd/corosync.conf --key /etc/quorumd/key'
same "$(grep -v -e '^#' -e '^$' etc/quorumd/node-2.env | xargs)" \
    "EDGE=$edge COMMAND=node IMAGE=$disk WATCHDOG=/dev/watchdog RESOURCE=unix:/run/quorumd/agent.sock GROUP=--group /run/quorumd/group.word PORT=7400 LEAVE=970000000 OPTIONS="
same "$(grep -v '^#' 'etc/systemd/system/quorumd@2.service.d/setup.conf' | xargs)" "[Unit] RequiresMountsFor=$PWD"
same "$("$QUORUMCTL" list --image disk | wc -l)" 3
"$QUORUMD" message --image disk --id 2 --kind test > sent
setup 0 'node 2 of three.conf is set up: systemctl enable --now quorumd@2.service' three.conf --image "$disk" --create
"$QUORUMCTL" list --image disk | grep -q '^node 2 .* mail test'
setup 1 'quorumd-setup: HERE/etc/quorumd/node-2.env is there and says something else: look at it, and remove it' three.conf --image "$disk" --port 7500
setup 1 'quorumd-setup: HERE/etc/quorumd/key is there and says something else: look at it, and remove it' three.conf --image "$disk" --key key
setup 0 'node 1 of three.conf is set up: systemctl enable --now quorumd@1.service' three.conf --image "$disk" --id 1
# another text: its image does not fit, and the old text stays
"$QUORUMD" create --image two < both.conf > sent
setup 1 'quorumd-setup: HERE/etc/quorumd/corosync.conf is there and says something else: look at it, and remove it' both.conf --image "$PWD/two" --id 2
cmp three.conf etc/quorumd/corosync.conf
setup 1 'quorumd-setup: HERE/two is no image of three.conf: another path, or all nodes off and the file away' three.conf --image "$PWD/two" --id 3
[ ! -e etc/quorumd/node-3.env ]
rm -r etc/quorumd/corosync.conf etc/quorumd/key

# names of hosts become addresses, and names of their nodes
named beta.example > named.conf
rm -r etc/quorumd/node-2.env
setup 0 'node 2 of named.conf is set up: systemctl enable --now quorumd@2.service' named.conf --image "$PWD/image" --id 2 --create --key key
same "$(sed -n 's/^ *\(ring0_addr\|name\): //p' etc/quorumd/corosync.conf | xargs)" '192.0.2.7 192.0.2.8 beta.example third 192.0.2.9'
grep -q "^the text is $(sha256sum < etc/quorumd/corosync.conf | cut -c 1-16): the same on each host" said
rm -r etc/quorumd/corosync.conf etc/quorumd/key etc/quorumd/node-2.env etc/systemd
# two networks: a name on either becomes an address, and both are shown
{ echo 'nodelist {'; node 1 alpha 192.0.2.7; node 2 beta 192.0.2.8; echo '}'; } > rings.conf
sed -i -e 's/ring0_addr: 192.0.2.7/&\n  ring1_addr: 198.51.100.7/' -e 's/ring0_addr: 192.0.2.8/&\n  ring1_addr: gamma.example/' rings.conf
setup 0 'node 2 of rings.conf is set up: systemctl enable --now quorumd@2.service' rings.conf --image "$PWD/rings" --create --key key
same "$(grep '^network ' said | xargs)" 'network 0 192.0.2.7 192.0.2.8 network 1 198.51.100.7 192.0.2.9'
same "$(sed -n 's/^ *ring1_addr: //p' etc/quorumd/corosync.conf | xargs)" '198.51.100.7 192.0.2.9'
rm -r etc/quorumd/corosync.conf etc/quorumd/key etc/quorumd/node-2.env etc/systemd
# all nodes on one host
setup 0 'node 2 of here.conf is set up: systemctl enable --now quorumd@2.service' here.conf --image "$PWD/own" --create
same "$(grep ^EDGE etc/quorumd/node-2.env) $(written)" 'EDGE= ./quorumd/corosync.conf ./quorumd/node-1.env ./quorumd/node-2.env ./quorumd/node.env ./systemd/system/quorumd@2.service.d/setup.conf'
rm -r etc/quorumd/corosync.conf etc/quorumd/node-2.env etc/systemd

# a key, which only its owner may read, and addresses
setup 1 'quorumd-setup: absent is no file: a key is made by: (umask 077; head -c 32 /dev/urandom > key)' three.conf --image "$disk" --id 3 --key absent
rm key
(umask 077; head -c 31 /dev/zero > key)
setup 1 'quorumd-setup: key: 31 bytes, a key has 32 to 4096; copy that of another host' three.conf --image "$disk" --id 3 --key key
head -c 32 /dev/zero > key
chmod 644 key
setup 1 'quorumd-setup: key: others may read it; chmod 600 key' three.conf --image "$disk" --id 3 --key key
chmod 600 key
sed '/ring0_addr: 192.0.2.8/d' three.conf > part.conf
setup 1 'quorumd-setup: part.conf: node 2 has no ring0_addr; each node has an address of its own on each network' part.conf --image "$disk" --id 3 --key key
[ ! -e etc/quorumd/key ]
setup 0 'node 3 of three.conf is set up: systemctl enable --now quorumd@3.service' three.conf --image "$disk" --id 3 --key key
cmp key etc/quorumd/key
same "$(stat -c %a etc/quorumd/key) $(grep ^EDGE etc/quorumd/node-3.env)" '600 EDGE=--links /etc/quorumd/corosync.conf --key /etc/quorumd/key'

# an image in an etcd cluster, which answers: the node may read which boot of the machine this is
mkdir played
election='warning: an election of etcd may take 9000 ms, and so on'
printf '#!/bin/sh\n[ "$1" != settings ] || exec "%s" "$@"\n[ "$1" != check ] || echo "%s"\n' "$QUORUMCTL" "$election" > played/quorumctl
chmod 755 played/quorumctl
rm -r etc/quorumd/node-1.env etc/systemd
PATH=$PWD/played:$PATH setup 0 'node 1 of three.conf is set up: systemctl enable --now quorumd@1.service' three.conf --image etcd:127.0.0.1:2379/quorumd --id 1
same "$(grep -v '^#' 'etc/systemd/system/quorumd@1.service.d/setup.conf' | xargs)" '[Unit] [Service] ProcSubset=all'
same "$(grep election said)" "quorumd-setup: etcd:127.0.0.1:2379/quorumd: $election"
rm -r etc/systemd etc/quorumd/node-1.env
printf '#!/bin/sh\n[ "$1" != settings ] || exec "%s" "$@"\n' "$QUORUMCTL" > played/quorumctl
PATH=$PWD/played:$PATH setup 0 'node 1 of three.conf is set up: systemctl enable --now quorumd@1.service' three.conf --image etcd:127.0.0.1:2379/quorumd --id 1
same "$(grep -c election said)" 0

# three images, of which two are there, and a device
rm -r etc/systemd
"$QUORUMD" create --image e < three.conf > sent
setup 0 'node 2 of three.conf is set up: systemctl enable --now quorumd@2.service' three.conf --image "$disk,$PWD/e,$PWD/f" --create --watchdog /dev/watchdog1 --port 7600
same "$(grep -e ^COMMAND -e ^IMAGE -e ^WATCHDOG -e ^PORT etc/quorumd/node-2.env | xargs)" "COMMAND=node3 IMAGE=$disk,$PWD/e,$PWD/f WATCHDOG=/dev/watchdog1 PORT=7600"
[ -e f ]

# an arbiter: a host of its own, which the device of the text names, and a key of the members
rm -r etc/quorumd/corosync.conf etc/quorumd/key etc/quorumd/node-*.env etc/systemd
before=$(written)
# device HOST: the text of three nodes, with a device at that host
device() {
    cat three.conf
    printf 'quorum {\n provider: corosync_votequorum\n device {\n  model: net\n  votes: 2\n  net {\n   host: %s\n  }\n }\n}\n' "$1"
}
setup 1 'quorumd-setup: three.conf has no quorum device with a host: quorum { device { model: net; net { host: ADDRESS } } }, a line each' three.conf --arbiter --key key
device 192.0.2.77 > arbiter.conf
setup 1 'quorumd-setup: 192.0.2.77, the host of the device of arbiter.conf, is no address of this host' arbiter.conf --arbiter --key key
device lone.example > arbiter.conf
setup 1 "quorumd-setup: arbiter.conf: the device's host lone.example has no address that other hosts reach: getent ahosts lone.example" arbiter.conf --arbiter --key key
device 192.0.2.1 > arbiter.conf
sed 's/192.0.2.7/192.0.2.1/' arbiter.conf > member.conf
setup 1 'quorumd-setup: node 1 of member.conf is this host: an arbiter is on a host that is no member' member.conf --arbiter --key key
setup 1 'quorumd-setup: HERE/etc/quorumd/key is no file: copy the key of a member here, by a way that nobody reads, and say --key FILE' arbiter.conf --arbiter
head -c 31 /dev/zero > short
chmod 600 short
setup 1 'quorumd-setup: short: 31 bytes, a key has 32 to 4096; copy that of another host' arbiter.conf --arbiter --key short
same "$(written)" "$before"
printf '#!/bin/sh\necho "192.0.2.1 STREAM"\n' > calls/getent
device third.example > arbiter.conf
setup 0 'the arbiter of arbiter.conf is set up: systemctl enable --now quorumd-arbiter.service' arbiter.conf --arbiter --key key --port 7600
# the name was looked up, and is not warned of
same "$(grep -c 'is no address' said)" 0
device 192.0.2.1 | cmp - etc/quorumd/corosync.conf
cmp key etc/quorumd/key
same "$(stat -c %a etc/quorumd/key) $(cat etc/quorumd/arbiter.env)" '600 PORT=7600'
setup 1 'quorumd-setup: HERE/etc/quorumd/arbiter.env is there and says something else: look at it, and remove it' arbiter.conf --arbiter --key key
