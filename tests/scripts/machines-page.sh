# The blocks of docs/MACHINES.md and docs/NIGHT.md as far as one machine goes, without root: systemd takes its units, bash its commands, and the three block servers and
# quorumd-setup, as the page calls them, make an image that a node takes. The rest is run by tests/hosts (page.sh) and tests/machines (bed.sh).
. "$TOP/tests/expect.sh"
page=$TOP/docs/MACHINES.md
. "$TOP/tests/page.bash"

# what a lab is to write or run, a lab names
while read -r kind name; do
    grep -qF -- "${name##*/}" "$TOP/tests/hosts/page.sh" "$TOP/tests/machines/bed.sh" || { printf 'no lab takes the block %s %s\n' "$kind" "$name"; exit 1; }
done < <(sed -n 's/^```\(file\|run\) /\1 /p' "$page" "$TOP/docs/NIGHT.md")

mkdir units
for unit in quorumd-disk quorumd-server; do
    block "file /etc/systemd/system/$unit.service" > "units/$unit.service"
done
cp "$TOP"/packaging/quorumd*@.* "$TOP"/contrib/quorumd*.service "$TOP"/contrib/quorumd*.socket units/
mkdir units/quorumd@.service.d
block 'file /etc/systemd/system/quorumd@.service.d/disk.conf' > units/quorumd@.service.d/disk.conf
if command -v systemd-analyze > /dev/null; then
    same "$(systemd-analyze verify --man=no units/quorumd-disk.service units/quorumd-server.service 2>&1 | grep -v ': Command /usr/[^ ]* is not executable' || true)" ''
else
    printf 'skipped: systemd-analyze is not installed (Debian: systemd), so the units of docs/MACHINES.md were not looked at\n'
fi

if ! command -v qemu-nbd > /dev/null; then
    printf 'skipped: qemu-nbd is not installed (Debian: qemu-utils), so the block servers of docs/MACHINES.md were not run\n'
    exit 0
fi
# three servers, of this machine in place of three: other ports and files, and nothing else is not the page's
servers=()
trap 'kill "${servers[@]}" 2> ended' EXIT
image=$(block 'run image-servers' | sed -n 's/^IMAGE=//p')
for number in 1 2 3; do
    port=$(python3 -c 'import socket; own = socket.socket(); own.bind(("127.0.0.1", 0)); print(own.getsockname()[1])')
    block 'run server' | sed -n "s|/var/lib/quorumd-image|$PWD/image.$number|; /^dd /p" > written.sh
    bash -eu written.sh 2> said
    read -ra words < <(sed -n 's|^ExecStart=/usr/bin/||p' units/quorumd-server.service | sed "s|--port=10809|--port=$port|; s|/var/lib/quorumd-image|$PWD/image.$number|")
    "${words[@]}" 2> "server.$number" &
    servers+=($!)
    image=${image/192.0.2.$number:10809/127.0.0.1:$port}
done
block 'file /root/corosync.conf' > corosync.conf
block 'run key' | sed "s|/root/|$PWD/|" > key.sh
bash -eu key.sh
mkdir calls etc etc/quorumd
ln -s "$QUORUMD" calls/quorumd
ln -s "$QUORUMCTL" calls/quorumctl
printf '#!/bin/sh\nexit 0\n' > calls/systemctl
printf '#!/bin/sh\necho db1\n' > calls/hostname
printf '#!/bin/sh\nexit 0\n' > calls/ip
ln -s "$TOP/packaging/quorumd-setup" calls/
chmod 755 calls/systemctl calls/hostname calls/ip
export PATH=$PWD/calls:$PATH QUORUMD_ETC=$PWD/etc QUORUMD_HELPERS=$TOP/packaging IMAGE=$image
cp "$TOP/packaging/node.env" etc/quorumd/
for address in ${image//,/ }; do
    for _ in $(seq 100); do
        quorumctl list --image "$address" > said 2>&1 || true
        ! grep -q 'is no header' said || break
        sleep 0.1
    done
done
block 'run setup' | sed "s|/root/|$PWD/|g" > setup.sh
same "$(bash -eu setup.sh 2> said | tail -n 1)" "node 1 of $PWD/corosync.conf is set up: systemctl enable --now quorumd@1.service"
same "$(grep -e ^COMMAND -e ^IMAGE -e ^EDGE etc/quorumd/node-1.env)" "EDGE=--links /etc/quorumd/corosync.conf --key /etc/quorumd/key
COMMAND=node3
IMAGE=$image"
for address in ${image//,/ }; do
    same "$(quorumctl list --image "$address")" "$(printf 'node %s incarnation 0 clean mail empty\n' 1 2 3)"
done
# the other machines say the same without --create, and nothing is made anew
sed -i 's/ --create//; s/ --key/ --id 2 --key/' setup.sh
quorumd message --image "${image%%,*}" --id 3 --kind test > said
same "$(bash -eu setup.sh 2> said | tail -n 1)" "node 2 of $PWD/corosync.conf is set up: systemctl enable --now quorumd@2.service"
same "$(quorumctl list --image "${image%%,*}" | tail -n 1)" 'node 3 incarnation 0 clean mail test'
