# Paths that are no image: each gives a fault line and its status, and nothing is written.
. "$TOP/tests/expect.sh"

# no file: none is made
for command in dump list 'message --id 1 --kind off' migrate; do
    expect 9 'fault BadImage sector 0\n' $command --image absent
    same "$command: $([ -e absent ] || echo none)" "$command: none"
done

# random bytes
head -c 4096 /dev/zero | tr '\0' '\245' > noise
cp noise before
expect 9 'fault BadImage sector 0\n' dump --image noise
expect 9 'fault BadImage sector 0\n' list --image noise
expect 9 'fault BadImage sector 0\n' message --image noise --id 1 --kind off
expect 9 'fault BadImage sector 0\n' migrate --image noise
cmp noise before

# a file that is cut short, inside a slot and inside a mailbox: what is not there reads as zeros
expect 0 'created nodes 2\n' create --image disk < "$TOP/examples/two-node.conf"
head -c 516 disk > in-slot
cp in-slot before
expect 0 'version 2\nnodes 2\nwatchdog 5000\nmsgwait 10000\nloop 1000\nread_limit 2000\nfeed_delay 1000\nsafe yes\n' \
    dump --image in-slot
expect 9 'fault BadImage sector 1\n' list --image in-slot
expect 9 'fault BadImage sector 1\n' message --image in-slot --id 2 --kind off
cmp in-slot before
head -c 262656 disk > in-mailbox
expect 9 'node 1 incarnation 0 clean mail empty\nfault BadImage sector 513\n' list --image in-mailbox

# a byte after the fields of a sector
cp disk dirty
printf '\001' | dd of=dirty bs=1 seek=2047 conv=notrunc status=none
expect 9 'node 1 incarnation 0 clean mail empty\nfault BadImage sector 3\n' list --image dirty
