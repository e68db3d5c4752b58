# Images of version 1: what is read of them, what is refused, and their migration.
. "$TOP/tests/expect.sh"
. "$TOP/tests/version-1.sh"
times='watchdog 5000\nmsgwait 10000\nloop 1000\nread_limit 2000\nfeed_delay 1000\nsafe yes\n'

for nodes in 1 2 3 32; do
    version_1 disk "$nodes"
    cp disk before
    lines=$(lines_of_version_1 "$nodes")
    expect 0 "version 1\\nnodes $nodes\\n$times" dump --image disk
    expect 0 "$lines" list --image disk

    # it takes no message, also where no slot has the id
    for id in 1 9999; do
        expect 9 'fault BadImage sector 0\n' message --image disk --id "$id" --kind off
    done
    cmp disk before

    # migrated: the slots and the old mailboxes stay, the header differs by its version
    expect 0 "migrated nodes $nodes\\n" migrate --image disk
    expect 0 "version 2\\nnodes $nodes\\n$times" dump --image disk
    expect 0 "$lines" list --image disk
    same "$(cmp -l before disk 2> .differ | xargs)" '10 1 2'

    # given again it changes nothing
    cp disk before
    expect 0 "migrated nodes $nodes\\n" migrate --image disk
    cmp disk before
    expect 0 'sent crashdump to 1\n' message --image disk --id 1 --kind crashdump
done

# a mailbox with bytes after its code, and a slot that is none: `migrate` looks at mailboxes alone
version_1 disk 3
printf '\001' | dd of=disk bs=1 seek=$((3072 + 12)) conv=notrunc status=none
cp disk before
expect 9 'fault BadImage sector 6\n' migrate --image disk
cmp disk before
expect 9 "$(lines_of_version_1 2)fault BadImage sector 6\\n" list --image disk

# cut short inside the last mailbox's name, and a header of another version
version_1 disk 2
head -c 2050 disk > cut
cp cut before
expect 9 'fault BadImage sector 4\n' migrate --image cut
cmp cut before
for version in 0 3 255; do
    version_1 disk 2
    printf "\\$(printf %03o "$version")" | dd of=disk bs=1 seek=9 conv=notrunc status=none
    cp disk before
    for command in dump list migrate; do
        expect 9 'fault BadImage sector 0\n' "$command" --image disk
    done
    cmp disk before
done

# no file: none is made
expect 9 'fault BadImage sector 0\n' migrate --image absent
[ ! -e absent ]

# beside a program that has the image open the header is not written
version_1 disk 2
exec 9< disk
flock -s 9
expect 8 'fault EnvFault\n' migrate --image disk
expect 0 "$(lines_of_version_1 2)" list --image disk
expect 0 "version 1\\nnodes 2\\n$times" dump --image disk
exec 9<&-
expect 0 'migrated nodes 2\n' migrate --image disk
