# Who may open an image beside whom: any number that only read it or write a mailbox, and `create` alone.
. "$TOP/tests/expect.sh"

settings=$TOP/examples/two-node.conf
expect 0 'created nodes 2\n' create --image disk < "$settings"
cp disk before

# beside a program that has the image open
exec 5< disk
flock --shared --nonblock 5
expect 8 'fault EnvFault\n' create --image disk < "$settings"
same "$(head -n 1 .errors)" 'quorumd: disk: another program has it open'
cmp disk before
expect 0 'node 1 incarnation 0 clean mail empty\nnode 2 incarnation 0 clean mail empty\n' list --image disk
expect 0 'sent off to 1\n' message --image disk --id 1 --kind off
expect 0 'sent reset to 2\n' message --image disk --id 2 --kind reset
cp disk before
flock --unlock 5

# beside a program that creates it
flock --exclusive --nonblock 5
for command in create dump list 'message --id 1 --kind crashdump'; do
    # shellcheck disable=SC2086
    expect 8 'fault EnvFault\n' $command --image disk < "$settings"
    same "$(head -n 1 .errors)" 'quorumd: disk: another program has it open'
    cmp disk before
done
exec 5<&-

# the lock ends with the program
expect 0 'created nodes 2\n' create --image disk < "$settings"
