# `quorumctl check`, `list` and `wait`: what is told of images that are whole, damaged, old, too long and of another cluster. Nothing is made and
# nothing is changed.
. "$TOP/tests/expect.sh"
. "$TOP/tests/version-1.sh"

# ctl STATUS 'OUTPUT' WORD..: runs quorumctl; standard input is that of the call
ctl() {
    local wanted=$1 text=$2 status=0
    shift 2
    "$QUORUMCTL" "$@" > got 2> spoken || status=$?
    grep -v -e ' IMAGE.md of the documentation ' -e ' has the ids of its nodes$' spoken > errors || true
    same "$* ends with $status and says $(cat got errors)" "$* ends with $wanted and says $(printf "$text")"
}

# put SECTOR 'BYTES': writes over the beginning of a sector of the image `disk`
put() {
    printf "$2" | dd of=disk bs=512 seek="$1" conv=notrunc status=none
}

"$QUORUMD" create --image whole < "$TOP/examples/two-node.conf" > said
cp whole disk
lines='node 1 incarnation 0 clean mail empty\nnode 2 incarnation 0 clean mail empty\n'
ctl 0 "$lines" check --image disk < /dev/null
ctl 0 "$lines" check --image disk < "$TOP/examples/two-node.conf"
ctl 0 "$lines" list --image disk
same "$("$QUORUMCTL" list --image disk)" "$("$QUORUMD" list --image disk)"
cmp disk whole

# another cluster
printf 'nodelist {\nnode {\nnodeid: 1\n}\nnode {\nnodeid: 2\n}\nnode {\nnodeid: 3\n}\n}\n' > three.conf
ctl 1 "${lines}warning: the image is for 2 nodes, and the settings have 3\n" check --image disk < three.conf
same "$(cat spoken)" 'quorumctl: disk: give the image and the text of one cluster; IMAGE.md of the documentation says what mends an image'
printf 'nodelist {\nnode {\nnodeid: 1\n}\nnode {\nnodeid: 3\n}\n}\n' > other.conf
ctl 1 "${lines}warning: sector 3 has the id 2, and the settings have 3 there\n" check --image disk < other.conf
ctl 3 'fault: nodelist: there is no node section\n' check --image disk <<< '# nothing'

# bad sectors, each of which the look goes on behind
put 1 SLOP
put 513 '\1'
ctl 1 'node ? mail empty\nnode 2 incarnation 0 clean mail ?\nwarning: sector 1 is no slot\nwarning: sector 513 is no mailbox\n' check --image disk < /dev/null
ctl 1 'node ? mail empty\nnode 2 incarnation 0 clean mail ?\n' list --image disk
cp whole disk
put 3 'SLOT\0\0\0\1'
ctl 1 'node 1 incarnation 0 clean mail empty\nnode 1 incarnation 0 clean mail empty\nwarning: sector 3 has the id 1, which is not above the one before\n' check --image disk < /dev/null
cp whole disk
put 0 QN
put 0 XX
ctl 1 'warning: sector 0 is no header: the file is no image\n' check --image disk < /dev/null
ctl 1 'fault: sector 0 is no header: the file is no image\n' list --image disk
same "$("$QUORUMCTL" list --image disk --json 2>&1 || true)" "$(printf '[]\nquorumctl: sector 0 is no header: the file is no image')"
# times that are not safe: msgwait 8163
cp whole disk
printf '\37\343' | dd of=disk bs=1 seek=30 conv=notrunc status=none
ctl 1 "${lines}warning: the times are not safe\n" check --image disk < /dev/null
# times with which a take-over has no bound: a warning, and no fault
"$QUORUMD" create --image slow --timing 5000,10000,6000,2000,1000 < "$TOP/examples/two-node.conf" > said
ctl 0 "${lines}warning: a take-over has no bound: the loop, two calls of the disk and the feed delay do not fit in the watchdog's time\n" check --image slow < /dev/null
# a feed delay that is short: a warning, and a fault where no feed is in time
for row in 1,1,no-feed 2,0,1 500,0,250 999,0,499 1000,0,ample; do
    IFS=, read -r delay status limit <<< "$row"
    "$QUORUMD" --anew create --image short --timing "5000,20000,1000,1000,$delay" < "$TOP/examples/two-node.conf" > said
    case $limit in
    no-feed) warning="warning: feed delay $delay: no feed is in time\n" ;;
    ample) warning='' ;;
    *) warning="warning: feed delay $delay: a feed is given within $limit ms only; a longer stall of the node resets its machine. Take 1000 or more\n" ;;
    esac
    ctl "$status" "$lines$warning" check --image short < /dev/null
done
# a tail, and a file that ends early: zeros are no mailbox
cp whole disk
printf tail >> disk
ctl 4 "${lines}warning: 4 bytes stand behind the image\n" check --image disk < /dev/null
ctl 4 "${lines}warning: 4 bytes stand behind the image\n" check --image disk < "$TOP/examples/two-node.conf"
ctl 1 "${lines}warning: 4 bytes stand behind the image\nwarning: the image is for 2 nodes, and the settings have 3\n" check --image disk < three.conf
head -c $((513 * 512)) whole > disk
ctl 1 'node 1 incarnation 0 clean mail empty\nnode 2 incarnation 0 clean mail ?\nwarning: sector 513 is no mailbox\n' check --image disk < /dev/null
version_1 disk 2
ctl 1 'node 1 incarnation 0 clean mail off\nnode 2 incarnation 1 dirty mail empty\nwarning: the image is of version 1: quorumd migrate\n' check --image disk < /dev/null

# sectors that cannot be read: a folder is one
mkdir folder
ctl 1 'warning: sector 0 cannot be read\n' check --image folder < /dev/null
ctl 1 'fault: sector 0 cannot be read\n' list --image folder
# nothing is made
absent='quorumctl: absent: No such file or directory (os error 2); look at the path, and whether its file system is mounted\n'
ctl 8 "$absent" check --image absent < /dev/null
ctl 8 "$absent" list --image absent
ctl 8 "$absent" wait --image absent --id 1
[ ! -e absent ]

# an image that another program is making
flock -x disk "$QUORUMCTL" check --image disk < /dev/null > got 2> errors || same "$? $(cat got errors)" '8 quorumctl: disk: another program has it open'

# JSON: the same as the lines
cp whole disk
"$QUORUMD" message --image disk --id 2 --kind off > said
"$QUORUMCTL" list --image disk --json > listed
"$QUORUMCTL" check --image disk --json < /dev/null > checked
put 1 SLOP
"$QUORUMCTL" check --image disk --json < /dev/null > damaged || true
python3 -B "$TOP/tests/parts/quorumctl-images.py"

# waits: for an empty mailbox, for a node that left, for msgwait, for a node that is none
"$QUORUMD" create --image disk --timing 300,500,100,50,50 < "$TOP/examples/two-node.conf" > said
ctl 0 'the mailbox is empty\n' wait --image disk --id 1
"$QUORUMD" message --image disk --id 1 --kind exit > said
ctl 0 'the node left clean\n' wait --image disk --id 1
"$QUORUMD" message --image disk --id 2 --kind off > said
begin=$(date +%s%N)
ctl 0 'msgwait has passed\n' wait --image disk --id 2
passed=$((($(date +%s%N) - begin) / 1000000))
[ "$passed" -ge 500 ] || { printf 'waited %s ms\n' "$passed"; exit 1; }
"$QUORUMD" create --image disk < "$TOP/examples/two-node.conf" > said
"$QUORUMD" message --image disk --id 2 --kind test > said
(sleep 0.5; "$QUORUMD" message --image disk --id 2 --kind clear > said) &
ctl 0 'the mailbox is empty\n' wait --image disk --id 2
wait
ctl 16 'fault: no slot of the image has the id\n' wait --image disk --id 3
same "$(cat spoken)" 'quorumctl: disk: quorumctl list --image disk has the ids of its nodes'

# an exit that the node does not take: it runs on, it boots, or the exit is cleared. `slot CLEAN` writes the slot of node 1 in incarnation 7
slot() {
    printf "SLOT\\0\\0\\0\\1\\0\\0\\0\\0\\0\\0\\0\\7\\$1" | dd of=disk bs=512 seek=1 conv=notrunc status=none
}
"$QUORUMD" create --image disk < "$TOP/examples/two-node.conf" > said
slot 0
"$QUORUMD" message --image disk --id 1 --kind exit > said
(sleep 0.5; "$QUORUMD" message --image disk --id 1 --kind clear > said) &
ctl 1 'fault: the exit is gone from the mailbox, and the node was not seen to leave: a boot of it, or an operator, took it away\n' wait --image disk --id 1
wait
"$QUORUMD" message --image disk --id 1 --kind exit > said
(sleep 0.5; slot 1) &
ctl 0 'the node left clean\n' wait --image disk --id 1
wait
"$QUORUMD" create --image disk --timing 300,500,100,50,50 < "$TOP/examples/two-node.conf" > said
slot 0
"$QUORUMD" message --image disk --id 1 --kind exit > said
ctl 1 'fault: msgwait has passed, and the node has not left: the exit stands in its mailbox\n' wait --image disk --id 1
# a node that runs passes a test over, and its mailbox keeps it; of a mailbox or a slot that is none nothing is known
"$QUORUMD" message --image disk --id 1 --kind test > said
ctl 0 'msgwait has passed\n' wait --image disk --id 1
put 512 MALL
ctl 1 'fault: the slot or the mailbox cannot be read or is none\n' wait --image disk --id 1
put 1 SLOP
ctl 1 'fault: the slot or the mailbox cannot be read or is none\n' wait --image disk --id 1

: > disk
ctl 1 'fault: sector 0 is no header: the file is no image\n' wait --image disk --id 3

# at a terminal it is said that a text is read, by each command that reads one; elsewhere nothing is said
cp whole disk
reads='quorumctl: a corosync.conf is read from the terminal; Ctrl-D on a line of its own ends it'
same "$(python3 -B "$TOP/tests/parts/terminal.py" "$QUORUMCTL" check --image disk)" "0 $reads"
same "$(python3 -B "$TOP/tests/parts/terminal.py" "$QUORUMCTL" settings | head -n 1)" "3 $reads"
same "$(python3 -B "$TOP/tests/parts/terminal.py" "$QUORUMCTL" list --image disk)" '0 '
