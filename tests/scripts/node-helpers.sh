# What the unit of a node calls before its start and after its end, without systemd: which nodes node-check refuses, by images, made files of
# sysfs and a systemctl that is played; and what node-ended makes of each end. That systemd does so is seen in tests/hosts.
. "$TOP/tests/expect.sh"

mkdir calls sysfs run state
ln -s "$QUORUMD" calls/quorumd
ln -s "$QUORUMCTL" calls/quorumctl
cat > calls/systemctl << 'END'
#!/bin/sh
case $* in
'list-units --plain --no-legend --state=active,activating,deactivating '*) printf '%s' "${UNITS-}" ;;
'show -P RuntimeWatchdogUSec') echo "${RUNTIME-0}" ;;
'is-active --quiet chrony.service chronyd.service') [ "${CHRONY-no}" = yes ] ;;
list-jobs*) printf '%s' "${JOBS-}" ;;
*) echo "$@" ;;
esac
END
cat > calls/chronyd << 'END'
#!/bin/sh
printf 'driftfile drift\n%s\n' "${SLEW-}"
END
chmod 755 calls/systemctl calls/chronyd
export PATH=$PWD/calls:$PATH STATE=$PWD/state RUN=$PWD/run SYSFS=$PWD/sysfs SETTINGS=$PWD/three.conf
printf 'nodelist {\n node {\n nodeid: 1\n }\n node {\n nodeid: 2\n }\n node {\n nodeid: 3\n }\n}\n' > three.conf
printf 'nodelist {\n node {\n nodeid: 2\n }\n}\n' > other.conf
for image in d e f large; do
    "$QUORUMD" create --image $image < three.conf > said
done
truncate -s 1M large
"$QUORUMD" create --image other < other.conf > said
: > empty

# checked STATUS 'LAST LINE' [NAME=VALUE..]: what node-check of node 2 answers with these variables
checked() {
    local status=$1 line=$2 got=0
    shift 2
    echo old > run/node-2
    env IMAGE=d WATCHDOG=/dev/null RESOURCE=unix:/run/quorumd/agent.sock WAIT=0 WATCHDOG_IS_NO_DEVICE=yes "$@" \
        "$TOP/packaging/node-check" 2 > got 2> errors < /dev/null || got=$?
    same "$*: $got $(tail -n 1 errors)" "$*: $status $line"
    same "$*: $(cat run/node-2)" "$*: $([ "$status" = 0 ] || echo old)"
}
touch run/leave-2 run/leaving-2
checked 0 ''
[ ! -e run/leave-2 ] && [ ! -e run/leaving-2 ]
same "$(cat run/standing-2)" ''

# the words of a host: a standby is remembered over a start, and the weight stays; that the node was unfit, or asked for, ends. A start that is refused changes nothing
printf 'pull on\nfit no\nweight 12\nstandby off\n' > run/standing-2
echo 'standby on' > state/standby-2
checked 1 'node 2 is not started: no such image: none. Mount its file system or start its server, and start this again' IMAGE=none
same "$(xargs < run/standing-2)" 'pull on fit no weight 12 standby off'
checked 0 ''
same "$(xargs < run/standing-2)" 'standby on weight 12'
echo 'standby off' > state/standby-2
checked 0 ''
same "$(xargs < run/standing-2)" 'standby off weight 12'
echo 'standby maybe' > state/standby-2
checked 0 ''
same "$(xargs < run/standing-2)" 'weight 12'
rm state/standby-2 run/standing-2
no='node 2 is not started:' others='the lines before this one say what is wrong with the others' setup='quorumd-setup writes that file'
checked 0 ''
checked 0 '' IMAGE=large
mount='Mount its file system or start its server, and start this again'
checked 1 "$no no such image: none. $mount" IMAGE=none
checked 1 "$no 0 image(s) of this cluster, and 1 are needed: $others" IMAGE=other
same "$(head -n 1 errors)" 'other: warning: the image is for 1 nodes, and the settings have 3'
checked 1 "$no 0 image(s) of this cluster, and 1 are needed: $others" IMAGE=empty
checked 1 "$no no such image: d,e,f. $mount" IMAGE=d,e,f
checked 0 '' COMMAND=node3 IMAGE=d,e,f
checked 0 'node 2 goes on without none' COMMAND=node3 IMAGE=d,none,f
checked 0 'node 2 goes on without none' COMMAND=node3 IMAGE=d,none,f WAIT=2
same "$(cat errors)" $'node 2 waits for none\nnode 2 goes on without none'
(sleep 1 && cp f late) &
checked 0 'node 2 waits for late' COMMAND=node3 IMAGE=d,late,f WAIT=60
rm late
checked 0 'empty: warning: sector 0 is no header: the file is no image' COMMAND=node3 IMAGE=d,empty,f
checked 1 "$no no such image: none none2. $mount" COMMAND=node3 IMAGE=d,none,none2
checked 1 "$no 1 image(s) of this cluster, and 2 are needed: $others" COMMAND=node3 IMAGE=d,empty,other
[ ! -e none ] && [ ! -e none2 ] && [ ! -e d,e,f ]
checked 1 "$no COMMAND of node-2.env is node or node3, and not replay" COMMAND=replay
checked 1 "$no node-2.env names no IMAGE: $setup" IMAGE=
checked 1 "$no node-2.env names no WATCHDOG: $setup" WATCHDOG=
checked 1 "$no node-2.env names no RESOURCE: $setup" RESOURCE=
checked 1 "$no $PWD/absent is empty or not there: quorumd-setup writes it" SETTINGS="$PWD/absent"
checked 1 "$no quorumd@1.service is a node of this host, which has one: stop that one first, or this one is not of this host" UNITS='quorumd@1.service loaded active running A
quorumd@2.service loaded activating start B
'
checked 0 '' UNITS='quorumd@2.service loaded activating start B
'
# start mode 1
"$QUORUMD" message --image d --id 2 --kind exit > said
checked 0 '' OPTIONS='--start-mode 1'
"$QUORUMD" message --image d --id 2 --kind reset > said
checked 1 "$no start mode 1, and its mailbox is neither empty nor an exit: quorumd message --image d --id 2 --kind clear" OPTIONS='--start-mode 1'
checked 0 '' OPTIONS='--start-mode 0'
# boots that were halted
causes=(- 'the image was not read' 'it is no image of this cluster' 'the times of the image are not safe' 'its slot was not written' 'its mailbox was not emptied'
    'its boots are counted to the end' 'a message was in its mailbox, and start mode is 1')
for cause in 2 3 6 7; do
    echo "fault BootHalted $cause" > state/halted-2
    checked 1 "$no its last boot ended with 'fault BootHalted $cause': ${causes[$cause]}. Look at the image, and remove $PWD/state/halted-2"
done
for cause in 1 4 5; do
    printf "fault BootHalted $cause\n%.0s" 1 2 3 4 > state/halted-2
    checked 0 ''
    echo "fault BootHalted $cause" >> state/halted-2
    checked 1 "$no its last boot ended with 'fault BootHalted $cause': ${causes[$cause]}. Look at the image, and remove $PWD/state/halted-2"
done
rm state/halted-2

# device SECONDS NOWAYOUT OPTIONS: what the kernel says of a watchdog, which is /dev/null
null=sysfs/dev/char/1:3
device() {
    mkdir -p $null
    echo Made > $null/identity
    echo "$1" > $null/timeout
    echo "$2" > $null/nowayout
    echo "$3" > $null/options
}
real=WATCHDOG_IS_NO_DEVICE=no device='WATCHDOG of node-2.env names the device: /dev/watchdog, or modprobe softdog'
checked 1 "$no $PWD/d: a file or a pipe: it resets nothing. $device" $real WATCHDOG="$PWD/d"
checked 1 "$no $PWD/absent: it cannot be looked at. $device" $real WATCHDOG="$PWD/absent"
checked 1 "$no /dev/null: its time cannot be read: perhaps it is no watchdog, and resets nothing. $device" $real
device 6 0 0x8180
checked 1 "$no /dev/null: driver Made, time 6 s, nowayout 0: its time is 6 s, the image says 5000 ms. $device" $real
device 5 0 0x8180
checked 0 '' $real
checked 1 "$no RuntimeWatchdogSec= of systemd feeds the watchdog too: set it to 0 in /etc/systemd/system.conf, and systemctl daemon-reexec" $real RUNTIME=30000000
device 5 0 0x8080
checked 1 "$no /dev/null: driver Made, time 5 s, nowayout 0: it has no magic close: it stops where the program is killed. $device" $real
device 5 1 0x8080
checked 0 'node 2: /dev/null: driver Made, time 5 s, nowayout 1: nowayout is 1: also after a node that left, it resets the machine' $real

# a software watchdog goes by a clock that a time daemon may slew by more than one per cent
device 5 0 0x8180
slew="write 'maxslewrate 10000' into its configuration"
checked 0 '' $real CHRONY=yes
echo 'Software Watchdog' > $null/identity
checked 0 'node 2: /dev/null is a software watchdog: it ends with the kernel' $real
checked 0 'node 2: /dev/null is a software watchdog: it ends with the kernel' $real CHRONY=yes 'SLEW= maxslewrate  500'
checked 0 'node 2: /dev/null is a software watchdog: it ends with the kernel' $real CHRONY=yes 'SLEW=maxslewrate 10000'
for row in '83333 ' '10001 maxslewrate 10001.5' '83333 maxslewrate 83333'; do
    checked 1 "$no chronyd may slew the clock of /dev/null by ${row%% *} ppm: $slew, or take a hardware watchdog" $real CHRONY=yes "SLEW=${row#* }"
done

# ended CODE/STATUS 'WHAT IS CALLED' 'LINE': what becomes of the host at this end of node 2
ended() {
    printf '%s' "$3" > run/node-2
    same "$1 $3: $(EXIT_CODE=${1%%/*} EXIT_STATUS=${1#*/} "$TOP/packaging/node-ended" 2 2> errors)" "$1 $3: $2"
}
reset='reboot --force --force'
export IMAGE=d
"$QUORUMD" message --image d --id 2 --kind clear > said
"$QUORUMD" message --image d --id 2 --kind exit > said
ended exited/0 '' $'left clean\n'
ended exited/0 "$reset" $'left dirty\n'
IMAGE=none ended exited/0 '' $'left clean\n'
# nobody sent an exit: its turns were used up
"$QUORUMD" message --image d --id 2 --kind clear > said
ended exited/0 'start --no-block quorumd@2.service' $'left clean\n'
COMMAND=node3 IMAGE=none,d,e ended exited/0 'start --no-block quorumd@2.service' $'left clean\n'
ended exited/0 "$reset" $'turns 9 up holds=no quorate=no 0/1 why=no-view\n'
ended exited/0 "$reset" ''
for status in 2 3 6 8 11 16 203; do
    ended exited/$status '' $'fault\n'
done
ended exited/7 "$reset" ''
ended exited/12 "$reset" $'fault ClockBack 2 1\n'
ended exited/13 "$reset" $'fault SelfReset reset\n'
same "$(cat errors)" "node 2 ended with exited 13 'fault SelfReset reset': reboot at once"
ended exited/13 'poweroff --force --force' $'fault SelfReset off\n'
ended killed/KILL "$reset" ''
ended dumped/SEGV "$reset" $'left clean\n'
ended / '' ''
# the host is being switched off anyway, or booted anew
JOBS='12 poweroff.target start waiting' ended killed/KILL 'poweroff --force --force' ''
JOBS='12 halt.target start waiting' ended killed/KILL 'poweroff --force --force' ''
JOBS='12 reboot.target start waiting' ended killed/KILL "$reset" ''
# what a boot was halted by is kept until a node ended otherwise
ended exited/14 "$reset" $'fault BootHalted 1\n'
ended exited/14 "$reset" $'fault BootHalted 4\n'
same "$(xargs < state/halted-2)" 'fault BootHalted 1 fault BootHalted 4'
ended exited/8 '' $'fault EnvFault\n'
[ -e state/halted-2 ]
ended killed/KILL "$reset" ''
[ ! -e state/halted-2 ]

# images on a server and at places of 4096 bytes take part in a stop and in what becomes of it: no file is looked for under their words
mkdir served
printf '#!/bin/sh\necho "$@" >> asked\n' > served/quorumd
printf '#!/bin/sh\necho "node 2 incarnation 3 clean mail $MAIL"\n' > served/quorumctl
chmod 755 served/*
cp d long
three=nbd:unix:/run/socket,long@4096,etcd:127.0.0.1:2379/prefix,none
sleep 2 &
PATH=$PWD/served:$PATH MAINPID=$! RESOURCE=file COMMAND=node3 IMAGE=$three "$TOP/packaging/node-leave" 2
same "$(sed 's/^message --image \(.*\) --id 2 --kind exit$/\1/' asked | xargs)" 'nbd:unix:/run/socket long@4096 etcd:127.0.0.1:2379/prefix'
# a node that looks for a file is asked by it, and its mailbox is left alone
rm asked
sh -c 'until rm run/leave-2 2> /dev/null; do sleep 0.1; done' quorumd --leave-file run/leave-2 node &
PATH=$PWD/served:$PATH MAINPID=$! RESOURCE=file IMAGE=long "$TOP/packaging/node-leave" 2
[ ! -e asked ] && [ ! -e run/leave-2 ] && [ -e run/leaving-2 ]
PATH=$PWD/served:$PATH MAIL=empty IMAGE=long ended exited/0 '' $'left clean\n'
rm run/leaving-2
# where the file cannot be made it is sent an exit
sh -c 'sleep 1; :' quorumd --leave-file none/leave-2 node &
PATH=$PWD/served:$PATH MAINPID=$! RESOURCE=file IMAGE=long "$TOP/packaging/node-leave" 2 2> errors
same "$(cat asked)" 'message --image long --id 2 --kind exit'
rm run/leaving-2
# a node that does not leave is waited for as long as its resources stop, and then for a while
sleep 30 &
kept=$!
leaves() {
    PATIENCE=5 PATH=$PWD/served:$PATH MAINPID=$kept RESOURCE=file IMAGE=long "$TOP/packaging/node-leave" 2 2> errors
}
if leaves; then echo 'a node that stays has left'; exit 1; fi
same "$(cat errors)" 'node 2 does not leave: '
echo '{"state": "stopping"}' > run/resource.json
(sleep 3; echo '{"state": "stuck"}' > run/resource.json) &
SECONDS=0
if leaves; then echo 'a node that stays has left'; exit 1; fi
[ "$SECONDS" -ge 3 ]
same "$(cat errors)" 'node 2 does not leave: {"state": "stuck"}'
kill "$kept"
rm run/resource.json
for image in nbd:192.0.2.1:10809 etcd:127.0.0.1:2379/prefix long@4096; do
    PATH=$PWD/served:$PATH MAIL=empty IMAGE=$image ended exited/0 'start --no-block quorumd@2.service' $'left clean\n'
    PATH=$PWD/served:$PATH MAIL=exit IMAGE=$image ended exited/0 '' $'left clean\n'
done

# words that are none
for helper in check opened leave ended; do
    for words in '' '1 2'; do
        # shellcheck disable=SC2086
        status=0; "$TOP/packaging/node-$helper" $words 2> errors || status=$?
        same "$status $(cat errors)" "2 usage: node-$helper N"
    done
done
