# `quorumctl watchdog`: the line of a device by made files of sysfs, as Linux writes them, what is no device, and the words. The rows of what such files
# say are those of watchdog-rows.py.
. "$TOP/tests/expect.sh"

# said STATUS 'LINE' WORD..: what the command answers to these words
said() {
    local want=$1 line=$2 status=0
    shift 2
    "$QUORUMCTL" watchdog "$@" > got 2> errors || status=$?
    same "$*: $status $(cat got errors)" "$*: $want $line"
}

# device SECONDS NOWAYOUT OPTIONS: what the kernel says of a device, which is /dev/null
device() {
    printf '%s\n' "$1" > sys/dev/char/1:3/timeout
    printf '%s\n' "$2" > sys/dev/char/1:3/nowayout
    printf '%s\n' "$3" > sys/dev/char/1:3/options
}
mkdir -p sys/dev/char/1:3
echo 'i6300ESB timer' > sys/dev/char/1:3/identity
driver='driver i6300ESB timer, time'
device 5 0 0x8180
said 0 "$driver 5 s, nowayout 0: good" /dev/null --sys sys --watchdog 5000
said 1 "$driver 5 s, nowayout 0: its time is 5 s, the image says 4999 ms" /dev/null --watchdog 4999 --sys sys
device 30 1 0x8180
said 0 "$driver 30 s, nowayout 1: nowayout is 1: also after a node that left, it resets the machine" /dev/null --sys sys
device 30 0 0x8080
said 1 "$driver 30 s, nowayout 0: it has no magic close: it stops where the program is killed" /dev/null --sys sys
# what is no watchdog
: > file
mkfifo pipe
said 1 'a file or a pipe: it resets nothing' file
said 1 'a file or a pipe: it resets nothing' pipe
said 1 'neither a device nor a file' .
said 1 'its time cannot be read: perhaps it is no watchdog, and resets nothing' /dev/null --sys absent
said 8 'quorumctl: absent: No such file or directory (os error 2); look at the path, and whether its file system is mounted' absent
# the words
usage='usage: watchdog PATH [--watchdog 1..3600000] [--sys FOLDER]'
said 2 "quorumctl: a word is missing; $usage"
said 2 "quorumctl: \"0\" is not taken; $usage" /dev/null --watchdog 0
said 2 "quorumctl: a value is missing at the end, FOLDER; $usage" /dev/null --sys
