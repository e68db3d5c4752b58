# A directory, a path through a file, and a file without the right to write: the env's fault with the system's word for it, and
# nothing is written. What only reads, reads a file without the right to write.
. "$TOP/tests/expect.sh"

# refused PATH WORD..: this command on the image of that path is refused, and the system says so
refused() {
    local path=$1 word=$2
    shift 2
    expect 8 'fault EnvFault\n' "$@" --image "$path" < "$TOP/examples/one-node.conf"
    same "$(head -n 1 .errors)" "quorumd: $path: $word"
}

# refused_all PATH WORD: every command is
refused_all() {
    refused "$1" "$2" create
    refused "$1" "$2" dump
    refused "$1" "$2" list
    refused "$1" "$2" message --id 1 --kind off
    refused "$1" "$2" migrate
}

mkdir folder
touch file
refused_all folder 'Is a directory (os error 21)'
refused_all file/disk 'Not a directory (os error 20)'
refused_all folder/absent/disk 'No such file or directory (os error 2)'
refused_all '' 'No such file or directory (os error 2)'
same "$(ls -A folder)" ''

expect 0 'created nodes 1\n' create --image disk < "$TOP/examples/one-node.conf"
cp disk before
chmod 444 disk
if [ "$(id -u)" = 0 ]; then
    # root may write everywhere: start the program as nobody
    cp "$QUORUMD" program
    QUORUMD=$PWD/program
    chmod 755 . program
    RUN_AS=(setpriv --reuid=65534 --regid=65534 --clear-groups)
fi
denied='Permission denied (os error 13)'
refused "$PWD/disk" "$denied" create
refused "$PWD/disk" "$denied" message --id 1 --kind off
expect 0 'migrated nodes 1\n' migrate --image "$PWD/disk"
expect 0 'node 1 incarnation 0 clean mail empty\n' list --image "$PWD/disk"
expect 0 "$(printf '%s\\n' 'version 2' 'nodes 1' 'watchdog 5000' 'msgwait 10000' 'loop 1000' 'read_limit 2000' 'feed_delay 1000' 'safe yes')" dump --image "$PWD/disk"
cmp disk before

# one that nobody of this user may read
chmod 000 disk
refused_all "$PWD/disk" "$denied"
