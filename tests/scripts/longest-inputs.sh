# 200000 lines of count, and 200000 events of a replay, are taken, and one more is too many. Of an input of 20000000 bytes no
# more is read than the piece of 4096 bytes in which the first fault stands, and of one whose answer cannot be written no more
# than the first piece.
. "$TOP/tests/expect.sh"

# ends STATUS 'END' LINES WORD..: runs the program with these words on the file `input`; it writes the first so many lines of
# the file `lines` and then END, and ends with that status; on standard error it says no more than what mends the fault
ends() {
    local wanted=$1 end=$2 count=$3 status=0
    shift 3
    "$QUORUMD" "$@" < input > got 2> errors || status=$?
    head -n "$count" lines > wanted
    printf '%s\n' "$end" >> wanted
    same "$* ends with $status" "$* ends with $wanted"
    cmp got wanted
    same "$(sed "/^quorumd: standard input: ${end#fault }: /d" errors)" ''
}

# stops COMMAND: where nothing can be written, the command reads one piece of the file `input`
stops() {
    same "$1 leaves $({ "$QUORUMD" "$1" > /dev/full 2> errors || true; wc -c; } < input)" "$1 leaves $(($(stat -c %s input) - 4096))"
}

# a node and 199999 views
{ echo 'node 1 1' && yes 'view 7 1' | head -n 199999; } > input
yes 'view 7 votes 1 quorum 1 quorate yes' | head -n 200000 > lines
ends 0 'end 199999' 199999 count
echo 'view 7 1' >> input
ends 4 'fault BadSchedule line 200001 TooMany' 199999 count
stops count

# seven lines of a head and 200000 events, each of which lets a millisecond pass
head='nodelist {\nnode {\nnodeid: 1\n}\n}\n----\ntiming 5000 10000 1000 2000 1000\n'
{ printf "$head" && yes 'pass 1' | head -n 200000; } > input
seq 200000 | sed 's/.*/& & - - holders=-/' > lines
ends 0 'end 200000' 200000 replay
echo 'pass 1' >> input
ends 4 'fault BadSchedule line 200008 TooMany' 200000 replay
stops replay
ends 4 'fault BadSchedule line 200008 TooMany' 0 status

# 20000000 bytes: two events, and then lines of 4097 bytes, of which the first one is at fault
before="${head}boot 1 0\ncrash 1\n"
long=$(head -c 4097 /dev/zero | tr '\0' x)
{ printf "$before" && yes "$long" || true; } | head -c 20000000 > input
same "$(stat -c %s input)" 20000000
printf '%s\n' '1 0 1 read-header holders=- quorate=no 0/1 why=down' '2 0 1 - holders=- quorate=no 0/1 why=down' > lines
ends 4 'fault BadSchedule line 10 TooLong' 2 replay
ends 4 'fault BadSchedule line 10 TooLong' 0 status

# unread COMMAND: what the command leaves of the input begins at the end of the piece that has the last byte which it needs
unread() {
    local needed=$(($(printf "$before" | wc -c) + 4097))
    local pieces=$(((needed + 4095) / 4096))
    same "$1 leaves $({ "$QUORUMD" "$1" > got || true; wc -c; } < input)" "$1 leaves $((20000000 - pieces * 4096))"
}
unread replay
unread status
