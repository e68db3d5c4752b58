# Nothing is read beyond the piece of 4096 bytes in which the first fault stands: what is left of a file as standard input
# says how far a command has read.
. "$TOP/tests/expect.sh"

# reads BYTES STATUS 'OUTPUT' WORD..: the command ends so, and has read that much of the file `input`
reads() {
    local bytes=$1 left
    shift
    exec 3< input
    expect "$@" <&3
    left=$(wc -c <&3)
    same "$3 has read $(($(wc -c < input) - left))" "$3 has read $bytes"
}

# lines COUNT LINE: that line so many times
lines() {
    yes "$2" | head -n "$1" || true
}

# `count`: node lines of 11 bytes; the line at fault is the first, ends in the second piece, or ends with the first piece
{ echo other; lines 2000 'node 1 1'; } > input
reads 4096 4 'fault BadSchedule line 1 UnknownWord\n' count
{ for id in $(seq 10 41); do echo "node $id 100"; done; } > nodes
{ cat nodes; lines 2000 'node 1'; } > input
reads 4096 4 'fault BadSchedule line 33 BadCount\n' count
{ head -c 4090 /dev/zero | tr '\0' x; echo; lines 2000 'node 1 1'; } > input
reads 4096 4 'fault BadSchedule line 1 UnknownWord\n' count
{ head -c 4095 /dev/zero | tr '\0' x; echo; lines 2000 'node 1 1'; } > input
reads 4096 4 'fault BadSchedule line 1 UnknownWord\n' count
{ head -c 4096 /dev/zero | tr '\0' x; echo; lines 2000 'node 1 1'; } > input
reads 8192 4 'fault BadSchedule line 1 UnknownWord\n' count
{ head -c 9000 /dev/zero | tr '\0' x; echo; } > input
reads 8192 4 'fault BadSchedule line 1 TooLong\n' count

# `replay`, `replay3` and `status`: a fault of the timing line, and one of an event in the third piece
{ cat "$TOP/examples/one-node.conf"; printf -- '----\ntiming 5000\n'; lines 4000 'tick 1'; } > input
for command in replay replay3 status; do
    reads 4096 4 'fault BadSchedule line 7 BadCount\n' "$command"
done
{ cat "$TOP/examples/one-node.conf"; lines 1000 '# nothing'; printf -- '----\ntiming 5000 10000 1000 2000 1000\ntock\n'; lines 4000 'tick 1'; } > input
for command in replay replay3 status; do
    reads 12288 4 'fault BadSchedule line 1008 UnknownWord\n' "$command"
done
