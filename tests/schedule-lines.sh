# For the scripts of this folder that try lines of schedules. They set COMMAND, which plays the schedule of a cluster of the nodes 1 and 2.
. "$TOP/tests/expect.sh"

HEAD='nodelist {\nnode {\nnodeid: 1\n}\nnode {\nnodeid: 2\n}\n}\n----\ntiming 5000 10000 1000 2000 1000\n'

# fault NAME LINE..: each of these lines, as the first event, has that fault
fault() {
    local name=$1 line
    shift
    for line; do
        { printf "$HEAD"; printf '%s\n' "$line"; } > schedule
        expect 4 "fault BadSchedule line 11 $name\\n" "$COMMAND" < schedule
    done
}

# refused RULE LINE..: the last of these events is refused by that rule, after the trace of the others
refused() {
    local rule=$1 status=0
    shift
    { printf "$HEAD"; printf '%s\n' "$@"; } > schedule
    "$QUORUMD" "$COMMAND" < schedule > got || status=$?
    same "$status $(tail -n 1 got)" "5 fault NotAllowed line $((10 + $#)) rule $rule"
    same "$(wc -l < got)" "$#"
}
