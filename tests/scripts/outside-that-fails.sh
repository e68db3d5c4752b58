# Real faults of standard input and standard output, and what the system says of them.
. "$TOP/tests/expect.sh"

expect 6 'fault ReadFault\n' count < .
same "$(cat .errors)" 'quorumd: standard input: Is a directory (os error 21)'
status=0
"$QUORUMD" count < "$TOP/examples/count.txt" > /dev/full 2> errors || status=$?
same "$status $(cat errors)" '7 quorumd: standard output: No space left on device (os error 28)'
status=0
"$QUORUMD" count < "$TOP/examples/count.txt" >&- 2> errors || status=$?
same "$status $(cat errors)" '7 quorumd: standard output: Bad file descriptor (os error 9)'
status=0
"$QUORUMD" count <&- > output 2> errors || status=$?
same "$status $(cat errors)" '6 quorumd: standard input: Bad file descriptor (os error 9)'
same "$(cat output)" 'fault ReadFault'

# that there is no standard error is no fault
for errors in /dev/full closed; do
    status=0
    if [ "$errors" = closed ]; then
        "$QUORUMD" list --image . > output 2>&- || status=$?
    else
        "$QUORUMD" list --image . > output 2> "$errors" || status=$?
    fi
    same "$status $(cat output)" '8 fault EnvFault'
done

# a word that is not UTF-8: status 2, and nothing is written
status=0
"$QUORUMD" $'\377' < /dev/null > output || status=$?
same "$status" 2
same "$(cat output)" ''
