# A program that feeds another one a line at a time is answered: all whole lines that were read are judged and answered before
# more of the input is read, also where the first part of the input ends inside a line.
. "$TOP/tests/expect.sh"

# answered FIRST WANTED SECOND WORD..: writes FIRST to the program with these words, waits until it has answered WANTED, and
# only then writes SECOND
answered() {
    local first=$1 wanted=$2 second=$3 tries=0
    shift 3
    rm -f input got && mkfifo input && : > got
    "$QUORUMD" "$@" < input > got &
    exec 3> input
    printf "$first" >&3
    printf "$wanted" > wanted
    until cmp -s wanted got; do
        tries=$((tries + 1))
        if [ "$tries" = 100 ]; then
            printf 'quorumd %s\nwanted before more is read:\n%s\ngot:\n%s\n' "$*" "$(cat wanted)" "$(cat got)"
            exit 1
        fi
        sleep 0.05
    done
    printf "$second" >&3
    exec 3>&-
    wait $!
}

answered 'node 1 1\nview 1 1\nview 2' 'view 1 votes 1 quorum 1 quorate yes\n' ' 1\n' count
same "$(tail -n 2 got)" 'view 2 votes 1 quorum 1 quorate yes
end 2'

head='nodelist {\nnode {\nnodeid: 1\n}\n}\n----\ntiming 5000 10000 1000 2000 1000\n'
booted='1 0 1 read-header holders=- quorate=no 0/1 why=down\n'
answered "${head}boot 1 0\npass 50" "$booted" '50\n' replay
same "$(tail -n 2 got)" '2 5050 - - holders=-
end 2'

# one line at a time, and nothing but whole lines
for command in replay replay3; do
    answered "${head}boot 1 0\n" "$booted" 'pass 5050\n' "$command"
    same "$(tail -n 1 got)" 'end 2'
done
