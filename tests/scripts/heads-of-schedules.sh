# How a schedule ends by its head: cut inside each part of it, with a fault in each, and at the limits of its lengths.
. "$TOP/tests/expect.sh"

NODE='nodelist {\nnode {\nnodeid: 1\n}\n}\n'
TIMES='----\ntiming 5000 10000 1000 2000 1000\n'

# ends STATUS 'LINE' 'TEXT': the replay of this text writes this line alone
ends() {
    printf -- "$3" > schedule
    expect "$1" "$2\\n" replay < schedule
}

# cut at each of its parts
ends 4 'fault BadSchedule line 1 Unended' ''
ends 4 'fault BadSchedule line 2 Unended' '\n'
ends 4 'fault BadSchedule line 1 Unended' '-'
ends 4 'fault BadSchedule line 1 Unended' '----'
ends 3 'fault BadConf NoNodes' '----\n'
ends 3 'fault BadConf NoNodes' '----\ntim'
ends 4 'fault BadSchedule line 3 Unended' 'x\n}\n# y'
ends 4 'fault BadSchedule line 3 Unended' 'x\n}\n'
ends 4 'fault BadSchedule line 6 Unended' "$NODE"
ends 4 'fault BadSchedule line 6 Unended' "$NODE---"
ends 4 'fault BadSchedule line 6 Unended' "$NODE----"
ends 4 'fault BadSchedule line 7 Unended' "$NODE----\n"
ends 4 'fault BadSchedule line 7 Unended' "$NODE----\ntim"
ends 4 'fault BadSchedule line 7 Unended' "$NODE----\ntimin 1 1 1 1 1"
ends 0 'end 0' "$NODE$TIMES"

# a fault in each of them
ends 3 'fault BadConf BadLine line 1' 'x\n----\ntock\n'
ends 3 'fault BadConf BadLine line 2' "# one\n---\n$NODE$TIMES"
ends 3 'fault BadConf BadLine line 2' "# one\n-----\n$NODE$TIMES"
ends 3 'fault BadConf BadLine line 2' "# one\n ----\n$NODE$TIMES"
ends 3 'fault BadConf BadLine line 2' "# one\n----\r\n$NODE$TIMES"
ends 0 'end 0' "----: x\n$NODE$TIMES"
ends 3 'fault BadConf RepeatedId id 1' "$NODE$NODE----\ntiming 1 1 1 1 1\n"
ends 4 'fault BadSchedule line 7 UnknownWord' "$NODE----\n----\n"
ends 4 'fault BadSchedule line 7 UnknownWord' "$NODE----\n\n"
ends 4 'fault BadSchedule line 7 BadNumber' "$NODE----\ntiming 5000 1 1000 2000 0\n"
ends 10 'fault UnsafeTiming 5000 8163 1000 2000 1000' "$NODE----\ntiming 5000 8163 1000 2000 1000\n"
ends 5 'fault NotAllowed line 8 rule 3' "$NODE${TIMES}tick 1\n"
ends 4 'fault BadSchedule line 8 UnknownWord' "$NODE$TIMES\n"
ends 4 'fault BadSchedule line 8 UnknownWord' "$NODE$TIMES----\n"
ends 4 'fault BadSchedule line 8 Unended' "$NODE${TIMES}x"

# bounded STATUS 'LINE' 'BEFORE' COUNT BYTE 'AFTER': the same of a text with so many of a byte between two others
bounded() {
    { printf -- "$3"; head -c "$4" /dev/zero | tr '\0' "$5"; printf -- "$6"; } > schedule
    expect "$1" "$2\\n" replay < schedule
}

# the settings text has at most 1048576 bytes, a rest that begins the line after it not counted
bounded 0 'end 0' "$NODE" 1048543 '#' "\n$TIMES"
bounded 3 'fault BadConf TooLong' "$NODE" 1048544 '#' "\n$TIMES"
bounded 3 'fault BadConf TooLong' 'x\n' 1048574 '#' "\n$TIMES"
bounded 3 'fault BadConf NoNodes' '' 1048575 '#' '\n----\n'
bounded 4 'fault BadSchedule line 2 Unended' '' 1048575 '#' '\n---'
bounded 4 'fault BadSchedule line 2 Unended' '' 1048575 '#' '\n----'
bounded 3 'fault BadConf TooLong' '' 1048575 '#' '\n---x'
bounded 3 'fault BadConf TooLong' '' 1048575 '#' '\n---\n'
bounded 3 'fault BadConf TooLong' '' 1048575 '#' '\n-----'
{ yes 'k: v' | head -n 100000; printf -- "$NODE$TIMES"; } > schedule
expect 0 'end 0\n' replay < schedule

# a line after it has at most 4096
bounded 4 'fault BadSchedule line 7 Unended' "$NODE----\n" 4096 t ''
bounded 4 'fault BadSchedule line 7 TooLong' "$NODE----\n" 4097 t ''
bounded 4 'fault BadSchedule line 8 UnknownWord' "$NODE$TIMES" 4096 t '\n'
bounded 4 'fault BadSchedule line 8 TooLong' "$NODE$TIMES" 4097 t '\n'
bounded 4 'fault BadSchedule line 8 TooLong' "$NODE$TIMES" 4097 t ''
