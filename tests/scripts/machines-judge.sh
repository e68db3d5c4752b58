# tests/machines/judge: two owners at once are found, also where signs between were lost, and one after the other are none. The picture of its
# page is that of the journal beside it.
. "$TOP/tests/expect.sh"

# judged STATUS 'EVENTS' 'LINE..': what the judge makes of these events
judged() {
    local status=0
    printf "$2" > events
    "$TOP/tests/machines/judge" --journal journal events > said || status=$?
    same "$status" "$1"
    same "$(tr -s ' ' < said | sed 's/^ //' | paste -sd '|')" "$3"
}

# nothing at all, and lines that are none
judged 0 '' ''
judged 0 'neither\n1 1 sign\n' ''

# one after the other, with the reset between them
judged 0 '100.000 1 powered\n101.000 1 sign 1 1\n101.100 1 sign 1 2\n103.000 1 watchdog\n103.010 1 reset\n109.000 2 sign 1 1\n' \
    '0.00 machine 1 powered|1.00 machine 1 holds until 1.10: 2 signs, 0 lost|3.00 machine 1 watchdog|3.01 machine 1 reset|9.00 machine 2 holds until 9.00: 1 signs, 0 lost'
same "$(cat journal)" "$(printf '1.000 1\n1.100 1\n3.010 1 reset\n9.000 2')"

# two at once
judged 1 '1.000 1 sign 1 1\n1.100 2 sign 1 1\n1.200 1 sign 1 2\n' \
    '0.00 machine 1 holds until 0.20: 2 signs, 0 lost|0.10 machine 2 holds until 0.10: 1 signs, 0 lost|TWO OWNERS: machine 1 until 0.2 s, machine 2 from 0.1 s'
# a second between two signs is not enough, more is
judged 1 '1.000 1 sign 1 1\n2.000 2 sign 1 1\n' \
    '0.00 machine 1 holds until 0.00: 1 signs, 0 lost|1.00 machine 2 holds until 1.00: 1 signs, 0 lost|TWO OWNERS: machine 1 until 0.0 s, machine 2 from 1.0 s'
judged 0 '1.000 1 sign 1 1\n2.001 2 sign 1 1\n' \
    '0.00 machine 1 holds until 0.00: 1 signs, 0 lost|1.00 machine 2 holds until 1.00: 1 signs, 0 lost'

# the signs of machine 1 from 2 to 49 were lost: it held all the while, and machine 2 beside it
judged 1 '1.000 1 sign 1 1\n3.000 2 sign 1 1\n3.100 2 sign 1 2\n6.000 1 sign 1 50\n' \
    '0.00 machine 1 holds until 5.00: 2 signs, 48 lost|2.00 machine 2 holds until 2.10: 2 signs, 0 lost|TWO OWNERS: machine 1 until 5.0 s, machine 2 from 2.0 s'
# another holding of the same boot is another one, and so is one of another boot: between them nobody is known to hold
judged 0 '1.000 1 sign 1 1\n3.000 2 sign 1 1\n6.000 1 sign 2 1\n' \
    '0.00 machine 1 holds until 0.00: 1 signs, 0 lost|2.00 machine 2 holds until 2.00: 1 signs, 0 lost|5.00 machine 1 holds until 5.00: 1 signs, 0 lost'
judged 0 '1.000 1 sign 1 1\n2.000 1 powered\n3.000 2 sign 1 1\n6.000 1 sign 1 1\n' \
    '0.00 machine 1 holds until 0.00: 1 signs, 0 lost|1.00 machine 1 powered|2.00 machine 2 holds until 2.00: 1 signs, 0 lost|5.00 machine 1 holds until 5.00: 1 signs, 0 lost'

# half a sign is one
judged 1 '1.000 1 sign 1 1\n5.000 1 sign 7\n5.100 2 sign 1 1\n' \
    '0.00 machine 1 holds until 4.00: 2 signs, 0 lost|4.10 machine 2 holds until 4.10: 1 signs, 0 lost|TWO OWNERS: machine 1 until 4.0 s, machine 2 from 4.1 s'
judged 0 '1.000 1 sign \n' '0.00 machine 1 holds until 0.00: 1 signs, 0 lost'

# bounded STATUS SCENE SLOW 'EVENTS' 'LINE..': what the judge says of the bounds of that scene, with the times 8, 16, 1.5, 3, 1 s
bounded() {
    local status=0
    printf "$4" > events
    "$TOP/tests/machines/judge" --scene "$2" --times 8000,16000,1500,3000,1000 --slow "$3" events > said || status=$?
    same "$status" "$1"
    same "$(grep '^OUT OF BOUNDS' said | paste -sd '|')" "$5"
}

# scene RESET OWNER [EVENT..]: machine 1 holds until its reset, so many seconds after the fault at 100, and machine 2 from so many seconds on; - is never
scene() {
    printf '90.000 1 sign 1 1\\n100.000 scene fault it is killed\\n'
    [ "$1" = - ] || awk -v at="$1" 'BEGIN { printf "%.3f 1 sign 1 2\\n%.3f 1 reset\\n", 99 + at, 100 + at }'
    [ "$2" = - ] || awk -v at="$2" 'BEGIN { printf "%.3f 2 sign 1 1\\n", 100 + at }'
    shift 2
    [ $# = 0 ] || printf '%s\\n' "$@"
}

# as it is; a watchdog that resets too soon, too late, never; a start before the fence and msgwait, too late, never; a reset that nobody ordered
bounded 0 hang 1 "$(scene 7 22)" ''
bounded 1 hang 1 "$(scene 5.2 22)" 'OUT OF BOUNDS: machine 1 was reset 5.2 s after the fault, and 5.2 is the least'
bounded 0 hang 1 "$(scene 9.3 22)" ''
bounded 1 hang 1 "$(scene 12.6 22)" 'OUT OF BOUNDS: machine 1 was reset 12.6 s after the fault, and 9.3 is the most'
bounded 1 hang 1 "$(scene - 22)" 'OUT OF BOUNDS: machine 1 was NOT RESET'
bounded 1 hang 1 "$(scene 4 6)" 'OUT OF BOUNDS: machine 1 was reset 4.0 s after the fault, and 5.2 is the least|OUT OF BOUNDS: machine 2 took over 6.0 s after the fault, and nobody may within 18.8'
bounded 1 hang 1 "$(scene 7 32)" 'OUT OF BOUNDS: machine 2 took over 32.0 s after the fault, and 31.0 is the most'
bounded 1 hang 1 "$(scene 7 -)" 'OUT OF BOUNDS: NOBODY TOOK OVER'
bounded 1 hang 1 "$(scene 7 22 '107.000 3 reset')" 'OUT OF BOUNDS: machine 3 was reset'
# upper bounds grow with the load of the bed, lower ones do not; that of a reset grows by half a second a time: a feed that is five seconds late is seen on any bed
bounded 0 hang 1.5 "$(scene 9.5 40)" ''
bounded 1 hang 3.9 "$(scene 10.8 40)" 'OUT OF BOUNDS: machine 1 was reset 10.8 s after the fault, and 10.8 is the most'
bounded 1 hang 1.5 "$(scene 5.2 18)" 'OUT OF BOUNDS: machine 1 was reset 5.2 s after the fault, and 5.2 is the least|OUT OF BOUNDS: machine 2 took over 18.0 s after the fault, and nobody may within 18.8'
# where nothing must come, and where nothing is asked
bounded 0 message_test 1 "$(scene - -)" ''
bounded 1 message_test 1 "$(scene - 5)" 'OUT OF BOUNDS: machine 2 took over, and nobody was to'
bounded 1 power_off 1 "$(scene 3 22)" 'OUT OF BOUNDS: machine 1 was reset'
bounded 0 mail_unread 1 "$(scene 2 22)" ''
bounded 1 mail_unread 1 "$(scene 7 24)" 'OUT OF BOUNDS: machine 1 was reset 7.0 s after the fault, and 4.5 is the most'
# from the write of the reset on: msgwait less 1 %
bounded 0 slewed 1 "$(scene - 15.9)" ''
bounded 1 slewed 1 "$(scene - 14.6)" 'OUT OF BOUNDS: machine 2 took over 14.6 s after the fault, and nobody may within 15.8'
bounded 0 wrong_watchdog 1 "$(scene 3 6)" ''

# site SCENE STATUS MACHINE OWNER 'LINE..' [EVENT..]: machine 1 holds, and at 100 all plugs are pulled. The machines are up again at 115, 146 and 170; MACHINE holds from OWNER on
site() {
    local name=$1 want=$2 who=$3 owner=$4 lines=$5
    shift 5
    bounded "$want" "$name" 1 "$(printf '%s\\n' '80.000 1 powered' '80.000 2 powered' '80.000 3 powered' '85.000 1 console machine: up after 4 s' \
        '85.000 2 console machine: up after 4 s' '85.000 3 console machine: up after 4 s' '90.000 1 sign 1 1' '100.000 scene fault the site is off' '100.100 1 off' '100.100 2 off' \
        '100.100 3 off' '110.000 2 powered' '115.000 2 console machine: up after 4 s' '140.000 3 powered' '146.000 3 console machine: up after 5 s' '165.000 1 powered' \
        '170.000 1 console machine: up after 4 s' "$owner.000 $who sign 1 1" '200.000 2 console the last line' "$@")" "$lines"
}

# from when two machines are back on
site site_off 0 1 175 ''
site site_off 0 2 146 ''
site site_off 1 2 145 'OUT OF BOUNDS: machine 2 took over before enough hosts were back'
site site_off 1 2 184 'OUT OF BOUNDS: machine 2 took over 38.0 s after enough hosts were back, and 37.0 is the most'
site site_off 1 2 150 'OUT OF BOUNDS: machine 3 was reset' '151.000 3 reset'
site site_returns 0 3 163 ''
site site_returns 1 3 161 'OUT OF BOUNDS: machine 3 took over 15.0 s after enough hosts were back, and nobody may within 15.8'
site site_returns 1 2 120 'OUT OF BOUNDS: machine 2 took over before enough hosts were back'
bounded 1 hang 1 '90.000 1 sign 1 1\n' 'OUT OF BOUNDS: the scene has no fault'
# with --first the fault is one of another machine
printf '90.000 2 sign 1 1\n100.000 scene fault it is killed\n106.000 2 sign 1 2\n107.000 2 reset\n122.000 1 sign 1 1\n' > events
"$TOP/tests/machines/judge" --scene hang --times 8000,16000,1500,3000,1000 --first 2 events > said
status=0
"$TOP/tests/machines/judge" --scene hang --times 8000,16000,1500,3000,1000 events > said || status=$?
same "$status $(grep -c '^OUT OF BOUNDS' said)" '1 3'

# rows STATUS 'ACKNOWLEDGED' 'FOUND' 'LINE..' [WORD..]: what is said of rows
rows() {
    local status=0 want=$1 lines=$4
    printf "$2" > acknowledged
    printf "$3" > found
    shift 4
    "$TOP/tests/judge-rows" "$@" acknowledged found > said || status=$?
    same "$status" "$want"
    same "$(paste -sd '|' said)" "$lines"
}

rows 0 '1 1000\n2 1050\n4 31050\n5 31100\n' '1\n2\n3\n4\n5\n' '4 rows acknowledged, 0 lost, 30000 ms the longest time without one'
rows 1 '1 1000\n2 1050\n4 31050\n5 31100\n' '1\n5\n' '4 rows acknowledged, 2 lost, 30000 ms the longest time without one|2 acknowledged rows are LOST'
# after the first two, the time since the second one; after three, of which one is lost
rows 0 '1 1000\n2 1050\n4 31050\n5 31100\n' '1\n2\n4\n5\n' '2 rows acknowledged, 0 lost, 30000 ms the longest time without one' --from 2
rows 1 '1 1000\n2 1050\n4 31050\n5 31100\n' '2\n4\n5\n' '1 rows acknowledged, 1 lost, 50 ms the longest time without one|1 acknowledged rows are LOST' --from 3
rows 77 '' '1\n' '0 rows acknowledged, 0 lost, 0 ms the longest time without one|no row was acknowledged'

# each scene has its line of bounds, or is one that begins no machine, or loses others than machine 1, or is judged by `quorums`
(. "$TOP/tests/machines/scenes.sh" && . "$TOP/tests/machines/arbiter.sh" && . "$TOP/tests/machines/database.sh" && printf '%s\n' "${all_scenes[@]}") | sort > scenes
grep -v '^#' "$TOP/tests/machines/bounds" | cut -f 1 | sort > bounded
same "$(comm -13 scenes bounded)" ''
same "$(comm -23 scenes bounded | grep -v '^arbiter_' | paste -sd ' ')" 'leader_killed long_sectors_unsaid two_servers_of_three wrong_watchdog'

"$TOP/bin/timeline" --title 'The node of the holder is killed' --journal "$TOP/tests/machines/take-over.journal" | cmp - "$TOP/tests/machines/take-over.svg"
