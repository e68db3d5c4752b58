# Lines of a schedule at fault by their fault, and events that a rule refuses, in a cluster of the
# nodes 1 and 2.
COMMAND=replay
. "$TOP/tests/schedule-lines.sh"

fault TooLong "tick $(head -c 4092 /dev/zero | tr '\0' 1)"
fault UnknownWord tock 'Tick 1' ' tick 1' '' '# tick 1' 'device 1 maybe' 'device 1 Yes' 'operator 1 empty' 'operator 1 Off' \
    'operator 1 ' ' ' $'tick\t1' 'end 1' 'device 1 '
fault BadCount operator 'operator 1' 'operator 1 off off' 'boot-clean 1' tick 'tick 1 2' 'tick  1' 'boot 1' pass \
    'pass 1 2=100 1=100' 'pass 1 1=100 1=100' 'boot 1 0 0' 'crash 1 1' 'deliver 1' 'device 1' feed 'land 1 1' 'late 1' 'tick 1 ' \
    'view 1 1 1 1' 'view 1 1'
fault BadNumber 'tick 01' 'tick x' 'pass 0' 'boot 1 1000000000000001' 'late 1 0' 'pass 1 1' 'view 1 1 1,x' 'boot x x' 'boot 1 x' \
    'boot-clean 1 00' 'boot-clean 1 1000000000000001' 'operator x off' 'boot 1 00' $'tick 1\r' 'deliver 1 18446744073709551616' \
    'late 1 200001' 'pass 1 ' 'pass 1 =1' 'pass 1 1=' 'pass 1 1=1000000000001' 'pass 1 1=1=1' 'pass 1 1=0100' \
    'pass 0 2=100 1=100' 'pass 1 2=100 1=x' 'pass 1000000001' 'view 1 18446744073709551616 1' 'view 1 1 1,02' 'view 1 1 x,9'
fault UnknownNode 'tick 9' 'tick 0' 'pass 1 9=100' 'view 1 1 1,9' 'boot 9 x' 'boot-clean 9 x' 'operator 9 off' \
    'operator 9 empty' 'view 1 1 2,1,9' 'device 9 maybe' 'tick 18446744073709551615' 'view 9 x ,'
fault BadView 'view 1 1 2,1' 'view 1 1 1,1' 'view 1 1 1,' 'view 1 1 ,' 'view 1 1 1,,2' 'view 1 1 '

{ printf "$HEAD"; printf 'tick 1'; } > schedule
expect 4 'fault BadSchedule line 11 Unended\n' replay < schedule

# bad_times NAME LINE..: each of these lines, in the place of the timing line, has that fault
bad_times() {
    local name=$1 line
    shift
    for line; do
        { printf "${HEAD%timing*}"; printf '%s\n' "$line"; } > schedule
        expect 4 "fault BadSchedule line 10 $name\\n" replay < schedule
    done
}

bad_times UnknownWord '' '----' '# timing' 'tick 1' 'Timing 1 2 3 4 5' 'timing5000 10000 1000 2000 1000' \
    ' timing 5000 10000 1000 2000 1000' $'timing\t5000 10000 1000 2000 1000'
bad_times BadCount timing 'timing 5000 10000 1000 2000' 'timing 5000 10000 1000 2000 1000 1' 'timing 5000 10000 1000 2000 1000 ' \
    'timing  5000 10000 1000 2000 1000'
bad_times BadNumber 'timing 05000 10000 1000 2000 1000' 'timing 3600001 10000 1000 2000 1000' 'timing 5000 x 1000 2000 1000' \
    'timing 5000 18446744073709551616 1000 2000 1000' 'timing 5000 10000 0 2000 1000' 'timing 5000 1 1000 2000 0' \
    'timing 5000 10000 1000 2000 -1' 'timing 5000 10000 1000 2000 3600001' 'timing 5000 10000 1000 2000 000000000000000001000' \
    $'timing 5000 10000 1000 2000 1000\r'

refused 1 'boot 1 0' 'pass 5051'
refused 1 'boot 1 0' 'pass 1 1=98'
refused 2 'boot 1 0' 'boot 1 0'
refused 2 'boot 1 0' 'boot-clean 1 0'
refused 3 'tick 1'
refused 4 'boot 1 0' 'land 1' 'land 1'
refused 5 'boot 1 0' 'done 1'
refused 5 'boot 1 0' 'land 1' 'done 1' 'land 1' 'done 1' 'land 1' 'done 1' 'land 1' 'done 1' 'land 1' 'done 1' 'fail 1'
refused 5 'boot 1 0' 'stopped 1'
refused 6 'late 1 1'
refused 7 'boot 1 0' 'view 1 1 2'
refused 8 'boot 1 0' 'deliver 1 0'
refused 9 'boot 1 0' 'land 1' 'done 1' 'pass 1001' 'feed 1'
refused 3 'view 2 18446744073709551615 1,2'
refused 6 'late 1 200000'
refused 8 'boot 1 0' 'deliver 1 18446744073709551615'
refused 10 'boot 1 0' 'operator 1 off' 'operator 1 clear'
refused 10 'boot 1 0' 'operator 2 exit' 'boot 2 0' 'operator 1 reset' 'operator 1 exit'
