# Lines of a schedule of three images at fault by their fault, and events that a rule refuses, in a cluster of the nodes 1 and 2.
COMMAND=replay3
. "$TOP/tests/schedule-lines.sh"

fault TooLong "land 1 $(head -c 4090 /dev/zero | tr '\0' 1)"
fault UnknownWord 'Land 1 1' ' land 1 1' lands 'operator 1 1 empty' 'operator 1 1 Off' 'operator 1 1 '
fault BadCount land 'land 1' 'land 1 1 1' 'land 1 1 ' fail 'fail 1' 'fail 1 1 1' late 'late 1' 'late 1 1' 'late 1 1 1 1' operator 'operator 1' \
    'operator 1 off' 'operator 1 1 off off' 'done 1 1' 'boot 1 0 1' 'tick 1 1'
fault BadNumber 'land 1 0' 'land 1 4' 'land 1 01' 'land 1 x' 'land 1 1,2' 'land x 9' 'land 01 1' 'fail 1 0' 'fail 1 4' 'late 1 1 0' 'late 1 1 01' \
    'late 1 1 200001' 'late 1 4 0' 'late 1 0 1' 'operator 1 0 off' 'operator 1 4 empty' 'operator 1 off 1' 'operator x 1 off'
fault UnknownNode 'land 9 9' 'land 9 1' 'land 0 1' 'fail 9 x' 'late 9 0 0' 'operator 9 1 empty'

refused 2 'boot 1 0' 'boot 1 0'
refused 3 'land 1 1'
refused 3 'fail 1 3'
refused 3 'done 1'
refused 4 'boot 1 0' 'land 1 2' 'land 1 2'
refused 4 'boot 1 0' 'fail 1 2' 'land 1 2'
refused 5 'boot 1 0' 'fail 1 2' 'fail 1 2'
refused 5 'boot 1 0' 'land 1 2' 'fail 1 2' 'fail 1 2'
refused 5 'boot 1 0' 'land 1 1' 'land 1 2' 'done 1'
refused 6 'late 1 3 1'
refused 6 'boot 1 0' 'fail 1 1' 'late 1 1 1'
refused 10 'boot 1 0' 'operator 1 2 off' 'operator 1 2 clear'
refused 10 'boot 1 0' 'operator 1 1 clear' 'operator 2 3 exit' 'boot 2 0' 'operator 1 2 reset' 'operator 1 2 exit'
