# bin/timeline: the picture of each incident that has one is the one beside its story, which shows it; its lanes are those of the trace, as this script
# reads it, and of `quorumd status` wherever they change; no text lies over another one, and no line crosses one. And what it says of words and schedules at fault.
. "$TOP/tests/expect.sh"

export QUORUMD
# the interpreter itself, and no wrapper that looks for it at each call; with the standard library alone
python=$(python3 -c 'import sys; print(sys.executable)')
timeline() {
    "$python" -I -S "$TOP/bin/timeline" "$@"
}

# is_shown FOLDER WORD..: the picture of the folder's schedule, drawn with these words, is the one that its story shows
is_shown() {
    local folder=$1
    shift
    timeline --title "$(sed -n '1s/^# //p' "$folder/story.md")" "$@" "$folder/schedule" > drawn.svg
    cmp drawn.svg "$folder/timeline.svg"
    grep -q '](timeline.svg)' "$folder/story.md" || { printf '%s/story.md does not show its picture\n' "$folder"; exit 1; }
}
for folder in "$TOP"/examples/incidents/*/; do
    if [ -e "$folder/timeline.svg" ]; then
        is_shown "$folder"
    elif grep -q timeline.svg "$folder/story.md"; then
        printf '%s/story.md shows a picture that is not there\n' "$folder"
        exit 1
    fi
done
for folder in "$TOP"/examples/three-images/*/; do
    is_shown "$folder" --three-images
done
# a schedule in two pictures, each of some of its events
folder=$TOP/examples/arbiter/the-vote-moves
for part in 'leased 1..57 The vote is leased' 'moves 57..108 The vote moves'; do
    read -r name events title <<< "$part"
    timeline --title "$title" --arbiter --events "$events" "$folder/schedule" > drawn.svg
    cmp drawn.svg "$folder/$name.svg"
    grep -q "]($name.svg)" "$folder/story.md"
done

# refused STATUS PATTERN WORD..: bin/timeline ends with this status, writes no picture, and says this on standard error
refused() {
    local wanted=$1 pattern=$2 status=0
    shift 2
    timeline "$@" > drawn 2> errors || status=$?
    same "$status $(wc -c < drawn)" "$wanted 0"
    grep -qE "$pattern" errors || { printf 'timeline %s: %s\n' "$*" "$(cat errors)"; exit 1; }
}

refused 2 '^usage: timeline \[--title TITLE\] \[--three-images | --arbiter | --journal | --record \[--id ID --settings CONF\]\] \[--events FIRST..LAST\] \[FILE\]' --colour < "$TOP/examples/letting-time-pass.schedule"
refused 2 '^usage: timeline \[--title TITLE\] \[--three-images | --arbiter | --journal | --record \[--id ID --settings CONF\]\] \[--events FIRST..LAST\] \[FILE\]' one two
refused 2 '^usage: timeline \[--title TITLE\] \[--three-images | --arbiter | --journal | --record \[--id ID --settings CONF\]\] \[--events FIRST..LAST\] \[FILE\]' no-such-file
refused 4 '^timeline: fault BadSchedule line 1 Unended$' < /dev/null
refused 3 '^timeline: fault BadConf ' < <(printf 'nodelist {\n----\n')
refused 5 '^timeline: fault NotAllowed line 19 rule 1$' < <(sed '1,/^boot/!d' "$TOP/examples/letting-time-pass.schedule"; echo 'pass 5051')

refused 17 '^timeline: fault UnsafeLease 10000 2000 12243$' --arbiter < <(sed '/^lease/s/12244/12243/' "$TOP/examples/arbiter/the-vote-moves/schedule")

# events that are none
refused 2 '^timeline: --events 5..4: there are the events 1 to 108$' --arbiter --events 5..4 "$folder/schedule"
refused 2 '^timeline: --events 1..109: there are the events 1 to 108$' --arbiter --events 1..109 "$folder/schedule"
refused 2 '^timeline: .*--events FIRST..LAST' --arbiter --events 0..1 "$folder/schedule"
refused 2 '^timeline: .*--events FIRST..LAST' --journal --events 1..2 "$TOP/examples/live/journal"

# an arbiter that crashes is bound no more, and gives no yes for a lease from its next boot on
sed '/^hear 0$/q' "$TOP/examples/arbiter/the-vote-moves/schedule" > crashing
printf '%s\n' 'arbiter-crash' 'arbiter-boot 0' >> crashing
timeline --arbiter crashing > drawn.svg
same "$(sed -n '/data-lane="arbiter"/,$p' drawn.svg | grep -o 'data-kind="[a-z]*" data-\(first="[0-9]*" data-last\|point\)="[0-9]*"' | tr -d '"' | xargs)" \
    'data-kind=yes data-point=14 data-kind=crashes data-point=15 data-kind=up data-first=1 data-last=15 data-kind=up data-first=16 data-last=17 data-kind=waits data-first=1 data-last=2 data-kind=bound data-first=14 data-last=15 data-kind=waits data-first=16 data-last=17'

# a picture that cannot be written
status=0
timeline "$TOP/examples/letting-time-pass.schedule" > /dev/full 2> errors || status=$?
same "$status $(cat errors)" '2 timeline: No space left on device'
same "$(timeline "$TOP/examples/letting-time-pass.schedule" 2>&1 | head -c 4)" '<svg'

# a journal: who signs again within a second went on, and the lines need not stand in their order
printf '%s\n' '2.4 1' '3.02 1' '3.9 1' '17.58 2' '17.56 2' '18.5 2' '36.96 1' '37.5 2' > journal
timeline --journal journal > drawn.svg
same "$(grep -o 'data-lane="[^"]*"\|data-kind="holds" data-first="[0-9]*" data-last="[0-9]*"' drawn.svg | tr -d '"' | xargs)" \
    'data-lane=node 1 data-kind=holds data-first=1 data-last=3 data-kind=holds data-first=7 data-last=9 data-lane=node 2 data-kind=holds data-first=4 data-last=6 data-kind=holds data-first=8 data-last=9'
same "$(grep -o 'data-time="[0-9]*"' drawn.svg | head -n 1)" 'data-time="2400"'
timeline --journal < /dev/null | grep -q '<title>journal</title>'
# a reset ends what its owner signed, and is a mark in its lane
printf '%s\n' '2.4 1' '3.02 1' '3.6 1 reset' '4.1 1' '17.56 2' '18.1 3 reset' > journal
timeline --journal journal > drawn.svg
same "$(grep -o 'data-lane="[^"]*"\|data-kind="[a-z]*" data-\(first="[0-9]*" data-last\|point\)="[0-9]*"' drawn.svg | tr -d '"' | xargs)" \
    'data-lane=node 1 data-kind=reset data-point=3 data-kind=holds data-first=1 data-last=3 data-kind=holds data-first=4 data-last=4 data-lane=node 2 data-kind=holds data-first=5 data-last=7 data-lane=node 3 data-kind=reset data-point=6'
grep -q 'its machine is reset' drawn.svg
for line in '1 1.5' '1,5 1' '1.5' '1.5 1 2' '' '-1 1' '1.5 1 off'; do
    refused 2 "^timeline: line 2: $line: not a time in seconds and an id$" --journal < <(printf '0.5 1\n%s\n' "$line")
done

# what two nodes said: one holds, resets the other one, and leaves; lines of the system are passed over
said() {
    printf 'quorumd: node=%s tick=1 time=1795899837.%s level=5 event=%s\n' "$@"
}
{
    said 2 775 'phase from=booting to=up'
    said 1 700 'open port=7400 image=d resource=r watchdog=w ok=yes'
    said 2 800 'view view=2 members=2 quorate=yes votes=1 quorum=1 expected=1'
    printf 'quorumd: disk: Permission denied (os error 13)\n'
    said 2 820 'why why=unfenced:1:unwritten'
    said 2 850 'fence-written of=1 ok=yes msgwait=10000'
    said 2 900 'hold-won'
    said 1 910 'mail message=reset by=2 by-incarnation=1'
    said 1 950 'end end="fault SelfReset reset"'
    said 2 999 'end end="left clean"'
} > journal
timeline --journal journal > drawn.svg
same "$(grep -o 'data-lane="[^"]*"\|data-kind="[a-z]*" data-\(first="[0-9]*" data-last\|point\)="[0-9]*"' drawn.svg | tr -d '"' | xargs)" \
    'data-lane=node 1 data-kind=landed data-point=5 data-kind=message data-point=7 data-kind=halts data-point=8 data-kind=booting data-first=1 data-last=8 data-lane=node 2 data-kind=view data-point=3 data-kind=left data-point=9 data-kind=up data-first=2 data-last=9 data-kind=holds data-first=6 data-last=9 data-kind=quorate data-first=3 data-last=9 data-kind=blocked data-first=4 data-last=9'

# drawn_as WANTED: what the lanes of drawn.svg have, and who holds at once
drawn_as() {
    same "$(grep -o 'data-lane="[^"]*"\|data-kind="[a-z]*" data-\(first="[0-9]*" data-last\|point\)="[0-9]*"' drawn.svg | tr -d '"' | sed 's/data-//g' | xargs)" "$1"
}
# two owners at once are framed, and named
printf '%s\n' '2.40 1' '2.90 1' '9.51 2' '10.02 2' '9.70 1' '9.90 1' | timeline --journal > drawn.svg
drawn_as 'kind=overlap first=4 last=5 lane=node 1 kind=holds first=1 last=2 kind=holds first=4 last=7 lane=node 2 kind=holds first=3 last=7'
grep -qF 'data-kind="overlap" data-first="4" data-last="5" data-text="node 2 and node 1 sign"' drawn.svg
grep -qF '>TWO AT ONCE<' drawn.svg
printf '%s\n' '1 1' '1 2' | timeline --journal | grep -qF 'data-text="node 1 and node 2 sign"'
printf '%s\n' '1 1' '1.1 2' | timeline --journal > drawn.svg
same "$(grep -c 'data-kind="overlap"' drawn.svg)" 0
# so are two nodes that hold by their own words; a halt and the end after it are one mark
{
    said 1 100 'hold-won'
    said 2 200 'hold-won'
    said 1 300 'hold-lost'
    said 1 400 'halt cause=reset'
    said 1 401 'end end="fault SelfReset reset"'
} > journal
timeline --journal journal > drawn.svg
drawn_as 'kind=overlap first=2 last=3 lane=node 1 kind=halts point=4 kind=holds first=1 last=3 lane=node 2 kind=holds first=2 last=6'
grep -qF 'data-text="node 1 and node 2 hold"' drawn.svg
grep -qF '>0 ms is 2026-11-28 21:03:57.100 UTC<' drawn.svg
# a node that was killed says no end: it is silent from where another one resets it; where none does, from its last line on, once it opens again
{
    said 1 100 'open port=7400 image=d resource=r watchdog=w ok=yes'
    said 1 200 'phase from=booting to=up'
    said 1 210 'hold-won'
    said 2 300 'phase from=booting to=up'
    said 2 400 'fence-written of=1 ok=yes msgwait=10000'
    said 2 500 'hold-won'
    said 1 600 'open port=7400 image=d resource=r watchdog=w ok=yes'
    said 1 700 'phase from=booting to=up'
    said 1 800 'open port=7400 image=d resource=r watchdog=w ok=yes'
} > journal
timeline --journal journal > drawn.svg
drawn_as 'lane=node 1 kind=landed point=5 kind=booting first=1 last=2 kind=up first=2 last=5 kind=silent first=5 last=7 kind=booting first=7 last=8 kind=up first=8 last=8 kind=silent first=8 last=9 kind=booting first=9 last=10 kind=holds first=3 last=5 kind=held first=5 last=7 lane=node 2 kind=up first=4 last=10 kind=holds first=6 last=10'

# a record of a node: from its start to its stop, and its end; its own line at the end is passed over
printf '%s\n' 'now 100' 'read 0 failed' 'now 200' 'feed ok' 'start ok' 'now 300' 'receive nothing' 'now 400' 'stop failed' 'now 500' 'stop ok' \
    'write 1 00ff ok' 'now 600' 'send 1 - failed' 'disarm ok' 'left clean' > record
timeline --record record > drawn.svg
same "$(grep -o 'data-lane="[^"]*"\|data-kind="[a-z]*" data-\(first="[0-9]*" data-last\|point\)="[0-9]*"' drawn.svg | tr -d '"' | xargs)" \
    'data-lane=node data-kind=left data-point=6 data-kind=holds data-first=2 data-last=5'
timeline --record < /dev/null | grep -q '<title>record</title>'
# one of a node that was killed ends at its last look, without the line that was cut
head -n 7 record | cat - <(printf 'now 40') > cut
timeline --record cut > drawn.svg
drawn_as 'lane=node kind=cut point=3 kind=holds first=2 last=3'
grep -qF 'its record ends, without an end of the node' drawn.svg
for line in 'now x' 'feed' 'FEED ok' '' 'read 1 0G' 'left clean'; do
    refused 2 "^timeline: line 2: $line: no line of a record$" --record < <(printf 'now 1\n%s\nnow 2\n' "$line")
done
refused 2 '^usage: timeline ' --record --journal record

# the record of a node that ran, with its settings: what its journal says is drawn, and no more
"$QUORUMD" create --image node.disk < "$TOP/examples/one-node.conf" > /dev/null 2>&1
touch node.watchdog node.resource
"$QUORUMD" node-logged --id 1 --image node.disk --watchdog node.watchdog --resource node.resource --port "$((20000 + RANDOM % 10000))" --turns 40 --leave 20 \
    < "$TOP/examples/one-node.conf" > ran 2> said
timeline --title one --record --id 1 --settings "$TOP/examples/one-node.conf" ran > drawn.svg
grep -v event=open said | timeline --title one --journal > wanted.svg
grep -q 'view 1' drawn.svg
grep -q '1/1' drawn.svg
same "$(grep -o 'data-kind=.*' drawn.svg)" "$(grep -o 'data-kind=.*' wanted.svg)"
sed '/^now/h;$d' ran | head -n -3 > cut
printf 'now 99' >> cut
timeline --title one --record --id 1 --settings "$TOP/examples/one-node.conf" cut > drawn.svg
grep -qE 'data-kind="cut" data-point="[0-9]+" data-text=""' drawn.svg
for kind in view quorate holds up; do
    grep -q "data-kind=\"$kind\"" drawn.svg
done
refused 2 '^timeline: --id 2: no node of ' --record --id 2 --settings "$TOP/examples/one-node.conf" ran
refused 2 ': settings that say something of votes: draw the journal of the node$' --record --id 1 --settings "$TOP/examples/two-node.conf" ran
refused 2 '^usage: timeline ' --record --id 1 ran
refused 2 '^usage: timeline ' --journal --id 1 --settings "$TOP/examples/one-node.conf" said

# each picture as a picture: its letters, its width and its scale
cat "$TOP"/examples/journals/take-over/node-? | timeline --journal > nodes.svg
TOP=$TOP "$python" -S -B "$TOP/tests/parts/timelines.py" "$PWD/nodes.svg"

# it can be called itself, and through a link
ln -s "$TOP/bin/timeline" link
for called in "$TOP/bin/timeline" ./link; do
    "$called" --title 'The wait' < "$TOP/examples/incidents/the-wait/schedule" > drawn.svg
    cmp drawn.svg "$TOP/examples/incidents/the-wait/timeline.svg"
done

# a title is taken as it is, and a schedule without an event has a picture too
sed '/^timing/q' "$TOP/examples/letting-time-pass.schedule" | timeline --title '<a & "b">' > drawn.svg
grep -qF '<title>&lt;a &amp; "b"&gt;</title>' drawn.svg
same "$(grep -c '<g data-lane=' drawn.svg)" 2
