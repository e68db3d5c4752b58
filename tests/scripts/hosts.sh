# The scripts of examples/live: the story of three hosts, some strikes of the storm, and the judge of a journal. In none of them two owners
# overlap, each change of the story has another owner, the journal has a picture, and the record of each node is a run.
. "$TOP/tests/expect.sh"

export QUORUMD
live=$TOP/examples/live

"$live/storm" storm 7 2 > storm.said 2>&1 &
storm=$!
"$live/scenario" hosts > said 2>&1 || { cat said; exit 1; }
wait "$storm" || { cat storm.said; exit 1; }

# the owners of the story: each of the four things that happen has another one take over
tail -n 1 said | grep -qE '^([5-9]|[0-9]{2,}) owners one after the other, 0 overlaps$' || { cat said; exit 1; }
grep -q ' owners one after the other, 0 overlaps$' storm.said
grep -q '^storm 7: 2 kills and pauses$' storm.said
for line in 'host 1: the resource starts' '> kill -9 the node of host' '> pause the node of host' 'off: its watchdog was not fed; the resource ends with it' \
    '> message --id [123] --kind off' 'off: fault SelfReset off' '> message --id [123] --kind exit' 'the resource is stopped' 'off: left clean$'; do
    grep -qE -- "$line" said || { printf 'the story does not say %s\n' "$line"; cat said; exit 1; }
done
"$TOP/bin/timeline" --title Hosts --journal hosts/journal > drawn.svg
grep -q 'data-lane="node 1"' drawn.svg
# each node was recorded, and each record is a whole run, or the beginning of one of a node that was killed
for folder in storm hosts; do
    "$live/audit" "$folder" > audited || { cat audited; exit 1; }
    grep -q ': run prefix turns ' audited
    [ "$(wc -l < audited)" -ge 3 ]
done
grep -q ': run whole turns ' audited
# the nodes ended with their hosts
same "$(ls hosts storm | grep '^pid' || true)" ''
! grep -qs "$PWD/hosts/disk" /proc/[0-9]*/cmdline

# judged STATUS 'OUTPUT' LINE..: what is said of a journal
judged() {
    local wanted=$1 text=$2 status=0
    shift 2
    printf '%s\n' "$@" > journal
    "$live/check" journal > got 2> errors || status=$?
    same "$status $(cat got errors)" "$wanted $(printf "$text")"
}

judged 0 'node 1 from 1.000 to 2.000\nnode 2 from 3.000 to 3.000\n2 owners one after the other, 0 overlaps' '1 1' '2 1' '3 2'
judged 0 'node 1 from 1.000 to 1.000\nnode 1 from 2.001 to 2.001\n2 owners one after the other, 0 overlaps' '1 1' '2.001 1'
judged 1 'node 1 from 1.000 to 3.000\nnode 2 from 2.500 to 2.500\nOVERLAP: node 1 from 1.000 to 3.000, and node 2 from 2.500 to 2.500
2 owners one after the other, 1 overlaps' '1 1' '2 1' '2.5 2' '3 1'
judged 1 'node 1 from 1.000 to 1.000\nnode 2 from 1.000 to 1.000\nOVERLAP: node 1 from 1.000 to 1.000, and node 2 from 1.000 to 1.000
2 owners one after the other, 1 overlaps' '1 1' '1 2'
judged 2 'check: line 2: 1,5 1: not a time in seconds and an id' '1 1' '1,5 1'
: > empty
same "$("$live/check" empty)" '0 owners one after the other, 0 overlaps'
