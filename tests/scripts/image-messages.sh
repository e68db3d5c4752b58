# Messages of an operator: each kind, what it replaces, and what is refused.
. "$TOP/tests/expect.sh"

expect 0 'created nodes 1\n' create --image d < "$TOP/examples/one-node.conf"
for kind in test reset off exit crashdump; do
    expect 0 'sent clear to 1\n' message --image d --id 1 --kind clear
    expect 0 'node 1 incarnation 0 clean mail empty\n' list --image d
    expect 0 "sent $kind to 1\\n" message --image d --id 1 --kind "$kind"
    expect 0 "node 1 incarnation 0 clean mail $kind\\n" list --image d
done

# a test and an exit replace no deadly message, and nothing is written; the others and a clear replace each
for held in reset off crashdump; do
    expect 0 "sent $held to 1\\n" message --image d --id 1 --kind "$held"
    cp d before
    expect 15 "fault DeadlyThere $held\\n" message --image d --id 1 --kind exit
    expect 15 "fault DeadlyThere $held\\n" message --image d --id 1 --kind test
    cmp d before
done
for held in clear test reset off exit crashdump; do
    for sent in clear test reset off exit crashdump; do
        expect 0 'sent clear to 1\n' message --image d --id 1 --kind clear
        expect 0 "sent $held to 1\\n" message --image d --id 1 --kind "$held"
        case $held-$sent in
        reset-test | off-test | crashdump-test | reset-exit | off-exit | crashdump-exit)
            expect 15 "fault DeadlyThere $held\\n" message --image d --id 1 --kind "$sent"
            left=$held
            ;;
        *)
            expect 0 "sent $sent to 1\\n" message --image d --id 1 --kind "$sent"
            left=${sent/clear/empty}
            ;;
        esac
        expect 0 "node 1 incarnation 0 clean mail $left\\n" list --image d
    done
done

# words that are no kind, and ids that are in no slot
for kind in empty CLEAR '' tests; do
    expect 2 'fault Usage\n' message --image d --id 1 --kind "$kind"
done
expect 16 'fault UnknownNode 2\n' message --image d --id 2 --kind exit

# a mailbox that is none: only a test and an exit look
printf '\011' | dd of=d bs=1 seek=$((262144 + 4)) conv=notrunc status=none
cp d before
expect 9 'fault BadImage sector 512\n' message --image d --id 1 --kind test
expect 9 'fault BadImage sector 512\n' message --image d --id 1 --kind exit
cmp d before
for kind in reset off crashdump clear; do
    cp before d
    expect 0 "sent $kind to 1\\n" message --image d --id 1 --kind "$kind"
    expect 0 "node 1 incarnation 0 clean mail ${kind/clear/empty}\\n" list --image d
done

# a reset that node 1 wrote in its incarnation 3: bytes of the format
printf 'MAIL\002\000\000\000\000\000\000\001\000\000\000\000\000\000\000\003' |
    dd of=d bs=1 seek=262144 conv=notrunc status=none
expect 0 'node 1 incarnation 0 clean mail reset by 1:3\n' list --image d
expect 15 'fault DeadlyThere reset\n' message --image d --id 1 --kind exit
expect 0 'sent off to 1\n' message --image d --id 1 --kind off
expect 0 'node 1 incarnation 0 clean mail off\n' list --image d
