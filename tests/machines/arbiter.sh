# shellcheck shell=bash
# What bed.sh and scenes.sh set is used here; what stands in single quotes is for the shell of a machine.
# shellcheck disable=SC2154,SC2034,SC2016
# The scenes of two machines and their arbiter, which is machine 3. Sourced by `machines`.
LEASE=13 # the seconds of a lease at the device's timeout
arbiter_scenes=(arbiter_cut arbiter_holder_dead arbiter_killed arbiter_restarted arbiter_after_receive arbiter_before_send arbiter_after_send
    arbiter_late arbiter_again arbiter_old arbiter_two arbiter_restored)
all_scenes+=("${arbiter_scenes[@]}")

# with_arbiter: both nodes run, the arbiter's yes has come to both, and machine 1 holds
with_arbiter() {
    local number
    set_up nbd || return 1
    qemu_words 2 0 > "$room/qemu.2"
    for number in "${numbers[@]}"; do tell power "$number"; done
    until_true 120 saw 3 'event=arbiter-open' && until_true 120 saw 1 'event=open port.* ok=yes' && until_true 120 boots 2 1 || return 1
    order 2 'touch /run/begin'
    qemu_words 2 1 > "$room/qemu.2"
    until_true 60 saw 1 'event=device answer=yes' && until_true 60 saw 2 'event=device answer=yes' && until_true 60 owns 1 && sleep 3
}

# cut_between: nothing passes between machines 1 and 2 any more; each still reaches the arbiter
cut_between() {
    fault 'nothing passes between machines 1 and 2'
    order 1 'arp -s 10.7.0.2 52:54:00:07:00:22'
    order 2 'arp -s 10.7.0.1 52:54:00:07:00:11'
}

passing() { echo "$*" >&6; }
quorums() { "$here/quorums" "$room/events"; }
said_of() { quorums | sed -n "s/^$1: //p"; }

# never_apart: at no moment both were quorate with views that have no member in common
never_apart() { quorums || { echo 'both were quorate apart'; return 1; }; }
apart() { ! quorums; }
alone() { said_of alone | grep -q "^$1 "; }

# holder_stays: machine 1 goes on without a stop; the other one was never quorate alone, and is reset
holder_stays() {
    local before=$1
    until_true 60 did 2 reset || return 1
    sleep 20
    owns 1 && [ "$(holding)" = "$before" ] || { echo "machine 1 held anew: $before, $(holding)"; return 1; }
    quorums | grep -q '^machine 2 was quorate .* with 2$' && { echo 'machine 2 was quorate alone'; return 1; }
    resets_are 0 1 0
}

# one_side: within so many seconds one of the two machines holds, and the other one was reset
one_side() {
    until_true "$1" another_than "$2" && sleep 3 || return 1
    case "$(resets 1) $(resets 2) $(resets 3)" in
    '0 1 0' | '1 0 0') ;;
    *) echo "resets: $(resets 1) $(resets 2) $(resets 3)"; return 1 ;;
    esac
}

# another_than HOLDING: somebody holds, and it is not that holding
another_than() { owner && [ "$(holding)" != "$1" ]; }

# none_within SECONDS: nobody was quorate alone within so many seconds of the fault, and somebody was later
none_within() {
    local after
    after=$(said_of alone | sed -n 's/.* after \([0-9]*\) ms/\1/p')
    [ -n "$after" ] && [ "$after" -ge $(($1 * 1000)) ] || { echo "quorate alone: $(said_of alone)"; return 1; }
}

# The link between the nodes is cut: the holder goes on.
scene_arbiter_cut() {
    local before
    ARBITER=1 FIRMWARE=90 with_arbiter || return 1
    before=$(holding)
    cut_between
    holder_stays "$before" && never_apart
}

# The holder's machine has no power any more: the other one takes over.
scene_arbiter_holder_dead() {
    ARBITER=1 with_arbiter || return 1
    fault 'machine 1 is switched off'
    tell off 1
    taken_over && resets_are 0 0 0 && never_apart
}

# restart_arbiter: the arbiter is killed, and another one of the same machine is open
restart_arbiter() {
    order 3 'kill -KILL $(cat /run/arbiter)'
    until_true 20 said_times 3 'event=arbiter-open' 2
}

# The arbiter is killed, and is back 18 s later: the holder goes on, and both say what they hear.
scene_arbiter_killed() {
    local number
    ARBITER=1 with_arbiter || return 1
    fault 'the arbiter is killed'
    order 3 'touch /run/stays; kill -KILL $(cat /run/arbiter)'
    goes_on 18 && saw 1 'event=device-silent' && saw 2 'event=device-silent' || return 1
    order 3 'rm /run/stays'
    for number in 1 2; do until_true 30 said_times "$number" 'event=device answer=yes' 2 && saw "$number" 'event=device answer=no' || return 1; done
    goes_on 3 && never_apart
}

# The arbiter is restarted a second before the cut: nobody is quorate for a lease.
scene_arbiter_restarted() {
    local before
    ARBITER=1 FIRMWARE=120 with_arbiter || return 1
    before=$(holding)
    restart_arbiter || return 1
    sleep 1
    cut_between
    one_side 90 "$before" && none_within $((LEASE - 3)) && never_apart
}

# stopped CALL WHEN: the arbiter stands for a minute there, and the cut comes a second later
stopped() {
    local before
    ARBITER=1 FIRMWARE=180 with_arbiter || return 1
    before=$(holding)
    order 3 "PYTHONHOME=/usr python3 -B /q/held \$(cat /run/arbiter) $1 $2 60 &"
    until_true 60 saw 3 'held: .* stands' || return 1
    sleep 1
    cut_between
    until_true 80 saw 3 'held: .* goes on' && one_side 90 "$before" && none_within 50 && never_apart
}

scene_arbiter_after_receive() { stopped recvfrom after; }
scene_arbiter_before_send() { stopped sendto before; }
scene_arbiter_after_send() { stopped sendto after; }

# Each reply comes half a second after the limit: nobody is quorate in the cut, and nobody is reset.
scene_arbiter_late() {
    ARBITER=1 with_arbiter || return 1
    passing late 2.5
    sleep 4
    cut_between
    sleep 45
    [ "$(said_of alone)" = nobody ] && resets_are 0 0 0 && nobody_owns && never_apart
}

# Each reply comes four times, and one of twenty before it.
scene_arbiter_again() {
    local before
    ARBITER=1 FIRMWARE=90 with_arbiter || return 1
    before=$(holding)
    passing again 3
    sleep 12
    cut_between
    holder_stays "$before" && never_apart
}

# What the arbiter before said comes again and again.
scene_arbiter_old() {
    local before
    ARBITER=1 FIRMWARE=120 with_arbiter || return 1
    before=$(holding)
    restart_arbiter || return 1
    passing old 60
    sleep 1
    cut_between
    one_side 90 "$before" && none_within $((LEASE - 3)) && never_apart
}

# Wrong: each node has an arbiter of its own. The holder's polls are held up in the cut until the other one has the vote. Both are to be seen quorate apart.
scene_arbiter_two() {
    ARBITER=2 with_arbiter && until_true 60 saw 4 'event=arbiter-open' || return 1
    order 4 'kill -KILL $(cat /run/arbiter)' # the next one is of a later boot than that which machine 2 heard
    until_true 20 said_times 4 'event=arbiter-open' 2 || return 1
    order 2 'arp -s 10.7.0.3 52:54:00:07:00:04'
    sleep $((LEASE + 3))
    passing hold 1
    cut_between
    until_true 30 alone 2 || return 1
    passing pass
    until_true 30 apart
}

# Wrong: the arbiter's machine is one of before, with its memory of then: it has forgotten the yes that it gave since. Both are to be seen quorate apart.
scene_arbiter_restored() {
    ARBITER=1 FENCE=20000 with_arbiter || return 1 # a restored machine goes on some seconds later: machine 1 is to be there still
    passing hold 1
    tell save 3 "$room/saved"
    until_true 60 did 3 paused || return 1
    tell go-on 3
    cut_between
    until_true 30 alone 2 || return 1
    ARBITER=1 qemu_words 3 1 > "$room/qemu.3"
    printf '%s\n' -incoming "exec:cat $room/saved" >> "$room/qemu.3"
    tell off 3
    until_true 10 did 3 off || return 1
    passing pass
    passing hold 2
    tell power 3
    until_true 30 apart
}
