# `quorumctl settings`: what Corosync does otherwise with a text that is taken, and what of a text is passed over. Each row of the tables of
# docs/dev/COROSYNC.md of which a text shows anything is here.
. "$TOP/tests/expect.sh"

# nodes VOTES: a nodelist of nodes with these votes
nodes() {
    local id=0 votes
    printf 'nodelist {\n'
    for votes; do
        id=$((id + 1))
        printf 'node {\nnodeid: %s\nquorum_votes: %s\n}\n' "$id" "$votes"
    done
    printf '}\n'
}

# says 'LINES' 'VOTES' 'KEYS': the warnings of Corosync and of the text, where `quorum` has a provider and these keys
says() {
    local status=0
    # shellcheck disable=SC2086
    { nodes $2; printf "quorum {\nprovider: corosync_votequorum\n$3}\n"; } > text
    "$QUORUMCTL" settings < text > got 2> errors || status=$?
    same "$2 $3: $status $(grep -E '^(fault|warning: .*Corosync|warning: expected_votes_tracking)' got | sed 's/^warning: //'; cat errors)" \
        "$2 $3: $([ -z "$1" ] && echo 0 || echo 1) $1"
}

again='Corosync arms wait_for_all again at each loss of quorum'
all="Corosync's wait_for_all waits for the expected votes, and not for all nodes"
window="Corosync's last_man_standing_window begins where nodes are lost, and not at each view
Corosync gives a node that joins the expected votes of those that are quorate"
alone="Corosync's node that boots alone does not expect a device's written votes"
without='Corosync refuses a device without votes, where the nodes'"'"' differ or beside expected_votes'
off='Corosync turns the tie breaker off: the votes are odd, and there is no wait_for_all'

says '' '1 1 1' ''
says 'Corosync keeps a quorum above 255 in 8 bits' '170 170 170' ''
says '' '170 170 169' ''
says "$again" '1 1 1' 'wait_for_all: 1\n'
says "$again
$all" '1 1 0' 'wait_for_all: 1\n'
says "$again
$all" '1 1 1' 'wait_for_all: 1\nexpected_votes: 2\n'
says "$again
$all" '1 1 1' 'wait_for_all: 1\nexpected_votes: 4\n'
says "$again
Corosync's wait_for_all waits for the device's votes too
$alone" '1 1' 'wait_for_all: 1\ndevice {\nnet {\nhost: 192.0.2.9\n}\nmodel: net\nvotes: 1\n}\n'
says "$alone" '1 1 1' 'device {\nnet {\nhost: 192.0.2.9\n}\nmodel: net\nvotes: 1\n}\n'
says '' '1 1 1' 'device {\nnet {\nhost: 192.0.2.9\n}\nmodel: net\n}\n'
says "$without" '2 1' 'device {\nnet {\nhost: 192.0.2.9\n}\nmodel: net\n}\n'
says "$without" '1 1' 'expected_votes: 3\ndevice {\nnet {\nhost: 192.0.2.9\n}\nmodel: net\n}\n'
says "$window
Corosync refuses last_man_standing beside a device" '1 1 1' 'last_man_standing: 1\ndevice {\nnet {\nhost: 192.0.2.9\n}\nmodel: net\nvotes: 1\n}\n'
says "$window" '1 1 1' 'last_man_standing: 1\n'
says "Corosync's tie breaker is of no use to half of the nodes that boot alone" '1 1 1 1' 'auto_tie_breaker: 1\n'
says "Corosync tries a list of tie nodes over the members before the last change" '1 1 1 1' 'auto_tie_breaker: 1\nauto_tie_breaker_node: 3 1\n'
says '' '1 1 1' 'auto_tie_breaker_node: 3 1\n'
says "$again
Corosync's tie breaker halves odd expected votes downwards" '1 1 1' 'auto_tie_breaker: 1\nwait_for_all: 1\n'
says "$off" '1 1 1' 'auto_tie_breaker: 1\n'
says "$off" '1 1 1' 'auto_tie_breaker: 1\nexpected_votes: 4\n'
says "Corosync refuses the tie breaker with last_man_standing: the votes are odd, and there is no wait_for_all
$window" '1 1 1' 'auto_tie_breaker: 1\nlast_man_standing: 1\n'
says "$again
Corosync with a tie breaker lowers expected votes from 2 to 1
$window" '1 1' 'auto_tie_breaker: 1\nwait_for_all: 1\nlast_man_standing: 1\n'
says 'expected_votes_tracking has no effect here' '1 1 1' 'expected_votes_tracking: 1\n'

# warned 'WARNINGS' < TEXT: all warnings of a text, and status 1
warned() {
    local status=0
    "$QUORUMCTL" settings > got 2> errors || status=$?
    same "$status $(grep -v -E '^(node |(two_node|wait_for_all|last_man_standing|auto_tie_breaker) o|device |arbiter |last_man_standing_window |expected_votes |quorum )' got)" "$1"
}
provider='quorum {\nprovider: corosync_votequorum\n}\n'
{ nodes 1; printf 'quorum {\n}\n'; } | warned '1 warning: without a provider Corosync counts no votes'
{ nodes 1; printf "${provider}qourum {\ntwo_node: 1\n}\n"; } | warned '1 warning: the section "qourum" is not known: all in it is passed over'
{ nodes 1; printf "${provider}quorum {\ndevices {\nmodel: net\n}\n}\n"; } | warned '1 warning: the section "devices" is not known: all in it is passed over'
{ printf 'nodelist {\nnodes {\nnodeid: 2\n}\nnode {\nnodeid: 1\nnet {\n}\n}\n}\n'"$provider"; } | warned '1 warning: the section "nodes" is not known: all in it is passed over
warning: the section "net" is not known: all in it is passed over'
{ nodes 1; printf "${provider}quorum {\ndevice {\nnet {\nhost: 192.0.2.9\n}\nmodel: net\nvotes: 0\nvote: 1\nnets {\n}\nnet {\nx {\n}\n}\nheuristics {\n}\n}\n}\n"; } | warned "1 warning: the key \"vote\" is not known
warning: the device's \"heuristics\" has no effect here
warning: $alone
warning: the section \"nets\" is not known: all in it is passed over"
{ nodes 1; printf "${provider}totem {\ninterface {\n}\n}\nlogging {\nlogger_subsys {\n}\n}\nsystem {\n}\nresources {\n}\nnozzle {\n}\n"; } | warned '0 '
{ nodes 1; printf "${provider}logging {\ntag: v {\n}\n"; } | warned '1 warning: Corosync begins a section at the `{` in the value of "tag"'
{ nodes 1; printf "${provider}"; printf 'nodelist {\nnode {\nnodeid: 2\n}\nnode {\nnodeid: 3\n}\n}\n'; } | warned '1 warning: Corosync writes the nodes of a second nodelist over those of the first'
{ nodes 1; printf "$provider"; printf '#%510s\n#%511s\n' x x; } | warned '1 warning: line 11 has more than 511 bytes: Corosync refuses it'

# a byte order mark: of a text that is taken, and of one that is refused for it
mark='the text begins with a byte order mark, which is a part of its first word'
{ printf '\357\273\277quorum {\nprovider: corosync_votequorum\ntwo_node: 1\n}\n'; nodes 1; } | warned "1 warning: without a provider Corosync counts no votes
warning: $mark
warning: the section \"\u{feff}quorum\" is not known: all in it is passed over"
{ printf '\357\273\277'; nodes 1; } | warned "3 fault: nodelist: there is no node section
warning: $mark"
