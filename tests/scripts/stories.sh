# bin/story: the story of an incident leads to the same holders, and to each start, reset, halt and leave of it; what a story keeps is a
# schedule that replays; what its words do; and what it says of a story at fault.
. "$TOP/tests/expect.sh"

export QUORUMD
# the interpreter itself, and no wrapper that looks for it at each call; with the standard library alone
python=$(python3 -c 'import sys; print(sys.executable)')
story() {
    "$python" -I -S "$TOP/bin/story" "$@"
}

# holders TRACE: who holds, one after the other
holders() {
    grep -o ' holders=[^ ]*' "$1" | uniq | xargs
}

# deeds TRACE: which node did what of that which others see
deeds() {
    awk '$3 ~ /^[0-9]/ { n = split($4, outs, ","); for (i = 1; i <= n; i++) if (outs[i] ~ /^(start|stop|reset|halt|disarm)/) print $3, outs[i] }' "$1" | sort -u
}

number=0
for told in "$TOP"/examples/incidents/*/story; do
    incident=$(dirname "$told")
    number=$((number + 1))
    story --keep kept "$told" > account
    "$QUORUMD" replay < kept > trace
    same "$told: $(holders trace)" "$told: $(holders "$incident/trace")"
    deeds trace > got
    deeds "$incident/trace" > wanted
    same "$told: $(comm -13 got wanted)" "$told: "
    same "$told: $(grep -c ' STARTS the resource$' account)" "$told: $(grep -cE '^[0-9]+ [0-9]+ [0-9]+ ([^ ]*,)?start[, ]' trace)"
    grep -q '](story)' "$incident/story.md" || { printf '%s/story.md does not name its story\n' "$incident"; exit 1; }
done
[ "$number" -ge 16 ] || { printf 'only %s incidents are told as a story\n' "$number"; exit 1; }

# tell LINE..: plays these lines with two nodes, each of which may be quorate alone; leaves the account and the schedule
tell() {
    { sed '/^----$/q' "$TOP/examples/incidents/the-wait/schedule"; printf '%s\n' "$@"; } > story.txt
    story --keep kept story.txt > account
    "$QUORUMD" replay < kept > trace
    "$QUORUMD" status < kept > status
}

# says PATTERN, never PATTERN: whether the account has such a line
says() {
    grep -qE "$1" account || { printf 'the account does not say %s:\n%s\n' "$1" "$(cat account)"; exit 1; }
}
never() {
    ! grep -qE "$1" account || { printf 'the account says %s:\n%s\n' "$1" "$(cat account)"; exit 1; }
}

# the same story gives the same bytes, from a file as from standard input
tell 'up 1 2' 'run 3000' 'kill 1' 'run 15000'
story --keep again < story.txt > account.again
cmp kept again
cmp account account.again
says '^ +3000 ms  node 1 is down: killed$'
says '^ +3000 ms  > kill 1$'
never '> run'
says 'node 2 writes a reset to node 1$'
same "$(holders trace)" 'holders=- holders=1 holders=- holders=2'

# a node that hangs for a while goes on; one that hangs for longer is ended by its watchdog
tell 'up 1 2' 'run 3000' 'hang 1' 'run 1500' 'wake 1' 'run 5000'
never 'is down'
same "$(holders trace)" 'holders=- holders=1'
tell 'up 1 2' 'run 3000' 'hang 1' 'run 6000'
says 'node 1 is down: its watchdog was not fed$'

# a disk that is slower than the loop: the node reads no slot and writes no reset; one that fails ends its node
tell 'split 1 | 2' 'slow-disk 2 1100' 'up 1 2' 'kill 1' 'run 30000'
grep -q '^node 2 up .* why=unfenced:1:unwritten$' status
tell 'up 1 2' 'run 3000' 'broken-disk 1' 'run 8000'
says 'node 1 is down: its watchdog was not fed$'
tell 'broken-disk 1' 'up 1' 'run 100' 'good-disk 1' 'up 1' 'run 100'
says 'node 1 gives up its boot: a read failed \(halt:boot-1\)$'
says 'node 1 is up \(incarnation 1\)$'

# a network that is cut and mended: nobody is reset where that takes less than three loops
tell 'up 1 2' 'run 3000' 'split 1 | 2' 'run 1500' 'heal' 'run 5000'
never 'reset'
same "$(holders trace)" 'holders=- holders=1'
tell 'slow-network 400' 'up 1 2' 'run 4000'
grep -q '^node 1 up holds=yes' status

# boots of one line come one after the other, within a loop, and at one moment where that is asked for
tell 'up 1 2' 'run 1000'
same "$(grep -E ' boots$' account | xargs)" '0 ms node 1 boots 618 ms node 2 boots'
tell 'up-together 1 2' 'run 1000'
same "$(grep -E ' boots$' account | xargs)" '0 ms node 1 boots 0 ms node 2 boots'
printf '%s\n' 'nodes 1 2 3 4 5' 'timing 2000 4000 300 800 300' 'up 5 4 3 2 1' 'run 300' > story.txt
same "$(story story.txt | grep -E ' boots$' | xargs)" '0 ms node 5 boots 70 ms node 3 boots 141 ms node 1 boots 185 ms node 4 boots 256 ms node 2 boots'

# cut STORY-LINE.. : three nodes, of which node 1 holds; leaves the account
three() {
    printf '%s\n' 'nodes 1 2 3' 'up 1 2 3' 'run 5000' "$@" > story.txt
    story --keep kept story.txt > account
    "$QUORUMD" replay < kept > trace
}

# the holder is cut off: it alone is reset, and another takes over; an outage of less than three loops costs nobody anything
three 'cut 1' 'run 20000'
same "$(holders trace)" 'holders=- holders=1 holders=- holders=2'
same "$(grep -oE 'node [0-9] writes a reset to node [0-9]$' account | sort -u)" 'node 2 writes a reset to node 1'
for outage in 500 1000 2000 2900; do
    three 'cut 1' "run $outage" 'heal' 'run 8000'
    never 'reset'
    same "$(holders trace)" 'holders=- holders=1'
done
# one that is not heard is reset; one that hears nobody is so too, since it takes itself for alone and stops; both are back after the heal
three 'cut-out 1' 'run 20000' 'heal' 'up 1' 'run 5000'
same "$(grep -oE 'node [0-9] writes a reset to node [0-9]$' account | sort -u)" 'node 2 writes a reset to node 1'
says '^  node 2 is up, and holds the resource$'
three 'cut-in 2' 'run 8000' 'heal' 'run 8000'
never 'reset to node 3$'
never 'reset to node 1$'
# one cable: the side of the holder has the vote of the third one, so the other node is reset, once, and it alone
three 'cut-link 1 2' 'run 20000' 'up 2' 'run 20000'
same "$(holders trace)" 'holders=- holders=1'
same "$(grep -oE 'node [0-9] writes a reset to node [0-9]$' account | sort | uniq -c | xargs)" '1 node 1 writes a reset to node 2'
# the holder and a node of lesser id: the service stays where it is
three 'leave 1' 'run 3000' 'up 1' 'run 3000' 'cut-link 2 1' 'run 20000'
same "$(holders trace)" 'holders=- holders=1 holders=- holders=2'
# one direction: node 2 does not hear node 1, or node 1 not node 2
for cut in '2 1' '1 2'; do
    three "cut-link-in $cut" 'run 20000'
    same "$(holders trace)" 'holders=- holders=1'
    same "$(grep -oE 'node [0-9] writes a reset to node [0-9]$' account | sort -u)" 'node 1 writes a reset to node 2'
done
# a deaf leader is followed by nobody; the nodes boot under a cut; links that are mended within three loops cost nobody anything
three 'cut-link-in 1 2' 'cut-link-in 1 3' 'run 22000'
same "$(holders trace)" 'holders=- holders=1 holders=- holders=2'
three 'kill 1 2 3' 'cut-link-in 2 1' 'cut-link-in 3 2' 'up 1 2 3' 'run 15000'
same "$(holders trace)" 'holders=- holders=1 holders=- holders=1'
three 'cut-link 1 2' 'cut-link-in 3 1' 'run 2900' 'heal' 'run 8000'
never 'reset'
# the network is as it was after a heal, and a node that is in another part stays there when another one is cut
three 'split 1 2 | 3' 'cut 2' 'heal' 'run 8000'
never 'reset'

# a holder that leaves clean says so: the next one starts within two loops, and nobody is reset
three 'leave 1' 'run 2000'
says 'node 1 has left, and its slot is clean$'
says 'node 2 STARTS the resource$'
never 'reset'
three 'slow-stop 1 10' 'leave 1' 'run 9' 'broken-disk 1' 'run 2000'
says 'node 1 has left, and its slot is dirty$'
never 'node 2 STARTS'

# what hosts say of their nodes: a standby, a node that is not fit and one that pulls move the resource without a reset, and where it may be nowhere
# nobody starts; a pull ends once it is answered, and a node that is barred no more takes nothing back
three 'standby 1 on' 'run 6000' 'standby 1 off' 'run 6000'
same "$(holders trace)" 'holders=- holders=1 holders=- holders=2'
never 'reset'
three 'fit 1 no' 'run 6000' 'fit 1 yes' 'run 6000'
same "$(holders trace)" 'holders=- holders=1 holders=- holders=2'
never 'reset'
three 'pull 3' 'run 6000' 'pull 1' 'run 6000'
same "$(holders trace)" 'holders=- holders=1 holders=- holders=3 holders=- holders=1'
never 'reset'
three 'standby 2 on' 'standby 3 on' 'standby 1 on' 'run 8000'
same "$(holders trace)" 'holders=- holders=1 holders=-'
says 'node 1 does not start: its view lets nobody start \(not-chosen:0\)$'
three 'standby 2 on' 'standby 3 on' 'fit 1 no' 'run 8000'
same "$(holders trace)" 'holders=- holders=1'
three 'standby 2 on' 'kill 1' 'run 22000'
same "$(holders trace)" 'holders=- holders=1 holders=- holders=3'

# three images, of which one may be lost; and beside an arbiter, which says yes to one side of a cut
printf '%s\n' 'nodes 1 2 3' 'images 3' 'lose-image 2' 'up 1 2 3' 'run 4000' 'message 1 exit' 'run 4000' 'good-image 2' 'up 1' 'run 3000' > story.txt
story --keep kept story.txt > account
"$QUORUMD" replay3 < kept > trace
same "$(holders trace)" 'holders=- holders=1 holders=- holders=2'
says 'node 1 has left, and its slot is clean$'
grep -q '^fail 1 2$' kept
printf '%s\n' 'nodes 1 2 3' 'images 3' 'lose-image 1' 'lose-image 2' 'up 1 2 3' 'run 4000' > story.txt
story story.txt > account
says 'node 1 gives up its boot: a read failed'
{ sed '/^----$/q' "$TOP/examples/arbiter/the-vote-moves/schedule"; printf '%s\n' 'lease 2000 12244' 'arbiter-up' 'up 1 2' 'run 15000' "$@" 'cut 1' 'run 40000'; } > story.txt
story --keep kept story.txt > account
"$QUORUMD" replay-arbiter < kept > trace
same "$(holders trace)" 'holders=- holders=1 holders=- holders=2'
sed 's/^cut 1$/cut-arbiter 2\nsplit 1 | 2/' story.txt > other.txt
story --keep kept other.txt > account
"$QUORUMD" replay-arbiter < kept > trace
same "$(holders trace)" 'holders=- holders=1 holders=- holders=1'
sed 's/^cut 1$/arbiter-down\nsplit 1 | 2/' story.txt | story > account
says '^  node 1 is up: too few votes'
says '^  node 2 is up: too few votes'

# a slow stop, an operator who lets the holder leave, and clocks that run as fast and as slow as they may
tell 'slow-stop 1 3000' 'up 1 2' 'run 3000' 'leave 1' 'run 2500'
grep -q '^node 1 leaving holds=yes' status
tell 'clock 1 101' 'clock 2 99' 'up 1 2' 'run 3000' 'message 1 exit' 'run 8000'
grep -qE '^pass [0-9]+ 1=[0-9]+ 2=[0-9]+$' kept
same "$(holders trace)" 'holders=- holders=1 holders=- holders=2'
tell 'message 1 off' 'up-clean 1' 'run 100' 'up 2' 'run 5000'
says 'node 1 gives up its boot: its mailbox is not clean'
same "$(holders trace)" 'holders=- holders=2'

# an account or a schedule that cannot be written, and a reader that goes
status=0
story "$TOP/examples/try.story" > /dev/full 2> errors || status=$?
same "$status $(cat errors)" '2 story: No space left on device'
status=0
story --keep /dev/full "$TOP/examples/try.story" > account 2> errors || status=$?
same "$status $(cat errors)" '2 story: No space left on device'
same "$(story "$TOP/examples/try.story" 2>&1 | head -n 1)" '       0 ms  > up 1 2 3'

# a comment of the settings is kept as it is
printf '# caf\303\251\nnodelist {\nnode {\nnodeid: 1\n}\n}\n----\nup 1\nrun 100\n' > story.txt
story --keep kept story.txt > account
same "$(bytes kept 0 8)" '2320636166c3a90a'

# at fault LINE.. : a story of two nodes ends with status 2, and standard error names line and word
faulty() {
    local wanted=$1 status=0
    shift
    printf '%s\n' 'nodes 1 2' "$@" > story.txt
    story story.txt > account 2> errors || status=$?
    same "$status $(head -n 1 errors)" "2 story: $wanted"
}

faulty 'line 3: jump: no such command' 'up 1' 'jump 2'
faulty 'line 2: up: no id' 'up'
faulty 'line 2: 3: no node of this cluster' 'up 1 3'
faulty 'line 2: x: no node of this cluster' 'kill x'
faulty 'line 2: 1: this node stands there twice' 'up 1 1'
faulty 'line 2: run: 1 words after it, not 0' 'run'
faulty 'line 2: 0: not a number from 1 to 86400000' 'run 0'
faulty 'line 2: 5s: not a number from 1 to 86400000' 'run 5s'
faulty 'line 2: 98: not a number from 99 to 101' 'clock 1 98'
faulty 'line 2: empty: no message' 'message 1 empty'
faulty 'line 2: split: node 2 stands in no part' 'split 1'
faulty 'line 2: |: a part without a node' 'split 1 2 |'
faulty 'line 2: heal: 0 words after it, not 1' 'heal 1'
faulty 'line 3: up 1: node 1 runs already' 'up 1' 'up 1'
faulty 'line 3: up-together 2: node 2 boots already' 'up 1 2' 'up-together 2'
faulty 'line 3: kill 2: node 2 does not run yet' 'up 1 2' 'kill 2'
faulty 'line 2: cut: no id' 'cut'
faulty 'line 2: 3: no node of this cluster' 'cut-in 1 3'
faulty 'line 2: 1: this node stands there twice' 'cut-out 1 1'
faulty 'line 2: cut-link: 2 words after it, not 1' 'cut-link 1'
faulty 'line 2: 1: this node stands there twice' 'cut-link-in 1 1'
faulty 'line 2: 3: no node of this cluster' 'cut-link 1 3'
faulty 'line 2: kill 2: node 2 does not run' 'kill 2'
faulty 'line 3: leave 1: node 1 is not up' 'up 1' 'leave 1'
faulty 'line 3: wake 1: node 1 does not hang' 'up 1' 'wake 1'
faulty 'line 4: message 1 clear: a deadly message is in the mailbox of node 1, which runs: it is not taken back' 'up 1' 'message 1 off' 'message 1 clear'
faulty 'line 2: maybe: neither on nor off' 'standby 1 maybe'
faulty 'line 2: off: neither yes nor no' 'fit 1 off'
faulty 'line 2: pull: 1 words after it, not 0' 'pull'
faulty 'line 2: pull 1: node 1 does not run' 'pull 1'
faulty 'line 2: timing: there are five times' 'timing 5000'
faulty 'line 2: 0: no time, which is 1 to 3600000 milliseconds' 'timing 5000 10000 1000 2000 0'
faulty 'line 3: timing: no such command' 'up 1' 'timing 5000 10000 1000 2000 1000'
faulty 'line 2: images: the disk is one image, or three' 'images 2'
faulty 'line 3: 4: not a number from 1 to 3' 'images 3' 'lose-image 4'
faulty 'line 2: lose-image 1: this story has one image: `images 3` in its head is for three' 'lose-image 1'
faulty 'line 2: arbiter-up: this story has no arbiter: `lease LIMIT LEASE` in its head is for one' 'arbiter-up'
faulty 'line 2: lease: there are two times' 'lease 2000'
faulty 'line 2: 0: no time, which is 1 to 3600000 milliseconds' 'lease 0 12244'
faulty 'line 3: lease: a story has three images or an arbiter, and not both' 'images 3' 'lease 2000 12244'
faulty 'line 5: jump: no such command' '# a comment' '' 'up 1 # and another one' 'jump'
printf 'nodelist {\nnode {\nnodeid: 1\n}\n}\n----\n\nkill 1\n' > story.txt
status=0
story story.txt 2> errors || status=$?
same "$status $(cat errors)" '2 story: line 8: kill 1: node 1 does not run'

# refused STATUS PATTERN TEXT WORD..: another fault, of the head or of the words of the command line
refused() {
    local wanted=$1 pattern=$2 text=$3 status=0
    shift 3
    printf "$text" | story "$@" > account 2> errors || status=$?
    same "$status $(wc -c < account)" "$wanted 0"
    grep -qE "$pattern" errors || { printf 'wanted %s, got %s\n' "$pattern" "$(cat errors)"; exit 1; }
}

refused 2 '^story: line 1: a story begins with' ''
refused 2 '^story: line 1: up: a story begins with' 'up 1\n'
refused 2 '^story: line 1: nodes: no id' 'nodes\n'
refused 2 '^story: line 1: 0: no id of a node' 'nodes 1 0\n'
refused 3 '^story: fault BadConf ' 'nodes 1 1\n'
refused 3 '^story: fault BadConf ' 'nodelist {\n----\nup 1\n'
refused 3 '^story: fault BadConf NotText$' '# caf\351\n----\nup 1\n'
refused 10 '^story: fault UnsafeTiming 5000 8163 1000 2000 1000' 'nodes 1\ntiming 5000 8163 1000 2000 1000\n'
refused 2 '^usage: story \[--keep FILE\] \[STORY\]' '' --other
refused 2 '^usage: story \[--keep FILE\] \[STORY\]' '' no-such-file
refused 2 '^usage: story \[--keep FILE\] \[STORY\]' 'nodes 1\n' --keep no/such/folder
