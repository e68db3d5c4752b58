# bench/campaign: a second of it, the stories of seeds, and failures: they are told with their seed and a command that shows them again. What counts
# as one is judged: a majority that is well has no holder, and a node is reset that is heard.
. "$TOP/tests/expect.sh"

export QUORUMD

# soaker FILE WORD..: makes a program that says so of each run
soaker() {
    printf '#!/usr/bin/env bash\necho "seed $1 kind $5 nodes $3 images 1 %s at 5000 disturbances 0 turns 9 events 9 boots 3 starts 1 take-overs 0 resets 1 of-well 0 %s"\n%s\n' \
        "$2" 'late-writes 0 told 9 idle 0 longest 0' "$3" > "$1"
    chmod +x "$1"
}

# the program that was built here or released from these sources
if ! SOAK_NODES=$("$TOP/bench/qn_soak_nodes" --program 2> /dev/null); then
    echo 'skipped: neither built from these sources (bench/qn_soak_nodes --build-only) nor released, to run clusters of running nodes'
    soaker well ok 'exit 0'
    SOAK_NODES=$PWD/well
fi
export SOAK_NODES

campaign() {
    "$TOP/bench/campaign" "$@"
}

campaign 1 > said 2> progress
counts='[0-9]+ events, [0-9]+ boots, [0-9]+ crashes, [0-9]+ resets, [0-9]+ starts, [0-9]+ take-overs'
grep -qE "^campaign from seed 1: [0-9]+ s: [1-9][0-9]* soaks of $counts; [1-9][0-9]* stories of $counts; [1-9][0-9]* clusters of running nodes of $counts; most holders 1, longest without one [0-9]+ % of the bound, 0 failed\$" said
same "$(wc -l < said)" 1

# the story of a seed is a story, and the same each time
for seed in 15 7 9; do
    campaign --story $seed > story
    campaign --story $seed | cmp - story
    "$TOP/bin/story" --keep kept story > account
    command=replay
    ! grep -q '^images 3$' story || command=replay3
    ! grep -q '^lease ' story || command=replay-arbiter
    "$QUORUMD" $command < kept | tail -n 1 | grep -q '^end '
done

# judged STORY-LINE..: what the judge says of a story of three nodes
judged() {
    printf '%s\n' 'nodes 1 2 3' 'up 1 2 3' 'run 5000' "$@" > story
    PYTHONPATH=$TOP/lib python3 -B "$TOP/tests/parts/campaign.py" story
}
same "$(judged 'cut 1' 'run 20000')" well
same "$(judged 'split 1 | 2 | 3' 'run 5000' 'heal' 'run 8000')" well
# a short time unheard after a long one that can be the reason of the reset: at its end, in it, and too long after it; and none before it
long=('cut 3' 'run 3200' 'heal')
same "$(judged "${long[@]}" 'run 1500' 'cut 3' 'run 500' 'heal' 'run 200' 'message 3 clear' 'run 3000')" well
same "$(judged "${long[@]}" 'run 1500' 'cut 3' 'run 200' 'message 3 clear' 'run 200' 'heal' 'run 3000')" well
judged "${long[@]}" 'run 9000' 'cut 3' 'run 500' 'heal' 'run 200' 'message 3 clear' 'run 3000' | grep -q '^node 1 resets node 3, which each member of its view saw'
judged 'cut 3' 'run 200' 'message 3 clear' 'run 200' 'heal' 'run 3000' | grep -q '^a reset at [0-9]* of node 3 by node 1, which did not see each other'
judged 'message 3 clear' 'run 3000' | grep -q '^node 1 resets node 3, which each member of its view saw for the last three loops$'
# one cable: the node that one of the others does not see may be reset, and the two that see each other are a majority, whoever else is heard
same "$(judged 'cut-link 1 2' 'run 20000')" well
same "$(judged 'cut-link-in 2 3' 'run 3200' 'message 3 clear' 'run 3000')" well
judged 'message 2 test' 'message 3 test' 'cut-link 1 2' 'kill 1' 'up 1' 'run 40000' | grep -qE '^nodes 1,3 are well, and nobody holds from [0-9]+ to [0-9]+$'
judged 'message 2 test' 'message 3 test' 'kill 1' 'run 40000' | grep -qE '^nodes 2,3 are well, and nobody holds from [0-9]+ to [0-9]+$'

# programs at fault: a soak with two holders, a replay that ends at the first event, and a cluster in which a reset is needless
cat > faulty <<'PROGRAM'
#!/usr/bin/env bash
case $1 in
soak) echo "soak seed $2 events $3 boots 1 crashes 1 resets 1 starts 2 stops 1 most_holders 2" ;;
replay*) exit 9 ;;
*) exec "$REAL" "$@" ;;
esac
PROGRAM
chmod +x faulty
soaker needless 'needless-reset 2 1' 'exit 1'
status=0
REAL=$QUORUMD QUORUMD=$PWD/faulty SOAK_NODES=$PWD/needless campaign 0 17 > said 2> progress || status=$?
same "$status" 1
grep -A 1 '^FAILED soak of seed 17: 2 nodes hold at once$' said | grep -q '^  bin/quorumd soak 17 200000$'
grep -A 1 '^FAILED story of seed 17: quorumd replay[a-z0-9-]* ended with status 9$' said | grep -q '^  bench/campaign --story 17 | bin/story$'
grep -A 1 '^FAILED nodes of seed 17: needless-reset 2 1$' said | grep -q '^  qn_soak_nodes 1 1 2 300 cuts 0$'
tail -n 1 said | grep -qE '^campaign from seed 17: .*, [1-9][0-9]* failed$'
REAL=$QUORUMD QUORUMD=$PWD/faulty campaign --story 17 > story 2> errors
grep -qE '^campaign: quorumd replay[a-z0-9-]* ended with status 9$' errors
status=0
REAL=$QUORUMD QUORUMD=$PWD/faulty "$TOP/bin/story" story > account 2> errors || status=$?
same "$status" 9
grep -qE '^story: quorumd replay[a-z0-9-]* ended with status 9$' errors

# value FILE TEXT: what Python says of it, of the campaign `it` that is kept in the file
value() {
    python3 -c 'import json, sys; it = json.load(open(sys.argv[1])); print(eval(sys.argv[2]))' "$@"
}
# one that goes on from where another one ended: the kinds that it is of, and what was counted; a seed is run once
soaker well ok 'exit 0'
SOAK_NODES=$PWD/well campaign --only soaks,nodes --resume going 1 5 > said 2> progress
grep -qE '^campaign from seed 5: [0-9]+ s: [1-9][0-9]* soaks of .*; 0 stories of 0 events.*; [1-9][0-9]* clusters of running nodes of ' said
runs=$(sed -E 's/.* s: ([0-9]+) soaks.*/\1/' said)
same "$(value going '[it["soaks"][name] for name in ("next", "runs", "left")]')" "[$((runs + 5)), $runs, []]"
same "$(value going 'it["stories"]["next"]')" 5
SOAK_NODES=$PWD/well campaign --resume going --only soaks 1 99 > again 2> progress
grep -q '^campaign from seed 5: ' again
same "$(value going 'it["soaks"]["next"] - it["soaks"]["runs"]')" 5
[ "$(value going 'it["soaks"]["runs"]')" -gt "$runs" ]
same "$(value going 'it["nodes"]["runs"]')" "$(sed -E 's/.*; ([0-9]+) clusters.*/\1/' said)"
# seeds that were under way come first, also those of a kind that another campaign left out
value going 'json.dumps({**it, "soaks": {**it["soaks"], "left": [3]}, "stories": {**it["stories"], "left": [8, 9]}})' > left
SOAK_NODES=$PWD/well campaign --resume left --only soaks 0 > again 2> progress
same "$(value left '[it[kind]["left"] for kind in ("soaks", "stories")]')" '[[], [8, 9]]'
echo '{"seed": 1}' > other
status=0
campaign --resume other 1 > said 2> errors || status=$?
same "$status $(cat errors)" '2 campaign: other is no file that --resume wrote'

for words in '' x '1 x' '1 2 3' '--story' '--story x' '--story 1 2' '--other' '--only soak 1' '--only' '--resume' '--resume file'; do
    status=0
    campaign $words > said 2> errors || status=$?
    same "$words: $status $(grep -m 1 ^usage errors)" "$words: 2 usage: bench/campaign [--only KIND[,KIND..]] [--resume FILE] SECONDS [SEED]"
done
