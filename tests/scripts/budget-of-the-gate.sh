# bench/budget: what a gate is estimated at, by the seconds that are kept and by what the crates grew to; a crate whose functions doubled passes the
# budget, and one whose proofs doubled. bench/gate keeps what a run proved from nothing.
. "$TOP/tests/expect.sh"

mkdir -p clone/bench bin
cp -R "$TOP/lib" clone
cp "$TOP/bench/budget" "$TOP/bench/gate" clone/bench
printf 'one: std\ntwo: one\n# a layer\nthree: one\n' > clone/crates.txt
# functions CRATE COUNT, proofs CRATE LINES
functions() {
    mkdir -p "clone/crates/$1/src"
    yes 'pub fn f() {}' | head -n "$2" > "clone/crates/$1/src/lib.rt"
}
proofs() {
    mkdir -p "clone/crates/$1/proofs"
    yes 'line' | head -n "$2" > "clone/crates/$1/proofs/Lib.antt"
}
for crate in one two three; do
    functions $crate 10
    proofs $crate 300
done
# 30 minutes each, and 10 for each of the edits of the third one
printf '%s 1800 0 10 300 0\n' one two > clone/bench/seconds
echo 'three 1800 1200 10 300 2' >> clone/bench/seconds

# estimated 'CLOCK: STATUS': what it says of the clock, and its status with a limit of 180
estimated() {
    local status=0
    clone/bench/budget --limit 180 > said 2> errors || status=$?
    same "$(sed -n 's/^by the clock: //p' said): $status" "$1"
}
estimated '60 minutes on two processors, 60 on four: 0'
same "$(head -n 2 said)" 'processor time: 90 minutes, 90 of them proofs and 0 edits, of 3 crates
longest chain: 60 minutes: one two'

# two edits: their crate is proved once more, and then they are tried
mkdir clone/crates/three/must-fail
touch clone/crates/three/must-fail/a.edit clone/crates/three/must-fail/b.edit
estimated '100 minutes on two processors, 100 on four: 0'
mkdir -p clone/tests/edits/three
cp clone/crates/three/must-fail/*.edit clone/tests/edits/three
rm -r clone/crates/three/must-fail
# those of a crate whose proof is dear are tried by no date
estimated '60 minutes on two processors, 60 on four: 0'
rm -r clone/tests/edits

# functions that doubled, proofs that doubled, neither, and a new crate
functions one 20
estimated '90 minutes on two processors, 90 on four: 0'
functions one 24
estimated '102 minutes on two processors, 102 on four: 0'
functions one 30
estimated '120 minutes on two processors, 120 on four: 1'
grep -q '^budget: PASSED: rt ci is estimated at 120 minutes on two processors, and may take 108 (0.6 of 180): the dearest are one 90, ' errors
# one that lost half of its functions counts for less where it has no line of proofs
functions one 5
estimated '60 minutes on two processors, 60 on four: 0'
rm -r clone/crates/one/proofs
sed -i 's/^one .*/one 1800 0 10 0 0/' clone/bench/seconds
estimated '45 minutes on two processors, 45 on four: 0'
sed -i 's/^one .*/one 1800 0 10 300 0/' clone/bench/seconds
functions one 10
proofs one 900
estimated '120 minutes on two processors, 120 on four: 1'
proofs one 300
echo 'four: three' >> clone/crates.txt
functions four 20
estimated '120 minutes on two processors, 120 on four: 1'
same "$(sed -n 's/^longest chain: //p' said)" '120 minutes: one three four'
rm -r clone/crates/four
sed -i '$d' clone/crates.txt

# a gate that proves two crates, one of which has grown, and takes a third one from an earlier run
cat > bin/rt <<'RT'
#!/usr/bin/env bash
printf 'rt: %s\n' 'one proved' 'two is kept: an earlier run' 'three proved' 'must-fail three/a.edit: refused, as it must be'
exit 3
RT
chmod +x bin/rt
functions three 12
status=0
PATH=$PWD/bin:$PATH clone/bench/gate > said || status=$?
same "$status" 3
grep -q '^rt: three proved$' said
same "$(sed '/^#/d' clone/bench/seconds)" 'one 0 0 10 300 0
three 0 0 12 300 1
two 1800 0 10 300 0'
# another machine: a crate that has not changed took half of its seconds there, so each second counts twice
PYTHONPATH=clone/lib python3 -B -c 'import gatecosts
kept = {"one": gatecosts.Kept(100, 0, gatecosts.Size(10, 300, 0, 0)), "three": gatecosts.Kept(100, 0, gatecosts.Size(10, 300, 0, 0))}
assert gatecosts.scale({"one": 50, "three": 300, "new": 7}, kept) == 2'

