# simulator/into makes a repository of the crates and of those of the simulator and of tests/program, each file under the ending that rt reads, and
# brings it up to date; simulator/from takes these back. A change that was not taken back is not written over.
. "$TOP/tests/expect.sh"

# ended STATUS WORD..: runs a script that is to end so
ended() {
    local wanted=$1 status=0
    shift
    "$@" > said 2> errors || status=$?
    same "$* $status" "$* $wanted"
}

# a clone with one crate beside those
mkdir -p clone/crates/low/src clone/crates/low/must-fail clone/crates/low/out clone/tests
cp -R "$TOP/simulator" "$TOP/HANDLES" clone
cp -R "$TOP/tests/program" clone/tests
rm -rf clone/simulator/out clone/tests/program/out
echo 'low:' > clone/crates.txt
touch clone/crates/low/src/lib.rt clone/crates/low/must-fail/one.edit clone/crates/low/out/kept
mkdir before
cp -R clone/simulator clone/tests before

clone/simulator/into copy
same "$(cat copy/crates.txt)" "$(cat clone/crates.txt clone/tests/program/crates clone/simulator/crates)"
same "$(cd copy/crates/low && find . -type f)" ./src/lib.rt
same "$(cd copy/crates && find . -name '*.txt')" ''
# each file of theirs, but for its ending, and what rt ci refuses: a file with such an ending outside of crates/
listed() {
    for folder; do
        (cd "$folder" && find . -type f -path './qn_*' | sed 's/\.txt$//')
    done | LC_ALL=C sort
}
same "$(listed copy/crates)" "$(listed clone/simulator clone/tests/program)"
same "$(find clone/simulator clone/tests -name '*.rt' -o -name '*.antt' -o -name crates.txt)" ''

# taken back unchanged, nothing changes
clone/simulator/from copy
diff -r before/simulator clone/simulator
diff -r before/tests clone/tests

# a change is taken back, with a file that is new and without one that is gone; what rt kept stays, here it is not taken
mkdir copy/crates/qn_judge/out
touch copy/crates/qn_judge/out/kept copy/crates/qn_judge/src/new.rt
gone=$(cd copy/crates/qn_judge && find src -name '*.rt' -not -name new.rt | LC_ALL=C sort | head -n 1)
rm "copy/crates/qn_judge/$gone"
touch copy/crates/qn_rows/src/newer.rt
ended 1 clone/simulator/into copy
[ -f copy/crates/qn_judge/src/new.rt ]
clone/simulator/from copy
[ -f clone/simulator/qn_judge/src/new.rt.txt ]
[ -f clone/tests/program/qn_rows/src/newer.rt.txt ]
[ ! -e "clone/simulator/qn_judge/$gone.txt" ]
[ ! -e clone/simulator/qn_judge/out ]

# brought up to date
echo '// new' >> clone/crates/low/src/lib.rt
clone/simulator/into copy
same "$(cat copy/crates/low/src/lib.rt)" '// new'
[ -f copy/crates/qn_judge/out/kept ]

# a folder of somebody else
mkdir other
touch other/file
ended 2 clone/simulator/into other
ended 2 clone/simulator/from other
same "$(ls other)" file
