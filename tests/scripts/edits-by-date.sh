# tests/edits: the edits of a crate are tried once in four weeks, at most four of it on a day, and those of each crate that was changed since they were refused, of a small one also those
# of one that stands on a changed crate; one that is not refused, or is a bad one, fails. And each edit of this repository can be applied: its texts
# stand once in its file.
. "$TOP/tests/expect.sh"

mkdir -p clone/tests/edits clone/crates/apart/must-fail
cp -R "$TOP/lib" clone
cp "$TOP/tests/edits/into" "$TOP/tests/edits/back" clone/tests/edits
for crate in one two three; do
    mkdir -p clone/crates/$crate/src clone/tests/edits/$crate
    echo "fn $crate() {}" > clone/crates/$crate/src/lib.rt
    touch clone/tests/edits/$crate/a.edit clone/tests/edits/$crate/b.edit
done
mkdir clone/crates/two/must-fail
touch clone/crates/two/must-fail/kept.edit

copies() {
    (cd clone/crates && find . -name '*.edit' | LC_ALL=C sort | tr '\n' ' ')
}
# refused CRATE..: what rt ci says of them
refused() {
    local crate
    for crate; do
        printf 'rt: must-fail %s/%s.edit: refused, as it must be: src/lib.rt:1:1: error\n' "$crate" a "$crate" b
    done
}
kept='./two/must-fail/kept.edit '
all="./one/must-fail/a.edit ./one/must-fail/b.edit ./three/must-fail/a.edit ./three/must-fail/b.edit ./two/must-fail/a.edit ./two/must-fail/b.edit $kept"

# none was tried yet: all are due, and then no longer
clone/tests/edits/into --due > said
same "$(tail -n 1 said)" 'edits of crates that were changed: one three two'
same "$(copies)" "$all"
refused one two three > log
clone/tests/edits/back log
same "$(copies)" "$kept"
[ ! -e clone/crates/one/must-fail ]
clone/tests/edits/into --due > said
same "$(tail -n 1 said)" 'edits of crates that were changed: none'
of_day=$(sed -n "s/^edits of this day: //p" said)
wanted=$kept
[ "$of_day" = none ] || wanted=$(printf './%s/must-fail/%s.edit\n' "$of_day" a "$of_day" b "two" kept | LC_ALL=C sort | tr '\n' ' ')
same "$(copies)" "$wanted"
clone/tests/edits/back
# each crate once in four weeks, three of them on three days, and one whose proof is dear on none
days='import datetime, edits
days = [edits.parts_of_day(datetime.date(2026, 12, 30) + datetime.timedelta(day)) for day in range(56)]
print(sorted(sorted("%s%d" % part[:2] for part in parts) for parts in days[:28] if parts), days[28:] == days[:28])'
same "$(PYTHONPATH=clone/lib python3 -B -c "$days")" "[['one0'], ['three0'], ['two0']] True"
mkdir clone/bench
echo 'two 301 10 1 0 2' > clone/bench/seconds
same "$(PYTHONPATH=clone/lib python3 -B -c "$days")" "[['one0'], ['three0']] True"
rm clone/bench/seconds
# of nine edits of a crate three are tried on each of three days, and the crate is then not kept as tried
for edit in c d e f g h i; do touch clone/tests/edits/one/$edit.edit; done
same "$(PYTHONPATH=clone/lib python3 -B -c "$days")" "[['one0'], ['one1'], ['one2'], ['three0'], ['two0']] True"
part='import edits
print([" ".join(edit.stem for edit in edits.edits_in(part)) for part in edits.parts_of("one")])'
same "$(PYTHONPATH=clone/lib python3 -B -c "$part")" "['a d g', 'b e h', 'c f i']"
mkdir clone/crates/one/must-fail
cp clone/tests/edits/one/[beh].edit clone/crates/one/must-fail
for edit in b e h; do echo "rt: must-fail one/$edit.edit: refused, as it must be: src/lib.rt:1:1: error"; done > log
before=$(cat clone/tests/edits/one/tried)
clone/tests/edits/back log
same "$(cat clone/tests/edits/one/tried)" "$before"
same "$(copies)" "$kept"
rm clone/tests/edits/one/[c-i].edit

# changed: a source, an edit; not its must-fail folder
echo '// new' >> clone/crates/one/src/lib.rt
echo new > clone/tests/edits/three/b.edit
clone/tests/edits/into --due > said
same "$(tail -n 1 said)" 'edits of crates that were changed: one three'

# of two whose edits are kept to take 200 seconds and 201, a change two crates below makes those of the first due
printf '%s\n' 'one: middle' 'two:' 'three: middle' 'middle: std low' 'low: std' > clone/crates.txt
mkdir -p clone/crates/low/specs
printf '%s\n' 'one 150 50 1 0 2' 'three 150 51 1 0 2' > clone/bench/seconds
same "$(PYTHONPATH=clone/lib python3 -B -c "$days")" "[['three0'], ['two0']] True"
clone/tests/edits/into --due > said
refused one two three > log
clone/tests/edits/back log
echo '-- new' > clone/crates/low/specs/Lib.antt
clone/tests/edits/into --due > said
same "$(tail -n 1 said)" 'edits of crates that were changed: one'
clone/tests/edits/back
echo newer > clone/tests/edits/three/b.edit
clone/tests/edits/into --due > said

# one is still proved, and one is a bad one, also of a crate whose edits are tried always
refused one two three | sed '/one.a/s/refused.*/NOT REFUSED: the crate is still proved with this edit/' > log
echo 'rt: must-fail apart/c.edit: BAD EDIT: its text is gone' >> log
status=0
clone/tests/edits/back log > said || status=$?
same "$status" 1
same "$(cat said)" 'edits: apart/c.edit: BAD EDIT: its text is gone
edits: one/a.edit: NOT REFUSED: the crate is still proved with this edit'
clone/tests/edits/into --due > said
same "$(tail -n 1 said)" 'edits of crates that were changed: one'
# one that rt ci did not come to
refused two three > log
if clone/tests/edits/back log > said; then exit 1; fi
grep -q '^edits: one/a.edit: not tried$' said

clone/tests/edits/into --all > said
same "$(copies)" "$all"
clone/tests/edits/back

python3 -B "$TOP/tests/parts/edits-apply.py"
