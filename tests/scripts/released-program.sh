# release/: the programs that are there at once. bin/quorumd starts them where they were proved from these very sources, on a machine without the
# kit too, and after --released whatever the sources are; release/check sees that they are the programs that are built here. The kit's command rt is
# another one here: it builds the programs of this repository at once.
. "$TOP/tests/expect.sh"

commands=$("$QUORUMD" help)
here=$PWD
mkdir -p first/bin first/bench first/release first/crates/quorumd/src first/crates/quorumctl/src first/simulator/qn_soak_nodes/src \
    first/tests/program/qn_tests/src kit
cp "$TOP"/bin/{quorumd,quorumctl,built.bash} first/bin
cp "$TOP"/bench/{qn_soak_nodes,qn_tests} first/bench
cp "$TOP"/simulator/{into,copies.bash} first/simulator
cp "$TOP"/release/{make,check,sums.bash} first/release
cp "$TOP/HANDLES" first
printf 'quorumd: arrayvec\nquorumctl: arrayvec\n' > first/crates.txt
echo one > first/crates/quorumd/src/main.rt
echo two > first/crates/quorumctl/src/main.rt
echo 'qn_soak_nodes: arrayvec' > first/simulator/crates
echo three > first/simulator/qn_soak_nodes/src/main.rt.txt
echo 'qn_tests: arrayvec' > first/tests/program/crates
echo four > first/tests/program/qn_tests/src/main.rt.txt
cat > kit/rt << 'RT'
#!/usr/bin/env bash
case $1 in
    version) echo "${KIT-a-kit}" ;;
    ci)
        name=$(cut -d : -f 1 crates.txt)
        echo "$name" >> "$CALLS"
        mkdir -p "crates/$name/out"
        case $name in
            quorumd) cp "$QUORUMD" crates/quorumd/out/quorumd ;;
            quorumctl) cp "$QUORUMCTL" crates/quorumctl/out/quorumctl ;;
            qn_tests) cp "$QUORUMD" crates/qn_tests/out/qn_tests ;;
            qn_soak_nodes)
                printf '#!/usr/bin/env bash\n[ "$1 $2 $3 $4 $5 $6" = "1 1 2 1 quiet 0" ]\n' > crates/qn_soak_nodes/out/qn_soak_nodes
                chmod +x crates/qn_soak_nodes/out/qn_soak_nodes
                ;;
        esac
        ;;
esac
RT
chmod +x kit/rt
export CALLS=$here/calls
with_kit=$here/kit:/usr/bin:/bin
without=/usr/bin:/bin
# whether no rt is there without the kit of this test
! PATH=$without command -v rt > /dev/null || { printf 'skipped: /usr/bin has a command rt\n'; exit 0; }

# fresh FOLDER: a clone of the first repository, with its release and nothing built
fresh() {
    rm -rf "$1"
    mkdir "$1"
    (cd first && find . -name out -prune -o -type f -print0 | xargs -0 cp --parents -t "../$1")
}

# a release is made of what is built here, and it is that; the rows of tests/program are proved too, and not released
PATH=$with_kit first/release/make 2> errors
same "$(xargs < calls)" 'quorumd quorumctl qn_soak_nodes qn_tests'
same "$(PATH=$without first/bench/qn_tests --program)" "$here/first/tests/program/out/qn_tests"
same "$(cut -d ' ' -f 1 first/release/SUMS | xargs)" 'kit sources simulator quorumd quorumctl qn_soak_nodes'
same "$(sed -n 's/^kit //p' first/release/SUMS)" a-kit
same "$(sed -n 's/^quorumd //p' first/release/SUMS)" "$(sha256sum < "$QUORUMD" | cut -d ' ' -f 1)"
same "$(PATH=$with_kit first/release/check)" 'release: the programs that were proved and built here'
cp first/release/SUMS sums
PATH=$with_kit first/release/make 2> errors
cmp sums first/release/SUMS
same "$(wc -l < calls)" 4

# without the kit a clone answers within a second, and says once where its programs come from
fresh clone
begun=$(date +%s%N)
same "$(PATH=$without clone/bin/quorumd help 2> errors)" "$commands"
[ $((($(date +%s%N) - begun) / 1000000)) -lt 1000 ] || { printf 'the first answer took over a second\n'; exit 1; }
same "$(cat errors)" 'quorumd: this program was proved elsewhere, from these sources with a-kit; bin/quorumd --build-only proves it here'
same "$(PATH=$without clone/bin/quorumd help 2>&1)" "$commands"
PATH=$without clone/bin/quorumctl --version > said 2> errors
same "$(cat errors)" ''
same "$(PATH=$without clone/bin/quorumctl --program)" "$here/clone/crates/quorumctl/out/released-quorumctl"
cmp clone/crates/quorumctl/out/released-quorumctl "$QUORUMCTL"
same "$(PATH=$without clone/bench/qn_soak_nodes --program 2>&1)" "$here/clone/simulator/out/released-qn_soak_nodes"
PATH=$without clone/bench/qn_soak_nodes 1 1 2 1 quiet 0
same "$(wc -l < calls)" 4
# a change of the simulator is one of its program alone
sleep 0.01
echo five > clone/simulator/qn_soak_nodes/src/main.rt.txt
status=0
PATH=$without clone/bench/qn_soak_nodes --program > said 2> errors || status=$?
same "$status $(cat said)" '1 '
grep -q '^qn_soak_nodes: a source was changed since the program was proved: bench/qn_soak_nodes --build-only ' errors
same "$(PATH=$without clone/bin/quorumd help 2>&1)" "$commands"

# with the kit --build-only proves it here, and what was built here goes first
PATH=$with_kit clone/bin/quorumd --build-only 2> errors
grep -q '^quorumd: the first build' errors
same "$(PATH=$with_kit clone/bin/quorumd --program)" "$here/clone/crates/quorumd/out/quorumd"

# where a source is another one nothing is started, with the kit and without, and a line says what can be done
fresh other
sleep 0.01
echo three > other/crates/quorumd/src/main.rt
for path in "$without" "$with_kit"; do
    status=0
    PATH=$path other/bin/quorumd help > said 2> errors || status=$?
    same "$status $(cat said) $(cat errors)" '1  quorumd: a source was changed since the program was proved: bin/quorumd --build-only proves and builds it from these sources, in some 20 to 90 minutes; bin/quorumd --released COMMAND .. starts the one of release/'
done
status=0
PATH=$without other/bin/quorumd --build-only > said 2> errors || status=$?
same "$status $(cat said) $(cat errors)" '1  quorumd: it has to be proved and built here, which takes the Rattle kit: its command rt is not on the path'
same "$(PATH=$with_kit other/release/check)" 'release: of other sources than these'
# the released one is started all the same where that is asked for, and says so once
same "$(PATH=$without other/bin/quorumd --released help 2> errors)" "$commands"
same "$(cat errors)" 'quorumd: this is the program of release/, proved elsewhere with a-kit, and not from the sources here'
same "$(PATH=$without other/bin/quorumd --released help 2>&1)" "$commands"
same "$(PATH=$without other/bin/quorumd --released --program)" "$here/other/crates/quorumd/out/released-anyway-quorumd"
# and asked to, it is proved
PATH=$with_kit other/bin/quorumd --build-only 2> errors
grep -q '^quorumd: the first build' errors
same "$(PATH=$without other/bin/quorumd help 2>&1)" "$commands"
# and once a source changes after the released program was taken
sleep 0.01
PATH=$without clone/bin/quorumctl --version > said
echo four > clone/crates/quorumctl/src/main.rt
status=0
PATH=$without clone/bin/quorumctl --version > said 2> errors || status=$?
same "$status $(grep -c '^quorumctl: a source was changed' errors)" '1 1'

# a wrong byte of the release: it is not taken, and the check fails
fresh wrong
printf 'x' | dd of=wrong/release/quorumd.gz bs=1 seek=1000 conv=notrunc status=none
status=0
PATH=$with_kit wrong/bin/quorumd help > said 2> errors || status=$?
same "$status $(cat said) $(head -n 1 errors)" '1  quorumd: release/quorumd.gz is not the program that release/SUMS names'
status=0
PATH=$with_kit wrong/release/check > said || status=$?
same "$status $(cat said)" '1 release: release/quorumd.gz is not the program that release/SUMS names'
# a release that names these sources and has other programs than those that are built of them
fresh wrong
gzip -dc wrong/release/quorumctl.gz > program
printf 'x' | dd of=program bs=1 seek=5000 conv=notrunc status=none
gzip -9nc program > wrong/release/quorumctl.gz
sed -i "s/^quorumctl .*/quorumctl $(sha256sum < program | cut -d ' ' -f 1)/" wrong/release/SUMS
for name in quorumd quorumctl; do
    PATH=$with_kit "wrong/bin/$name" --build-only 2> errors
done
status=0
PATH=$with_kit wrong/release/check > said || status=$?
same "$status $(cat said)" '1 release: quorumctl is not the program that was proved and built here'
# one that was made with another kit has no word in it
same "$(PATH=$with_kit KIT=another wrong/release/check)" 'release: of these sources, made with another kit: a-kit'
