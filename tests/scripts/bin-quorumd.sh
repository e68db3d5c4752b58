# bin/quorumd where it is called: through links, from other folders, beside CDPATH, and where it was not built. The program that is called here was
# built, or released from these sources.
. "$TOP/tests/expect.sh"

commands='commands count replay status soak create dump list message node migrate replay3 node3 replay-arbiter node-logged audit node3-logged arbiter help'
here=$PWD

# called WORD..: this call of it writes the names of the commands, and nothing on standard error
called() {
    same "$* gives $("$@" help 2>&1)" "$* gives $commands"
}

ln -s "$TOP/bin/quorumd" link
ln -s link second
ln -s "$TOP" repository
mkdir -p path decoy/bin decoy/crates/quorumd
ln -s ../second path/quorumd
PATH=$here/path:$PATH called quorumd
for folders in '' "$here/decoy:." ".:$here/decoy"; do
    [ -z "$folders" ] || export CDPATH=$folders
    cd "$here"
    called "$TOP/bin/quorumd"
    called ./link
    called ./second
    called bash link
    called repository/bin/quorumd
    cd "$TOP"
    called bin/quorumd
    called bash bin/quorumd
    cd "$TOP/bin"
    called ./quorumd
    called bash quorumd
    cd "$TOP/examples"
    called ../bin/quorumd
done
unset CDPATH

# words, standard input, standard output and the status are the program's
same "$(../bin/quorumd count < count.txt | tail -n 1)" 'end 2'
status=0
../bin/quorumd create --image '' < one-node.conf > "$here/said" 2> "$here/errors" || status=$?
same "$status $(cat "$here/said")" '8 fault EnvFault'

# a repository where the command rt is another one, which takes three seconds: where nothing was built, and there is no release, nothing is begun
# unasked, and a line says what to call
cd "$here"
mkdir -p new/bin new/release new/simulator new/tests/program new/crates/quorumd/src new/crates/quorumd/out new/crates/low/src new/crates/low/must-fail new/crates/apart/src rt-bin
cp "$TOP/bin/quorumd" "$TOP/bin/built.bash" new/bin
cp "$TOP/release/sums.bash" new/release
cp "$TOP"/simulator/{into,copies.bash} new/simulator
cp "$TOP/HANDLES" new
touch new/simulator/crates new/tests/program/crates
printf '# NAME: what it uses\nlow: arrayvec\napart: low\nquorumd: low\n' > new/crates.txt
touch new/crates/quorumd/src/main.rt new/crates/low/src/lib.rt new/crates/low/must-fail/one.edit new/crates/apart/src/main.rt
cat > rt-bin/rt << 'RT'
#!/usr/bin/env bash
echo "$*: $(find . -type f | LC_ALL=C sort | tr '\n' ' ')" >> "$CALLS"
sleep "${SECONDS_OF_RT:-0}"
[ -z "${CHANGES-}" ] || touch "$CHANGES"
[ -n "$PROGRAM" ] || { echo 'not proved'; exit 1; }
mkdir -p crates/quorumd/out
cp "$PROGRAM" crates/quorumd/out/quorumd
printf 'rt: low is kept: an earlier run proved it\nrt: low: trying its must-fail edits (1)\nrt: quorumd proved\n'
RT
chmod +x rt-bin/rt
export CALLS=$here/calls PATH=$here/rt-bin:$PATH PROGRAM=$QUORUMD
ln -s new/bin/quorumd new-link
touch calls
asked='bin/quorumd --build-only proves and builds it from these sources, in some 20 to 90 minutes'
# refused LINE WORD..: a call that starts nothing, and says this line alone, within a second
refused() {
    local line=$1 status=0 begun
    shift
    begun=$(date +%s%N)
    new/bin/quorumd "$@" > said 2> errors || status=$?
    same "$status $(cat said) $(cat errors)" "1  quorumd: $line"
    [ $((($(date +%s%N) - begun) / 1000000)) -lt 1000 ]
}
refused "this program was never proved here, and release/ has none: $asked" help
refused "this program was never proved here, and release/ has none: $asked" --program
refused 'release/ has no such program' --released help
same "$(wc -l < calls)" 0

# a first build, once it is asked for: what is built, of what, and how long that takes, stands on standard error within a second
SECONDS_OF_RT=3 ./new-link --build-only > said 2> errors &
sleep 1
grep -qE '^quorumd: the first build: .*, in some .* on four processors$' errors
same "$(wc -l < errors)" 1
wait "$!"
same "$(cat said)" ''
same "$(wc -l < errors)" 1
same "$(sed 's/ $//; s|\./||g' calls)" 'ci: HANDLES copied crates.txt crates/low/src/lib.rt crates/quorumd/src/main.rt'

# it is built once; where a source has changed, even during the build, it is not started; and a build that fails says why
called new/bin/quorumd
same "$(wc -l < calls)" 1
sleep 0.1
touch new/crates/low/src/lib.rt
refused "a source was changed since the program was proved: $asked" help
CHANGES=$here/new/crates/low/src/lib.rt SECONDS_OF_RT=0.1 new/bin/quorumd --build-only 2> errors
grep -q '^quorumd: a source has changed' errors
refused "a source was changed since the program was proved: $asked" help
new/bin/quorumd --build-only 2> errors
grep -q '^quorumd: a source has changed' errors
same "$(wc -l < calls)" 3
called new/bin/quorumd
sleep 0.1
touch new/crates/quorumd/src/main.rt
script -qec 'new/bin/quorumd --build-only' said < /dev/null > errors
tr '\r' '\n' < errors | grep -E 'crates proved' > counts
same "$(tr '\n' ' ' < counts)" 'quorumd: 1 of 2 crates proved quorumd: 2 of 2 crates proved '
touch new/crates/quorumd/src/main.rt
status=0
PROGRAM='' new/bin/quorumd --build-only > said 2> errors || status=$?
same "$status $(cat said)" '1 '
grep -q '^quorumd: a source has changed' errors
grep -q '^not proved$' errors
