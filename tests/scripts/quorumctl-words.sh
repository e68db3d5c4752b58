# The words, the help, the version, the page and the completion of quorumctl.
. "$TOP/tests/expect.sh"

version=$(sed -n 's/^\.Os quorumd //p' "$TOP/man/quorumctl.8")
same "$("$QUORUMCTL" --version)" "quorumctl $version"
"$QUORUMCTL" --help > text
"$QUORUMCTL" -h | cmp text -
same "$(sed -n 's/^quorumctl \([a-z]*\).*/\1/p' text | xargs)" 'settings timing watchdog check list wait status history standby unstandby fit move group'

# the options of each command, as the manual page has them
options() {
    grep -o -- '--[a-z-]*' | sort | tr '\n' ' '
}
for command in settings timing watchdog check list wait status history standby unstandby fit move group; do
    page=$(awk -v wanted="$command" '/^\.Sh/ { inside = $2 == "SYNOPSIS" } inside && $1 == ".Cm" { found = $2 == wanted } inside && /^\.Fl -help/ { found = 0 } inside && found' "$TOP/man/quorumctl.8")
    same "$command $(sed -n "s/^quorumctl $command\( .*\)*\$/\1/p" text | options)" \
        "$command $(printf '%s\n' "$page" | sed -n 's/.*Fl \(-[a-z-]*\).*/-\1/p' | options)"
done

# `help` is `--help`; `--help` behind a command has its lines of that, and an example of it
"$QUORUMCTL" help | cmp text -
for command in settings timing watchdog check list wait status history standby unstandby fit move group; do
    "$QUORUMCTL" $command --help > one <&-
    same "$(head -n 2 one)" "$(grep -A 1 -e "^quorumctl $command\( .*\)*\$" text)"
    same "$(sed -n 3p one)" 'for example:'
    grep -q "^    .*quorumctl $command\>" <(sed -n 4p one)
done

# refused 'WHAT' WORD..: status 2, of `status` 3, nothing on standard output, and this line on standard error
refused() {
    local what=$1 status=0 wanted=2
    shift
    [ "${1-}" != status ] || wanted=3
    "$QUORUMCTL" "$@" > got 2> errors < /dev/null || status=$?
    same "$status $(cat got errors)" "$wanted quorumctl: $what"
}
commands=$(sed -n -e 's/^quorumctl \([a-z][a-z0-9-]*\)\( .*\)*$/\1/p' -e 's/^    /: /p' text | paste -sd '\0\n' | sed 's/^/    /')
refused "there is no command; the commands are
$commands
quorumctl COMMAND --help has the words of one and an example, quorumctl --help those of all"
refused '"lists" is no command; did you mean list?' lists
refused '"stat" is no command; did you mean status?' stat
refused '"create" is no command; it is a command of quorumd' create --image disk
refused '"--json" is no command; a command stands before its options' --json status
refused '"x" is not taken; usage: settings' settings x
refused '--image is missing; usage: list --image PATH [--json]' list --json
refused '"--json" is not taken; usage: list --image PATH [--json]' list --json --image d --json
refused '"0" is not taken; usage: wait --image PATH --id 1..4294967295' wait --id 0 --image d
refused '--feed-delay is missing; usage: timing --watchdog 1..3600000 --loop 1..3600000 --read-limit 1..3600000 --feed-delay 1..3600000 [--disk 1..3600000]' \
    timing --watchdog 1 --loop 1 --read-limit 1
usage='usage: status [--json|--prometheus|--watch] [--image PATH] [FILE..]'
refused "no node was started on this host since its boot: systemctl status 'quorumd@*'" status
refused "no node was started on this host since its boot: systemctl status 'quorumd@*'" status --image disk --json
refused "\"--xml\" is not taken; $usage" status --xml file
refused "\"--jsno\" is not taken; $usage; did you mean --json?" status --jsno
refused "\"--watch\" is not taken; $usage" status --json --watch file
refused "\"--json\" is not taken; $usage" status --json file --json
refused "a value is missing at the end, PATH; $usage" status file --image
refused '"--json" is not taken; usage: history [FILE..]' history --json
none="no node was started on this host since its boot: systemctl status 'quorumd@*'"
for command in standby unstandby fit move 'move --off'; do
    status=0
    # shellcheck disable=SC2086
    "$QUORUMCTL" $command > got 2> errors || status=$?
    same "$status $(cat got errors)" "8 quorumctl: $none"
done
refused '"db2" is not taken; usage: standby [--node NODE] [--yes]' standby db2
refused '"--off" is not taken; usage: move [--node NODE] [--yes|--off]' move --yes --off
refused 'a value is missing at the end, NODE; usage: fit [--node NODE]' fit --node

# the streams
status=0
"$QUORUMCTL" settings < . > got 2> errors || status=$?
same "$status $(cat got errors)" '6 quorumctl: standard input: Is a directory (os error 21)'
status=0
"$QUORUMCTL" --help > /dev/full 2> errors || status=$?
same "$status $(cat errors)" '7 quorumctl: standard output: No space left on device (os error 28)'

# completion
cat > offers.bash << 'OFFERS'
source "$1"
shift
COMP_WORDS=(quorumctl "$@")
COMP_CWORD=$#
_quorumd quorumctl "${COMP_WORDS[COMP_CWORD]}" "${COMP_WORDS[COMP_CWORD - 1]}"
printf '%s\n' "${COMPREPLY[@]}"
OFFERS
offers() {
    local wanted=$1
    shift
    same "$*: $(bash offers.bash "$TOP/completions/quorumd.bash" "$@" | xargs)" "$*: $wanted"
}
offers 'settings timing watchdog check list wait status history standby unstandby fit move group' ''
offers 'settings status standby' s
offers '--node --yes --off' move ''
offers '--node' move --off -
offers '--image --json' check ''
offers '--json' list --image disk ''
offers '--id' wait --image disk --
offers '--watchdog --read-limit --feed-delay --disk' timing --loop 5 ''
offers '--watchdog --sys' watchdog /dev/null ''
offers '--json --prometheus --watch --image' status -
offers '--image' status --json file -
offers '--json --prometheus --watch' status --image disk --
offers '' history -
touch disk.image
offers disk.image check --image disk
offers disk.image status disk
offers disk.image status --json disk
offers disk.image history other disk
