# `quorumd --help`, `-h` and `--version`: they read nothing and end with status 0. The help has two lines for each command that `help` names,
# in that order, and its synopses are those of the manual page.
. "$TOP/tests/expect.sh"

version=$(sed -n 's/^\.Os quorumd //p' "$TOP/man/quorumd.8")
expect 0 "quorumd $version\\n" --version <&-
"$QUORUMD" --help <&- > text
"$QUORUMD" -h < /dev/null | cmp text -
same "$(head -n 1 text)" "quorumd $version: one member of a high-availability cluster"
same "commands $(sed -n 's/^quorumd \([a-z][a-z0-9-]*\).*/\1/p' text | xargs)" "$("$QUORUMD" help)"
same "$(tail -n 1 text)" 'quorumd --help | -h | --version'
same "$(grep -c '^quorumd \[--links CONF\] .*\[--open\] \[--seal-meaning\] \[--halt FILE\] \[--status FILE\] \[--leave-file FILE\] \[--standing-file FILE\] \[--group FILE\] \[--blank\] \[--anew\] COMMAND' text)" 1
same "$(grep -c '^    [a-z]' text)" "$("$QUORUMD" help | wc -w | awk '{ print $1 - 1 }')"

# the options of each command, as the manual page has them
options() {
    grep -o -- '--[a-z-]*' | sort | tr '\n' ' '
}
for command in $("$QUORUMD" help | cut -d ' ' -f 2-); do
    page=$(awk -v wanted="$command" '/^\.Sh/ { inside = $2 == "SYNOPSIS" } inside && $1 == ".Cm" { found = $2 == wanted } inside && /^\.Fl -help/ { found = 0 } inside && found' "$TOP/man/quorumd.8")
    same "$command $(sed -n "s/^quorumd $command\( .*\)*\$/\1/p" text | options)" \
        "$command $(printf '%s\n' "$page" | sed -n 's/.*Fl \(-[a-z-]*\).*/-\1/p' | options)"
done

# `--help` behind a command: its lines of the help, an example of it, and what an image may be where it takes one; nothing is read
for command in $("$QUORUMD" help | cut -d ' ' -f 2-); do
    for word in --help -h; do
        "$QUORUMD" "$command" $word > one <&-
        same "$(head -n 2 one)" "$(grep -A 1 -e "^quorumd $command\( .*\)*\$" text)"
        same "$(sed -n 3p one)" 'for example:'
        grep -q "^    quorumd .*\<$command\>" <(sed -n 4p one)
        same "$(sed -n '5,$p' one)" "$(! grep -q -- ' --image ' one || grep '^an image is ' text)"
    done
done

# with another word they are words like others
for words in '--help count' '-h -h' '--version 1'; do
    # shellcheck disable=SC2086
    expect 2 'fault Usage\n' $words < /dev/null
done
# an answer that cannot be written
status=0
"$QUORUMD" --help > /dev/full 2> errors || status=$?
same "$status $(cat errors)" '7 quorumd: standard output: No space left on device (os error 28)'
