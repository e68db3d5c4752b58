# For the scripts of this folder.

# how the program is started: as it is
RUN_AS=()

# expect STATUS 'OUTPUT' WORD..: runs the program with these words, and stops the script where its status or its
# output is another one. OUTPUT is as for printf: `\n` ends a line. Standard input is that of the call. Standard error
# must have a line of the program where the status is another one than 0, and else nothing; it is left in the file .errors,
# without the lines which say that an image was made, and that its feed delay is short.
expect() {
    local wanted=$1 text=$2 status=0 lines=''
    shift 2
    printf "$text" > .wanted
    "${RUN_AS[@]}" "$QUORUMD" "$@" > .got 2> .said || status=$?
    sed -e '/: nothing was there, and an empty file was made$/d' -e '/: feed delay [0-9]*: /d' .said > .errors
    [ "$wanted" = 0 ] || lines='quorumd: .+'
    if [ "$status" != "$wanted" ] || ! cmp -s .wanted .got || ! [[ $(cat .errors) =~ ^$lines$ ]]; then
        printf 'quorumd %s\nwanted status %s and:\n%s\ngot status %s and:\n%s\nand on standard error:\n%s\n' \
            "$*" "$wanted" "$(cat .wanted)" "$status" "$(cat .got)" "$(cat .errors)"
        exit 1
    fi
}

# bytes FILE OFFSET COUNT: these bytes of a file, in hexadecimal
bytes() {
    od -An -v -tx1 -j "$2" -N "$3" "$1" | tr -d ' \n'
}

# same GOT WANTED: stops the script where the two differ
same() {
    if [ "$1" != "$2" ]; then
        printf 'wanted %s\ngot    %s\n' "$2" "$1"
        exit 1
    fi
}
