# Each command of the image with standard streams closed: the promised status, and an image that is due byte for byte.
# No line that is written to a stream may reach the image, which else takes the descriptor of the closed one.
. "$TOP/tests/expect.sh"

settings=$TOP/examples/two-node.conf
"$QUORUMD" create --image fresh < "$settings" > created
cp fresh sent
"$QUORUMD" message --image sent --id 2 --kind reset > message.said
"$QUORUMD" dump --image fresh > dump.said
"$QUORUMD" list --image fresh > list.said
mv created create.said
head -c 512 /dev/zero | tr '\0' '\245' > none
printf 'fault ReadFault\n' > read-fault
printf 'fault BadImage sector 0\n' > no-image

# with STREAMS WORD..: runs the program on the image, with these streams closed, and leaves its status in `status`
with() {
    local streams=$1
    shift
    status=0
    case $streams in
    none) "$QUORUMD" "$@" --image image < "$settings" > said 2> errors || status=$? ;;
    in) "$QUORUMD" "$@" --image image <&- > said 2> errors || status=$? ;;
    out) "$QUORUMD" "$@" --image image < "$settings" >&- 2> errors || status=$? ;;
    err) "$QUORUMD" "$@" --image image < "$settings" > said 2>&- || status=$? ;;
    out+err) "$QUORUMD" "$@" --image image < "$settings" >&- 2>&- || status=$? ;;
    in+err) "$QUORUMD" "$@" --image image <&- > said 2>&- || status=$? ;;
    in+out) "$QUORUMD" "$@" --image image <&- >&- 2> errors || status=$? ;;
    all) "$QUORUMD" "$@" --image image <&- >&- 2>&- || status=$? ;;
    esac
}

# due STATUS SAID BEFORE AFTER STREAMS WORD..: on a copy of the image BEFORE the command ends with that status, says what
# the file SAID has (where standard output is open), and leaves the image AFTER
due() {
    local wanted=$1 text=$2 before=$3 after=$4 streams=$5
    shift 5
    rm -f image said errors
    [ "$before" = absent ] || cp "$before" image
    with "$streams" "$@"
    same "$* with $streams closed: status $status" "$* with $streams closed: status $wanted"
    cmp image "$after"
    if [ -e said ]; then
        cmp said "$text"
    fi
    if [ -e errors ]; then
        sed -i '/: nothing was there, and an empty file was made$/d' errors
        case $wanted in
        6 | 7) same "$(head -c 18 errors)" 'quorumd: standard ' ;;
        9) same "$(cat errors)" 'quorumd: image: BadImage sector 0: quorumctl check --image image says what is there' ;;
        *) same "$(cat errors)" '' ;;
        esac
    fi
}

for before in none sent; do
    for streams in none err; do
        due 0 create.said "$before" fresh "$streams" create
    done
    for streams in in in+err; do
        due 6 read-fault "$before" "$before" "$streams" create
    done
    # the image is made, and only the answer is lost
    for streams in out out+err; do
        due 7 - "$before" fresh "$streams" create
    done
    for streams in in+out all; do
        due 7 - "$before" "$before" "$streams" create
    done
done
due 7 - absent fresh out create

for streams in none in err in+err; do
    due 0 dump.said fresh fresh "$streams" dump
    due 0 list.said fresh fresh "$streams" list
    due 0 message.said fresh sent "$streams" message --id 2 --kind reset
    due 9 no-image none none "$streams" list
done
for streams in out out+err in+out all; do
    due 7 - fresh fresh "$streams" dump
    due 7 - fresh fresh "$streams" list
    # the message is written, and only the answer is lost
    due 7 - fresh sent "$streams" message --id 2 --kind reset
    for command in dump list 'message --id 2 --kind reset'; do
        # shellcheck disable=SC2086
        due 7 - none none "$streams" $command
    done
done
