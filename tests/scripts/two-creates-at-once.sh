# 60 pairs of `create` at random distances, on an image or on no file: up to twice the time that one takes. Each ends well or with
# a fault of the outside, one of them ends well, and the image is whole: that of a `create` that ended well.
. "$TOP/tests/expect.sh"

# settings FIRST: eight nodes, so that making their image takes a while
settings() {
    printf 'nodelist {\n'
    seq "$1" $(($1 + 7)) | sed 's/.*/node {\nnodeid: &\n}/'
    printf '}\n'
}
settings 1 > 1.conf
settings 1001 > 2.conf
began=${EPOCHREALTIME/./}
expect 0 'created nodes 8\n' create --image 1.image < 1.conf
took=$((${EPOCHREALTIME/./} - began))
expect 0 'created nodes 8\n' create --image 2.image --timing 6000,12000,1000,2000,1000 < 2.conf

make() {
    status=0
    "$QUORUMD" create --image disk "${@:2}" < "$1.conf" > "$1.said" 2> "$1.errors" || status=$?
    printf '%s %s' "$status" "$(cat "$1.said")" > "$1.answer"
}

refused=0
for pair in $(seq 60); do
    rm -f disk
    [ $((pair % 2)) = 0 ] || cp "$((pair % 4 / 2 + 1)).image" disk
    make 1 &
    first=$!
    sleep "$(printf '0.%06d' $(((RANDOM << 15 | RANDOM) % (2 * took < 999999 ? 2 * took : 999999))))"
    make 2 --timing 6000,12000,1000,2000,1000
    wait "$first"
    case $(cat 1.answer)/$(cat 2.answer) in
    '0 created nodes 8/0 created nodes 8') cmp -s disk 1.image || cmp disk 2.image ;;
    '0 created nodes 8/8 fault EnvFault') cmp disk 1.image ;;
    '8 fault EnvFault/0 created nodes 8') cmp disk 2.image ;;
    *)
        printf 'pair %s answered %s and %s\n' "$pair" "$(cat 1.answer)" "$(cat 2.answer)"
        exit 1
        ;;
    esac
    sed -i '/: nothing was there, and an empty file was made$/d' 1.errors 2.errors
    for errors in 1.errors 2.errors; do
        [ -s "$errors" ] || continue
        same "$(head -n 1 "$errors")" 'quorumd: disk: another program has it open'
        refused=$((refused + 1))
    done
done
printf '%s of 120 were refused\n' "$refused"
