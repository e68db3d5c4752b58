# For the scripts of this folder that kill the program while it writes an image of 32 nodes.

for ((id = 1; id <= 32; id++)); do
    printf 'node {\nnodeid: %s\n}\n' "$id"
done > nodes
(printf 'nodelist {\n'; cat nodes; printf '}\n') > conf

# killed COMMAND: the program does this on the image `disk`, and is killed after 0 to 10 ms; `list` then writes the file `listed`
killed() {
    "$QUORUMD" "$1" --image disk < conf > said 2>&1 &
    local program=$!
    sleep "0.00$((RANDOM % 10))$((RANDOM % 10))"
    kill -9 "$program" 2> .errors || true
    wait "$program" 2> .errors || true
    "$QUORUMD" list --image disk > listed 2> .errors || true
}
