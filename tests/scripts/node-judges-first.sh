# `node` and `node3` judge their words, then the whole settings text, then the id, and only then open anything: until then no file is made.
. "$TOP/tests/expect.sh"

words=(--watchdog dog --resource res --port 7000 --turns 9)

# judged STATUS 'OUTPUT' WORD..: each of the two with these words too, and nothing was opened
judged() {
    local status=$1 text=$2
    shift 2
    cat > .input
    expect "$status" "$text" node --image disk "${words[@]}" "$@" < .input
    expect "$status" "$text" node3 --image disk.1,disk.2,disk.3 "${words[@]}" "$@" < .input
    same "$(ls)" 'settings'
}

cp "$TOP/examples/two-node.conf" settings
judged 16 'fault UnknownNode 3\n' --id 3 < settings
judged 16 'fault UnknownNode 3\n' --id 0003 --leave 07 --start-mode 01 < settings
judged 3 'fault BadConf NoNodes\n' --id 3 < /dev/null
judged 3 'fault BadConf ExtraClose line 1\n' --id 1 <<< '}'
judged 3 'fault BadConf NotText\n' --id 1 < <(printf 'nodelist \377\n')
expect 6 'fault ReadFault\n' node --image disk "${words[@]}" --id 1 < .
expect 6 'fault ReadFault\n' node3 --image disk.1,disk.2,disk.3 "${words[@]}" --id 1 < .
judged 2 'fault Usage\n' --id 0 < settings
judged 2 'fault Usage\n' --id 1 --leave 0 <<< '}'

# a settings text without an end is too long as soon as it is
for image in 'node --image disk' 'node3 --image disk.1,disk.2,disk.3'; do
    # shellcheck disable=SC2086
    yes '# a line that says nothing' | expect 3 'fault BadConf TooLong\n' $image "${words[@]}" --id 3
done

# values may be empty, and may look like options
for value in '' --id --turns -; do
    expect 16 'fault UnknownNode 3\n' node --image "$value" --watchdog "$value" --resource "$value" --port 1024 --turns 1 --id 3 < settings
    expect 16 'fault UnknownNode 3\n' node --turns 1000000000 --port 65000 --leave 1000000000 --start-mode 0 --id 3 --resource "$value" \
        --watchdog "$value" --image "$value" < settings
done
same "$(ls)" 'settings'

# the fault line that cannot be written
status=0
"$QUORUMD" node --image disk "${words[@]}" --id 3 < settings > /dev/full 2> .errors || status=$?
same "$status $(cat .errors)" '7 quorumd: standard output: No space left on device (os error 28)'
same "$(ls)" 'settings'
