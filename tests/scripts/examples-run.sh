# Each example: settings texts as heads of a replay and as images, and the views of `count`.
. "$TOP/tests/expect.sh"

expect 0 'view 1 votes 2 quorum 3 quorate no\nview 2 votes 3 quorum 3 quorate yes\nend 2\n' count < "$TOP/examples/count.txt"

for settings in "$TOP"/examples/*.conf; do
    { cat "$settings"; printf '\n----\ntiming 5000 10000 1000 2000 1000\n'; } > head
    expect 0 'end 0\n' replay < head
    # the same text without its last end of line
    { printf '%s' "$(cat "$settings")"; printf '\n----\ntiming 5000 10000 1000 2000 1000\n'; } > head
    expect 0 'end 0\n' replay < head
    expect 0 "created nodes $(grep -c nodeid: "$settings")\\n" create --image disk < "$settings"
done

