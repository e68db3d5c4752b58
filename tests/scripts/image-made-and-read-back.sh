# A real image file: made, dumped, listed, messaged, and its bytes as the page on the image has them.
. "$TOP/tests/expect.sh"
zeros=$(printf '0%.0s' $(seq 1024))

expect 0 'created nodes 2\n' create --image disk < "$TOP/examples/two-node.conf"
same "$(stat -c %s disk)" 263168
same "$(bytes disk 0 56)" 514e53424430303100020002000000000000000000001388000000000000271000000000000003e800000000000007d000000000000003e8
same "$(bytes disk 56 456)" "${zeros:0:912}"
same "$(bytes disk 512 17)" 534c4f5400000001000000000000000001
same "$(bytes disk 529 495)" "${zeros:0:990}"
same "$(bytes disk 1024 512)" "$zeros"
same "$(bytes disk 262144 512)" "4d41494c${zeros:0:1016}"
same "$(bytes disk 1536 17)" 534c4f5400000002000000000000000001
same "$(bytes disk 262656 512)" "4d41494c${zeros:0:1016}"

expect 0 'version 2\nnodes 2\nwatchdog 5000\nmsgwait 10000\nloop 1000\nread_limit 2000\nfeed_delay 1000\nsafe yes\n' \
    dump --image disk
expect 0 'node 1 incarnation 0 clean mail empty\nnode 2 incarnation 0 clean mail empty\n' list --image disk

# a message changes one byte: the code in that node's mailbox
cp disk before
expect 0 'sent reset to 2\n' message --image disk --id 2 --kind reset
same "$(cmp -l before disk | xargs)" '262661 0 2'
expect 0 'sent crashdump to 2\n' message --image disk --kind crashdump --id 2
same "$(cmp -l before disk | xargs)" '262661 0 5'
expect 0 'node 1 incarnation 0 clean mail empty\nnode 2 incarnation 0 clean mail crashdump\n' list --image disk
expect 16 'fault UnknownNode 3\n' message --image disk --id 3 --kind off

# other times, and an image made anew
expect 0 'created nodes 1\n' create --image disk --timing 5000,8164,1000,2000,1000 < "$TOP/examples/one-node.conf"
expect 0 'version 2\nnodes 1\nwatchdog 5000\nmsgwait 8164\nloop 1000\nread_limit 2000\nfeed_delay 1000\nsafe yes\n' \
    dump --image disk
expect 0 'node 1 incarnation 0 clean mail empty\n' list --image disk

# times that are not safe are refused before anything is read, and settings at fault before anything is opened
expect 10 'fault UnsafeTiming 5000 8163 1000 2000 1000\n' create --image other --timing 5000,8163,1000,2000,1000 < .
printf 'nodelist {\nnode {\nnodeid: 2\n}\nnode {\nnodeid: 2\n}\n}\n' > twice
expect 3 'fault BadConf RepeatedId id 2\n' create --image other < twice
[ ! -e other ]
