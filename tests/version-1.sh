# For the scripts of this folder that need an image of version 1, which no command makes.

# version_1 FILE NODES: an image of version 1 of the nodes 1 to NODES, with the usual times. Node n has incarnation n - 1, stopped clean
# where n is odd, and its mailbox holds in turn off, empty, test, reset, exit, crashdump.
version_1() {
    python3 - "$1" "$2" << 'END'
import struct
import sys

nodes = int(sys.argv[2])
with open(sys.argv[1], "wb") as image:
    image.write((b"QNSBD001" + struct.pack(">HHI5Q", 1, nodes, 0, 5000, 10000, 1000, 2000, 1000)).ljust(512, b"\0"))
    for rank in range(nodes):
        slot = b"SLOT" + struct.pack(">IQB", rank + 1, rank, 1 - rank % 2)
        mailbox = b"MAIL" + bytes([(3, 0, 1, 2, 4, 5)[rank % 6]])
        image.write(slot.ljust(512, b"\0") + mailbox.ljust(512, b"\0"))
END
}

# lines_of_version_1 NODES: what `list` writes of it, before and after a migration
lines_of_version_1() {
    local rank state messages=(off empty test reset exit crashdump)
    for ((rank = 0; rank < $1; rank++)); do
        state=clean
        ((rank % 2)) && state=dirty
        printf 'node %s incarnation %s %s mail %s\\n' $((rank + 1)) "$rank" "$state" "${messages[rank % 6]}"
    done
}
