# Memory that is refused, in the commands that take some while they run. bench/refusals does the same with every command that takes memory.
. "$TOP/tests/refused.sh"

# the trace is written by what keeps the text of 32 nodes, which is moved with the replay
stack_pages=40

packets_and_leftovers > schedule

# in the head, at the first packets, at the write that is left over, and at two later packets or more
refused_after '0 9 15' schedule replay
[ "$(sort -nu places | awk '$1 > 15' | wc -l)" -ge 2 ] || same "after $(sort -nu places | tr '\n' ' ')lines" 'two after 15 lines or more'

# the same on three images, of which the write is left over on each: each operation takes two events more
packets_and_leftovers '1 2 3' > schedule3
refused_after '0 17 27' schedule3 replay3
[ "$(sort -nu places | awk '$1 > 27' | wc -l)" -ge 2 ] || same "after $(sort -nu places | tr '\n' ' ')lines" 'two after 27 lines or more'

refused_after 0 schedule status
refused_after 0 schedule status --form json
refused_after 0 /dev/null soak 7 2000
