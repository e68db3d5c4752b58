# The program killed at a random moment of `create`, 200 times, over an image of 32 nodes: it is as it was, whole, or none.
. "$TOP/tests/expect.sh"
. "$TOP/tests/version-1.sh"
. "$TOP/tests/killed.sh"
version_1 old 32
printf "$(lines_of_version_1 32)" > lines
printf 'fault BadImage sector 0\n' > none
for ((id = 1; id <= 32; id++)); do
    printf 'node %s incarnation 0 clean mail empty\n' "$id"
done > fresh

for ((time = 0; time < 200; time++)); do
    cp old disk
    killed create
    cmp -s listed none || cmp -s listed fresh || cmp listed lines
done
