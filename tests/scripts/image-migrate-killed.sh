# The program killed at a random moment of `migrate`, 200 times, on 32 nodes: the image is of version 1 or of version 2 and has its
# lines, and the next migration is whole.
. "$TOP/tests/expect.sh"
. "$TOP/tests/version-1.sh"
. "$TOP/tests/killed.sh"
version_1 old 32
printf "$(lines_of_version_1 32)" > lines
printf 'migrated nodes 32\n' > migrated

for ((time = 0; time < 200; time++)); do
    cp old disk
    killed migrate
    cmp listed lines
    "$QUORUMD" migrate --image disk > said
    cmp said migrated
    if ((time % 10 == 0)); then
        "$QUORUMD" list --image disk > listed
        cmp listed lines
    fi
done
