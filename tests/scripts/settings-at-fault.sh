# Settings texts at fault at the head of a schedule, each with the line of its first fault, from tests/rows/settings-at-fault.tsv.
. "$TOP/tests/expect.sh"

tried=0
while IFS=$'\t' read -r _ head line; do
    printf '%b' "$head" > schedule
    expect 3 "$line" replay < schedule
    tried=$((tried + 1))
done < "$TOP/tests/rows/settings-at-fault.tsv"
same "$tried" 195
