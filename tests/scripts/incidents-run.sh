# Each schedule of examples/incidents gives its trace, and so does each of examples/three-images on three images, and of examples/arbiter beside
# an arbiter, where a lease that is a millisecond shorter is refused.
. "$TOP/tests/expect.sh"

for incident in "$TOP"/examples/incidents/*/; do
    expect 0 "$(cat "$incident/trace")\\n" replay < "$incident/schedule"
done
for incident in "$TOP"/examples/three-images/*/; do
    expect 0 "$(cat "$incident/trace")\\n" replay3 < "$incident/schedule"
done
for incident in "$TOP"/examples/arbiter/*/; do
    expect 0 "$(cat "$incident/trace")\\n" replay-arbiter < "$incident/schedule"
    sed 's/^lease 2000 12244$/lease 2000 12243/' "$incident/schedule" > short
    expect 17 'fault UnsafeLease 10000 2000 12243\n' replay-arbiter < short
done
