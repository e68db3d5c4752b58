# shellcheck shell=bash
# What bed.sh sets is used here.
# shellcheck disable=SC2154,SC2034
# What a liar does at the fault of a scene, and the scene that has to fail by it. Sourced by `machines`, which lies where QUORUMD_TEST_LIAR names one;
# `tests/liars` plays them all. No unproved program can be built, so what lies is what stands around the right one.
liars=(early_start:power_off early_start:panic late_feed:hang second_owner:kill_nbd unread:mail_unread alone:site_returns no_fsync:database_power_cut)

# The next machine signs six seconds after the loss, as if msgwait were none.
lie_early_start() {
    {
        sleep 6
        order 2 'echo held > /run/resource'
    } &
}

# Each feed reaches the device five seconds late: init has it so from the boot on.
lie_late_feed() { :; }

# A standby has the resource for three seconds while machine 1 holds it.
lie_second_owner() { order 3 'echo held > /run/resource; sleep 3; echo free > /run/resource'; }

# Machine 1 does not see what the others write to the disk: its block server is over a snapshot from the boot on.
lie_unread() { :; }

# The first machine of a site that is back signs, though it is no majority.
lie_alone() { { until_true 120 boots 2 2 && sleep 5 && order 2 'echo held > /run/resource'; } > /dev/null & }

# PostgreSQL waits for no disk, from the first boot on: what it acknowledged lies in the memory of its machine.
lie_no_fsync() { :; }
