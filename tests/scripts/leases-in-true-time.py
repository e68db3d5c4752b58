"""Leases of an arbiter in true time, in the model of tests/leasemodel.py: as docs/dev/VOTES.md tells of them no two sides have the vote at one moment, and in each wrong world
two do: the look before the receive, a reply judged as it comes, a boot without a lease, a restored memory, a shorter lease."""
import leasemodel

RUNS = 60
assert leasemodel.LEASE == 1226, leasemodel.LEASE
same = leasemodel.runs_with_two(leasemodel.AS_TOLD, RUNS)
assert same == 0, "as told: in %d of %d runs two sides have the vote" % (same, RUNS)
missed = [wrong for wrong in leasemodel.WRONG if not leasemodel.runs_with_two(wrong, RUNS)]
assert not missed, "no two sides in %d runs: %s" % (RUNS, missed)
