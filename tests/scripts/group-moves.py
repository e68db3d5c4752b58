"""A thousand moves of groups whose agents are honest: each is answered ok and ends in one word that the node is to leave, nothing is counted as a failure, which would switch a node off,
and where the node starts the group again all of it runs. `quorumctl group` gives the same."""
import groupwalks

MOVES = 250  # of each of four groups


class Leaves:
    """How often the node was told to leave."""

    def __init__(self):
        self.count = 0

    def see(self, _event, actions, _machine):
        self.count += actions.count(("leave",))


def moved(seed):
    """So many moves of the group that this seed draws, each of which ends where all of it runs again."""
    leaves = Leaves()
    group = groupwalks.Walk(seed, seen=leaves.see)
    group.rest()
    group.run()
    for _ in range(MOVES):
        assert ("answer", "ok") in group.take(("move",))
        group.rest()
        group.run()
    assert leaves.count == MOVES, leaves.count
    assert not any(group.machine.state.failures), group.machine.state.failures
    group.machine.compare()
    return group.count


resources = [moved(seed) for seed in range(4)]
assert min(resources) == 1 and max(resources) > 2, resources
