"""The step of a group beside the rows of tests/rows/group-steps.tsv, which were worked out elsewhere: each is met in a walk of tests/groupwalks.py, at that step of it.
The state before it, what is to be done, what is told and the state after it are the row's. `quorumctl group` gives the same, in each of these walks.

group-steps.py PROGRAM    by hand: another program that takes these lines
"""
import collections
import os
import pathlib
import sys

import groupwalks

ROWS = pathlib.Path(os.environ["TOP"], "tests", "rows", "group-steps.tsv")


def optional(value):
    return "-" if value is None else str(value)


def spell_phase(phase):
    return "%s:%d:%s:%s:%d:%d" % (phase.name, phase.number, optional(phase.since), optional(phase.unsure), phase.asked, phase.killed)


def spell(state):
    return "held=%d goal=%s ask=%s maint=%d left=%d now=%d phases=%s failures=%s" % (
        state.held, ":".join(map(str, state.goal)), optional(state.last_ask), state.maintenance, state.left, state.now, ",".join(map(spell_phase, state.phases)),
        ",".join("+".join(map(str, ticks)) or "-" for ticks in state.failures))


def plain(words):
    return ":".join(str(int(word)) if isinstance(word, bool) else optional(word) for word in words)


class Rows:
    """The rows of a walk, by their steps."""

    def __init__(self, rows):
        self.rows, self.step, self.before = rows, 0, None

    def see(self, event, actions, machine):
        if self.step in self.rows:
            got = [";".join(",".join(map(str, rule)) for rule in machine.rules), self.before, plain(event), ",".join(map(plain, actions)) or "-", spell(machine.state),
                   plain(machine.module.told(machine.state))]
            assert got == self.rows[self.step], "\n".join(("wanted", *self.rows[self.step], "got", *got))
        self.step += 1
        self.before = spell(machine.state)


walks = collections.defaultdict(dict)
for line in ROWS.read_text().splitlines()[1:]:
    seed, step, *row = line.split("\t")
    walks[int(seed)][int(step)] = row
found = 0
for seed, rows in walks.items():
    seen = Rows(rows)
    one = groupwalks.Walk(seed, seen=seen.see)
    seen.before = spell(one.machine.state)
    one.wander(max(rows) + 1)
    assert seen.step > max(rows), seed
    one.machine.compare(sys.argv[1:])
    found += len(rows)
assert found == 320, found
