"""Walks of a group of resources that are really there: the step of tests/groupstep.py is judged by their truth, and `quorumctl group` is to give the same.

The truth of a resource: whether it runs, and whether an action on it is under way. A monitor says "not running" only where nothing runs and no start is under way; an agent may
lie about all else: starts that fail and leave something, stops that end well and stop nothing, monitors that do not know.
"""
import os
import random
import subprocess

import groupstep
from groupstep import BROKEN, HARD, NOT_RUNNING, OK, UNKNOWN, Rule

LAWS = ("no ok to a stop while something may run", "no start while the node does not hold", "in order", "down only by a monitor", "a stop before each start again", "one action at a time")


class Machine:
    """The step as a function, of tests/groupstep.py or of another module with its names; and what it was handed and gave, as lines."""

    def __init__(self, rules, held, module=groupstep):
        self.module, self.rules, self.state = module, rules, module.first(len(rules), held)
        self.lines = ["resource %s" % " ".join(map(str, rule)) for rule in rules] + ["begin held" if held else "begin released"]
        self.wanted = [self.view()]

    def take(self, event):
        failures = self.state.failures
        self.state, actions = self.module.step(self.rules, self.state, event)
        self.lines.append(" ".join("on" if word is True else "off" if word is False else str(word) for word in event))
        spelled = [" ".join(map(str, action)) for action in actions]
        counted = ["counted %d" % event[1]] if self.state.failures != failures else []
        self.wanted += [line for line in spelled if line.startswith("answer")] + counted
        self.wanted += [line for line in spelled if not line.startswith("answer")] + [self.view()]
        return actions

    def view(self):
        """How the group stands, as the program spells it."""
        word, at, fine = self.module.told(self.state)
        return "goal %s\nphases %s\ntold %s %s %s" % (self.state.goal[0], " ".join(phase.name for phase in self.state.phases), word, "-" if at is None else at, "yes" if fine else "no")

    def compare(self, words=()):
        """Hands the same to a program, `quorumctl group` where none is named, which is to give the same."""
        done = subprocess.run(words or (os.environ["QUORUMCTL"], "group"), input="\n".join(self.lines) + "\n", stdout=subprocess.PIPE, text=True, check=True)
        got = done.stdout.splitlines()
        wanted = "\n".join(self.wanted).splitlines()
        assert got == wanted, next("wanted %s\ngot    %s" % pair for pair in zip(wanted + [""], got + [""]) if pair[0] != pair[1])


class World:
    """The resources as they are, and whether the node holds by its own log."""

    def __init__(self, rng, count, held):
        self.rng, self.holds = rng, held
        self.runs = [rng.random() < 0.3 for _ in range(count)]
        self.out = [None] * count      # the action that is under way
        self.clean = [True] * count    # no failure since the last stop
        self.bad = rng.random() < 0.5  # agents that fail and lie, but never say "not running" of what runs

    def act(self, phases, actions):
        assert sum(action[0] in ("run", "kill", "leave") for action in actions) <= 1, LAWS[5]
        for action in actions:
            if action[0] == "run":
                self.begin(phases, *action[1:])
            if action[0] == "kill":
                assert self.out[action[1]] in ("start", "monitor")

    def begin(self, phases, at, verb):
        assert self.out[at] is None, LAWS[5]
        self.out[at] = verb
        if verb == "start":
            assert self.holds, LAWS[1]
            assert all(phase in ("up", "looking") for phase in phases[:at]), LAWS[2]
            assert self.clean[at], LAWS[4]
            self.clean[at] = False
        if verb == "stop":
            assert all(phase == "down" for phase in phases[at + 1:]), LAWS[2]

    def end(self, at):
        """Ends the action that is under way there; its outcome."""
        verb, chance = self.out[at], self.rng.random()
        self.out[at] = None
        if verb == "start":
            return self.end_start(at, chance)
        if verb == "stop":
            return self.end_stop(at, chance)
        if self.bad and chance < 0.25:
            return self.rng.choice((UNKNOWN, BROKEN, HARD))
        if self.runs[at]:
            return OK
        self.clean[at] = True
        return NOT_RUNNING

    def end_start(self, at, chance):
        if not self.bad or chance < 0.7:
            self.runs[at] = True
            return OK
        self.runs[at] = chance < 0.8  # it fails, and leaves something
        return self.rng.choice((HARD, UNKNOWN, BROKEN))

    def end_stop(self, at, chance):
        if not self.bad or chance < 0.7:
            self.runs[at] = False
            return OK
        return OK if chance < 0.8 else UNKNOWN  # it ends well, and stopped nothing

    def ended(self, at):
        verb = self.out[at]
        return ("ended", at, verb, self.end(at))

    def busy(self):
        return [at for at, verb in enumerate(self.out) if verb]


def rules_of(rng, count):
    return tuple(Rule(limit=rng.choice((0, 1, 3)), interval=rng.choice((2000, 10000)), patience=rng.choice((0, 5000, 60000)), check=rng.choice((0, 3000)), stop=3000)
                 for _ in range(count))


class Walk:
    """One walk: the events that its seed draws, handed to the step of that module; what it gives is judged."""

    def __init__(self, seed, module=groupstep, seen=None):
        self.rng = random.Random(seed)
        count = self.rng.randint(1, 4)
        rules = rules_of(self.rng, count)
        held = self.rng.random() < 0.2
        self.world, self.now, self.count, self.stops, self.seen = World(self.rng, count, held), 0, count, 0, seen
        self.machine = Machine(rules, held, module)

    def take(self, event):
        """One event; the actions."""
        before = [phase.name for phase in self.machine.state.phases]
        actions = self.machine.take(event)
        state = self.machine.state
        phases = [phase.name for phase in state.phases]
        if event == ("stop",) and ("answer", "ok") in actions:
            assert not any(self.world.runs) and "start" not in self.world.out and set(phases) == {"down"}, LAWS[0]
            self.world.holds, self.stops = False, self.stops + 1
        for at, phase in enumerate(phases):
            if phase == "down" != before[at]:
                assert event == ("ended", at, "monitor", NOT_RUNNING) and before[at] in ("probing", "verifying"), LAWS[3]
        assert state.held == self.world.holds, LAWS[1]
        self.world.act(phases, actions)
        if self.seen:
            self.seen(event, actions, self.machine)
        return actions

    def draw(self):
        """The next event, by chance."""
        chance, busy, rng = self.rng.random(), self.world.busy(), self.rng
        if busy and chance < 0.55:
            return self.world.ended(rng.choice(busy))
        if chance < 0.85:
            self.now += rng.choice((0, 100, 500, 500, 500, 1000, 3000, 10000))
            return ("tick", self.now)
        if chance < 0.90:  # a resource dies by itself
            at = rng.randrange(self.count)
            if self.world.out[at] is None and rng.random() < 0.3:
                self.world.runs[at] = False
            return ("tick", self.now)
        if chance < 0.93:
            if self.world.holds:
                return None
            self.world.holds = True
            return ("start",)
        if chance < 0.97:
            return ("stop",)
        return ("move",) if chance < 0.98 else ("maintenance", rng.random() < 0.5)

    def wander(self, most=None):
        """The drawn events, or the first of them."""
        taken = 0
        for _ in range(self.rng.choice((40, 200, 600))):
            event = self.draw()
            if event:
                self.take(event)
                taken += 1
                if taken == most:
                    return

    def rest(self):
        """With honest agents a stop is answered ok in the end."""
        self.world.bad = False
        for _ in range(4000):
            busy = self.world.busy()
            if busy:
                event = self.world.ended(busy[0])
            elif self.rng.random() < 0.5:
                self.now += 500
                event = ("tick", self.now)
            else:
                event = ("stop",)
            if ("answer", "ok") in self.take(event) and event == ("stop",):
                return
        raise AssertionError("a stop was never answered ok")

    def run(self):
        """And where the node starts the group then, all of it runs in the end, outside of maintenance."""
        self.take(("maintenance", False))
        self.world.holds = True
        self.take(("start",))
        for _ in range(400):
            busy = self.world.busy()
            if busy:
                event = self.world.ended(busy[0])
            else:
                self.now += 500
                event = ("tick", self.now)
            self.take(event)
            if self.machine.module.told(self.machine.state)[0] == "runs":
                return
        raise AssertionError("it never ran")


def walk(seed, module=groupstep):
    """A whole walk, which ends where all run; it has how many stops were answered ok."""
    one = Walk(seed, module)
    one.wander()
    one.rest()
    one.run()
    return one
