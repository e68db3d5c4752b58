"""Every state that a group can reach, by every event: the laws of a group hold in each step of tests/groupstep.py. Times are kept as differences to now, and cut off above what the step asks for, so the states are finitely many."""
import collections

import groupwalks
from groupwalks import BROKEN, HARD, NOT_RUNNING, OK, UNKNOWN, Rule

first, step = groupwalks.groupstep.first, groupwalks.groupstep.step

FORGETTING = 4000
RULE = Rule(interval=2000, patience=2000, check=2000, stop=2000, limit=1, window=10**9)
OUT = {"probing": "monitor", "starting": "start", "looking": "monitor", "stopping": "stop"}
STATES = {1: 1264, 2: 19155}  # of so many resources


def cut(tick, now):
    return None if tick is None else max(tick - now, -FORGETTING)


def normal(state):
    phases = tuple(phase._replace(since=cut(phase.since, state.now), unsure=cut(phase.unsure, state.now)) for phase in state.phases)
    failures = tuple(tuple(0 for _ in ticks[-2:]) for ticks in state.failures)
    return state._replace(phases=phases, failures=failures, last_ask=cut(state.last_ask, state.now), now=0)


def out(phase):
    """The action that is under way there."""
    return OUT.get(phase.name) or ("monitor" if phase.asked else None)


def events(state):
    yield from (("tick", 0), ("tick", 2000), ("start",), ("stop",), ("move",))
    if len(state.phases) < 2:
        yield ("maintenance", not state.maintenance)
    for at, phase in enumerate(state.phases):
        verb = out(phase)
        if verb:
            for outcome in (OK, BROKEN, HARD, UNKNOWN) + ((NOT_RUNNING,) if verb == "monitor" else ()):
                yield ("ended", at, verb, outcome)


def look(before, event, after, actions):
    if event == ("stop",) and ("answer", "ok") in actions:
        assert all(phase.name == "down" for phase in after.phases) and not after.held
    assert event[0] in ("start", "stop", "move") or ("answer", "ok") not in actions
    assert not after.held or before.held or event == ("start",)
    gone = event[1] if event[0] == "ended" else None
    for at, (old, new) in enumerate(zip(before.phases, after.phases)):
        if new.name == "down" != old.name:
            assert event == ("ended", at, "monitor", NOT_RUNNING) and old.name in ("probing", "verifying")
        if old.name == "down" != new.name:
            assert ("run", at, "start") in actions
    assert sum(action[0] in ("run", "kill", "leave") for action in actions) <= 1
    for action in actions:
        if action[0] == "run":
            look_at_run(before, gone, after, *action[1:])
        if action[0] == "kill":
            assert out(before.phases[action[1]]) in ("start", "monitor") and action[1] != gone


def look_at_run(before, gone, after, at, verb):
    assert out(before.phases[at]) is None or at == gone
    assert out(after.phases[at]) == verb
    if verb == "start":
        assert after.held and (before.phases[at].name == "down" or at == gone)
        assert all(phase.name in ("up", "looking") for phase in after.phases[:at])
    if verb == "stop":
        assert all(phase.name == "down" for phase in after.phases[at + 1:])


def reach(count):
    """How many states there are."""
    todo = collections.deque(normal(first(count, held)) for held in (False, True))
    seen = set(todo)
    while todo:
        state = todo.popleft()
        for event in events(state):
            after, actions = step((RULE,) * count, state, event, FORGETTING)
            look(state, event, after, actions)
            after = normal(after)
            if after not in seen:
                seen.add(after)
                todo.append(after)
    return len(seen)
