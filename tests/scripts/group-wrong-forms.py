"""Forms of the step of a group that are wrong: the walks of tests/groupwalks.py refuse each. The right one passes them, as a function and as a program."""
import pathlib
import types

import groupwalks

TEXT = pathlib.Path(groupwalks.groupstep.__file__).read_text()
DOWN_AND_OK = 'return state._replace(held=False, goal=("rest",)'
WRONG = {
    "a stop is answered ok while a start is under way":
        (("if all(map(is_down, state.phases)):\n            return", 'if all(phase.name in ("down", "starting") for phase in state.phases):\n            return'),),
    "a stop is answered ok where the stop of the agent ended well":
        (('return put(state, at, Phase("verifying", 0, now)) if outcome == OK', 'return put(state, at, Phase("down")) if outcome == OK'),),
    "unknown is down": (('if phase.name == "verifying":\n        if outcome == NOT_RUNNING:', 'if phase.name == "verifying":\n        if outcome in (NOT_RUNNING, UNKNOWN):'),),
    "started while the node does not hold":
        ((DOWN_AND_OK, 'return state._replace(held=False, goal=("run",)'), ("if is_down(phase) and state.held:", "if is_down(phase):")),
    "a stop that was answered is forgotten": ((DOWN_AND_OK, 'return state._replace(goal=("rest",)'),),
    "a failed one is started without a stop":
        (("if is_down(phase) and state.held:", 'if phase.name in ("down", "failed") and state.held:'), ("if failed is None or state.maintenance:", "if True:")),
    "what the monitor finds down is started without a stop":
        (('return fail(rules, put(state, at, Phase("failed")), at)\n    if phase.name == "checking"',
          'return fail(rules, put(state, at, Phase("down") if outcome == NOT_RUNNING else Phase("failed")), at)\n    if phase.name == "checking"'),),
    "stopped out of order": (("for at in range(len(state.phases) - 1, low - 1, -1):", "for at in range(low, len(state.phases)):"),),
    "a monitor and a stop at one time": (('if phase.name in ("up", "failed") or (', 'if phase.name in ("up", "failed", "looking") or ('),),
    "a stuck one is never stopped again": (('state = put(state, stuck, Phase("failed"))', "pass"),),
    "a stop is let pass for ever": (("and state.last_ask is None and all(phase.name", "and all(phase.name"),),
    "a probe that knows nothing is down":
        (('return put(state, at, Phase("failed")) if outcome != UNKNOWN else put(state, at, Phase("up", 0, now, now))',
          'return put(state, at, Phase("failed")) if outcome != UNKNOWN else put(state, at, Phase("down"))'),),
}
WALKS = 600


def changed(edits):
    """The module with these edits."""
    text = TEXT
    for old, new in edits:
        assert text.count(old) == 1, (text.count(old), old)
        text = text.replace(old, new)
    module = types.ModuleType("changed")
    exec(compile(text, "changed", "exec"), vars(module))
    return module


def is_refused(module):
    """Whether a walk of the first ones finds it wrong."""
    for seed in range(WALKS):
        try:
            groupwalks.walk(seed, module)
        except AssertionError:
            return True
    return False


missed = [name for name, edits in WRONG.items() if not is_refused(changed(edits))]
assert len(WRONG) == 12 and not missed, missed
stops = 0
for number in range(40):
    one = groupwalks.walk(number)
    if number % 10 == 0:
        one.machine.compare()
    stops += one.stops
assert stops > 200, stops
