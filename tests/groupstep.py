"""The step of a group of resources, as it was worked out before the crate qn_group: what is to be done, event by event. `quorumctl group` is held against it.

It is step(rules, state, event) -> (state, actions). Times are milliseconds.

A phase of a resource is one of
  new           nothing is known of it: the supervisor has just begun
  probing       its first monitor is under way
  down          a monitor said "not running" at a moment at which no start of it was under way, and nothing was started since
  starting      its start is under way
  checking N    its start ended well; a monitor is under way or due, and N of them said "not running"
  up            it runs. SINCE is when its monitor last said so, UNSURE since when it says "unknown" (None: it does not)
  looking       the same, and a monitor is under way
  failed        it does not run as it should, and its stop was not begun
  stopping      its stop is under way
  verifying     its stop ended; a monitor is under way or due, until LIMIT
  stuck         its stop failed, or nothing said that it is down within the time of a stop

A goal is one of: rest (all down), run (all up), restart FROM (down from there on, then run), leave (all down, then the node is to leave).
"""
from collections import namedtuple

Phase = namedtuple("Phase", "name number since unsure asked killed", defaults=(0, None, None, False, False))
State = namedtuple("State", "held goal phases failures last_ask maintenance left now")
# of each resource: how often it is looked at, how long it may stay unsure, how long a start may be checked and a stop be verified, how many failures in how long
Rule = namedtuple("Rule", "interval patience check stop limit window", defaults=(10000, 60000, 60000, 60000, 3, 3600000))
FORGETTING = 10000  # a stop that nobody asks for any more: the node is quorate again, and holds on. A second asking within it begins the stop
BUSY = ("probing", "starting", "looking", "stopping")
# outcomes of an action
OK, NOT_RUNNING, BROKEN, HARD, UNKNOWN = "ok", "not-running", "broken", "hard", "unknown"


def first(count, held):
    """The supervisor begins: `held` where the node was told `start` in this boot, and no stop was answered `ok` since."""
    return State(held, ("run",) if held else ("rest",), (Phase("new"),) * count, ((),) * count, None, False, False, 0)


def put(state, at, phase):
    return state._replace(phases=state.phases[:at] + (phase,) + state.phases[at + 1:])


def is_down(phase):
    return phase.name == "down"


def fail(rules, state, at):
    """The resource of this place has failed: it and those after it are started again, or the node is to leave."""
    if state.goal[0] in ("rest", "leave"):
        return state
    recent = tuple(when for when in state.failures[at] if state.now - when < rules[at].window)
    state = state._replace(failures=state.failures[:at] + (recent + (state.now,),) + state.failures[at + 1:])
    if len(recent) >= rules[at].limit:
        return state._replace(goal=("leave",))
    low = min(at, state.goal[1]) if state.goal[0] == "restart" else at
    return state._replace(goal=("restart", low))


def ended(rules, state, at, verb, outcome):
    """An action on the resource of this place has ended. What fits no action that is under way changes nothing."""
    phase, now, rule = state.phases[at], state.now, rules[at]
    if phase.killed:
        return put(state, at, Phase("failed")) if verb == ("start" if phase.name == "starting" else "monitor") else state
    if verb == "start" and phase.name == "starting":
        if outcome == OK:
            return put(state, at, Phase("checking", 0, now))
        state = put(state, at, Phase("failed"))
        if outcome == HARD and state.goal[0] in ("run", "restart"):
            return state._replace(goal=("leave",))
        return fail(rules, state, at)
    if verb == "stop" and phase.name == "stopping":
        return put(state, at, Phase("verifying", 0, now)) if outcome == OK else put(state, at, Phase("stuck"))
    if verb != "monitor" or not (phase.name == "probing" or phase.asked or phase.name == "looking"):
        return state
    if phase.name == "probing":
        if outcome == NOT_RUNNING:
            return put(state, at, Phase("down"))
        if outcome == OK:
            return put(state, at, Phase("up", 0, now))
        return put(state, at, Phase("failed")) if outcome != UNKNOWN else put(state, at, Phase("up", 0, now, now))
    if phase.name == "looking":
        if outcome == OK:
            return put(state, at, Phase("up", 0, now))
        if state.maintenance:
            return put(state, at, Phase("up", 0, now, phase.unsure))
        if outcome == UNKNOWN and (phase.unsure is None or now - phase.unsure < rule.patience):
            return put(state, at, Phase("up", 0, now, now if phase.unsure is None else phase.unsure))
        return fail(rules, put(state, at, Phase("failed")), at)
    if phase.name == "checking":
        if outcome == OK:
            return put(state, at, Phase("up", 0, now))
        stopped = phase.number + 1 if outcome == NOT_RUNNING else 0
        if stopped > 1 or outcome == HARD or (rule.check and now - phase.since >= rule.check):
            return fail(rules, put(state, at, Phase("failed")), at)
        return put(state, at, Phase("checking", stopped, phase.since))
    if phase.name == "verifying":
        if outcome == NOT_RUNNING:
            return put(state, at, Phase("down"))
        if now - phase.since >= rule.stop:
            return put(state, at, Phase("stuck"))
        return put(state, at, Phase("verifying", 0, phase.since))
    return state


def lower(state, low):
    """The next action that takes down what stands from that place on: of the last one that is not down."""
    for at in range(len(state.phases) - 1, low - 1, -1):
        phase = state.phases[at]
        if is_down(phase):
            continue
        if phase.name in ("up", "failed") or (phase.name == "checking" and not phase.asked):
            return put(state, at, Phase("stopping")), [("run", at, "stop")]
        if phase.name in ("starting", "looking", "checking") and not phase.killed:
            return put(state, at, phase._replace(killed=True)), [("kill", at)]
        return state, []  # it is under way, not looked at yet, or stuck
    return state, None  # all are down


def raise_next(state):
    """The next start: of the first one that is not up, where it is down and those before it run."""
    for at, phase in enumerate(state.phases):
        if phase.name in ("up", "looking"):
            continue
        if is_down(phase) and state.held:
            return put(state, at, Phase("starting")), [("run", at, "start")]
        return state, []
    return state, []


def look(rules, state):
    """The first monitor that is due."""
    for at, phase in enumerate(state.phases):
        if phase.name == "new":
            return put(state, at, Phase("probing")), [("run", at, "monitor")]
        if phase.name in ("checking", "verifying") and not phase.asked:
            return put(state, at, phase._replace(asked=True)), [("run", at, "monitor")]
        wait = min(rules[at].interval, 2000) if phase.unsure is not None else rules[at].interval
        if phase.name == "up" and state.now - phase.since >= wait:
            return put(state, at, phase._replace(name="looking")), [("run", at, "monitor")]
    return state, []


def drive(state):
    """The next action towards the goal."""
    if state.goal[0] == "restart":
        state, actions = lower(state, state.goal[1])
        if actions is not None:
            return state, actions
        state = state._replace(goal=("run",))
    if state.goal[0] == "run":
        failed = next((at for at, phase in enumerate(state.phases) if phase.name == "failed"), None)
        if failed is None or state.maintenance:
            return (state, []) if state.maintenance else raise_next(state)
        return drive(state._replace(goal=("restart", failed)))
    state, actions = lower(state, 0)
    if actions is not None:
        return state, actions
    if state.goal[0] == "leave" and not state.left:
        return state._replace(left=True), [("leave",)]
    return state, []


def is_patient(state):
    """The first asking of a stop, where the whole group runs: the node asks again a loop later, unless an answer of the quorum device has made it quorate by then."""
    return state.held and state.goal == ("run",) and state.last_ask is None and all(phase.name in ("up", "looking") for phase in state.phases)


def step(rules, state, event, forgetting=FORGETTING):
    """One event. It gives at most one action on a resource, one kill or leave, and one answer to the node."""
    kind = event[0]
    answer = []
    if kind == "tick":
        state = state._replace(now=max(state.now, event[1]))
        if state.held and state.goal[0] != "leave" and state.last_ask is not None and state.now - state.last_ask >= forgetting:
            state = state._replace(goal=("run",) if state.goal == ("rest",) else state.goal, last_ask=None)
        state, actions = look(rules, state)
        if actions:
            return state, actions
    elif kind == "start":
        state = state._replace(held=True, goal=("run",), left=False, last_ask=None)
        answer = [("answer", "ok")]
    elif kind == "stop":
        if all(map(is_down, state.phases)):
            return state._replace(held=False, goal=("rest",), last_ask=None, left=False), [("answer", "ok")]
        if is_patient(state):
            return state._replace(last_ask=state.now), [("answer", "wait")]
        state = state._replace(last_ask=state.now)
        stuck = max((at for at, phase in enumerate(state.phases) if phase.name == "stuck"), default=None)
        if stuck is not None:
            state = put(state, stuck, Phase("failed"))
        state = state._replace(goal=state.goal if state.goal == ("leave",) else ("rest",))
        answer = [("answer", "stuck" if stuck is not None else "wait")]
    elif kind == "move":
        if not state.held or state.goal[0] not in ("run", "restart"):
            return state, [("answer", "refused")]
        state, answer = state._replace(goal=("leave",)), [("answer", "ok")]
    elif kind == "maintenance":
        state = state._replace(maintenance=event[1])
    elif kind == "ended":
        state = ended(rules, state, event[1], event[2], event[3])
    state, actions = drive(state)
    return state, answer + actions


def told(state):
    """What is told of the group: a word, the place that it speaks of, and whether the service is as it should be."""
    for name, word in (("stuck", "stuck"), ("stopping", "stopping"), ("verifying", "stopping"), ("failed", "failed"), ("starting", "starting"), ("checking", "starting")):
        for at, phase in enumerate(state.phases):
            if phase.name == name:
                return word, at, False
    if all(map(is_down, state.phases)):
        return "down", None, not state.held
    for at, phase in enumerate(state.phases):
        if phase.name in ("new", "probing"):
            return "looking", at, False
    for at, phase in enumerate(state.phases):
        if is_down(phase):
            return "starting", at, False
    for at, phase in enumerate(state.phases):
        if phase.unsure is not None:
            return "unsure", at, True
    return ("maintenance", None, True) if state.maintenance else ("runs", None, True)
