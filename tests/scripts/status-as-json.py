"""The two forms of `status` over the schedules of the repository: the JSON has the shape that docs/status.schema.json says,
and both forms say the same of each node. The schema refuses what is no status."""
import json
import os
import pathlib
import re
import subprocess
import sys

try:
    from jsonschema import Draft202012Validator
except ImportError:
    Draft202012Validator = None

LINE = re.compile(r"node (\d+) (\w+) holds=(yes|no) quorate=(yes|no) (\d+)/(\d+) expected=(\d+) released=(yes|no) why=(\S+)\n")


def of_line(line):
    """What a line of the text says, as the object of the JSON."""
    node, phase, holds, quorate, votes, quorum, expected, released, why = LINE.fullmatch(line).groups()
    return {"expected": int(expected), "holds": holds == "yes", "id": int(node), "phase": phase, "quorate": quorate == "yes",
            "quorum": int(quorum), "released": released == "yes", "votes": int(votes), "why": why}


def demand(holds, what):
    if not holds:
        sys.exit("wrong: %s" % what)


def said_of(schedule, *words):
    """The exit status of a call, and what it writes."""
    with open(schedule, "rb") as source:
        done = subprocess.run([os.environ["QUORUMD"], "status", *words], stdin=source, stdout=subprocess.PIPE, stderr=subprocess.DEVNULL)
    return done.returncode, done.stdout.decode()


def try_schedule(schedule):
    """The nodes of the status of a schedule; None where that is at fault: then both forms write the fault line alone."""
    plain = said_of(schedule)
    demand(said_of(schedule, "--form", "text") == plain, "%s: the text is not the form where none is written" % schedule)
    ended, written = said_of(schedule, "--form", "json")
    demand(ended == plain[0], "%s: the forms end with %d and %d" % (schedule, *sorted((ended, plain[0]))))
    if ended == 0:
        return try_forms(plain[1], written)
    demand(written == plain[1] and written.startswith("fault ") and written.count("\n") == 1, "%s: %r is no fault line alone" % (schedule, written))
    return None


def try_forms(lines, text):
    """Compares the two forms of one status, and gives its nodes."""
    nodes = json.loads(text)
    demand(text == json.dumps(nodes, separators=(",", ":"), sort_keys=True) + "\n", "%r is not one line in order" % text)
    demand(nodes == [of_line(line) for line in lines.splitlines(keepends=True)], "the forms differ: %r" % text)
    ids = [node["id"] for node in nodes]
    demand(ids == sorted(set(ids)), "ids that do not rise: %r" % ids)
    return nodes


# a node that is up and does not hold, and changes of it that are no status
UP = {"expected": 3, "holds": False, "id": 1, "phase": "up", "quorate": True, "quorum": 2, "released": True, "votes": 2, "why": "clear"}
OFF = {"expected": 3, "holds": False, "id": 2, "phase": "off", "quorate": False, "quorum": 2, "released": True, "votes": 0, "why": "down"}
HOLDER = {**UP, "holds": True, "why": "holding"}
LEAVING = {**UP, "holds": True, "phase": "leaving", "why": "down"}
WHYS = ["clear", "no-view", "wait-for-all", "not-quorate:0/1", "not-quorate:10/4194239", "not-chosen:4294967295", "not-chosen:0", "held-by:1",
        "unheard:2", "unfenced:2:unwritten", "unfenced:2:1", "unfenced:30:3600000"]
NO_WHYS = ["", "Clear", "clear ", "clear\n", "unknown", "not-quorate", "not-quorate:1", "not-quorate:1/0", "not-quorate:01/2", "not-quorate:1/2\n",
           "not-chosen", "not-chosen:00", "not-chosen:-1", "held-by:01", "held-by:0", "unheard:0", "unheard:", "unheard:x", "unfenced:2", "unfenced:2:",
           "unfenced:2:0", "unfenced:2:written", "unfenced:unwritten", None, 1]
WRONG = [{"phase": "gone"}, {"phase": "Up"}, {"phase": None}, {"id": 0}, {"id": 4294967296}, {"id": "1"}, {"id": 1.5}, {"holds": "yes"},
         {"holds": 0}, {"quorate": None}, {"released": "no"}, {"votes": -1}, {"votes": "2"}, {"quorum": 0}, {"expected": 0},
         {"incarnation": 1}, {"phase": "leaving"}, {"why": "down"}, {"why": "holding"}, {"holds": True}]


def try_schema(schema):
    """Tries the schema over statuses, good ones and others."""
    Draft202012Validator.check_schema(schema)
    judge = Draft202012Validator(schema)
    good = [[UP], [OFF], [HOLDER, OFF], [LEAVING], [UP] * 32] + [[{**UP, "why": why}] for why in WHYS]
    for nodes in good:
        demand(judge.is_valid(nodes), "the schema refuses %r" % nodes)
    wrong = [UP, [], [UP] * 33, [HOLDER, LEAVING], [None], "fault Usage"]
    wrong += [[{key: node[key] for key in node if key != lost}] for node in (UP, OFF, HOLDER) for lost in node]
    wrong += [[{**UP, **change}] for change in WRONG] + [[{**UP, "why": why}] for why in NO_WHYS]
    wrong += [[{**OFF, **change}] for change in ({"holds": True}, {"quorate": True}, {"votes": 1}, {"why": "no-view"})]
    for nodes in wrong:
        demand(not judge.is_valid(nodes), "the schema takes %r" % nodes)
    return judge


top = pathlib.Path(os.environ["TOP"])
schedules = sorted([*top.glob("tests/cases/status/*/stdin"), *top.glob("examples/incidents/*/schedule")])
statuses = [nodes for nodes in map(try_schedule, schedules) if nodes is not None]
demand(len(statuses) >= 20, "only %d schedules are good to their end" % len(statuses))
if Draft202012Validator is None:
    print("skipped: this Python has no module jsonschema for draft 2020-12 (Debian: python3-jsonschema), so the schema was not tried")
else:
    judge = try_schema(json.loads((top / "docs" / "status.schema.json").read_text()))
    for nodes in statuses:
        for fault in judge.iter_errors(nodes):
            demand(False, "%s, in %r" % (fault.message, nodes))
