"""`quorumctl status` over status files that were written by hand: the verdict in each state that docs/STATUS.md has, as text, as JSON by
its schema, and as metrics that promtool takes."""
import json
import pathlib
import re
import shutil
import subprocess

from clusterfiles import IDS, LOOP, TOP, holder, node, same, status, written

try:
    from jsonschema import Draft202012Validator
except ImportError:
    Draft202012Validator = None

WORDS = {0: "healthy", 1: "degraded", 2: "no owner", 3: "unknown"}
OFF = {"phase": "off", "quorate": False, "votes": 0, "view": None, "why": "down"}
BOOTING = {**OFF, "phase": "booting", "incarnation": None, "mail": "unread", "mail_tick": None}
ALONE = {"quorate": False, "votes": 1, "view": {"id": 2, "members": [3]}, "why": "not-quorate:1/2"}
PAIR = {"votes": 2, "view": {"id": 2, "members": [2, 3]}}
NAMING = {"id": 2, "members": [1, 2, 3], "candidate": 1}
YES = {"address": "10.0.0.9:7432", "age": 400, "answer": "yes", "no": 1, "polls": 90, "refused": 0, "yes": 80}
NONE = {**YES, "age": 200900, "answer": "none"}
CUT = [{"hello_tick": -200, "id": 2}, {"hello_tick": -200, "id": 3, "network_down": 1}]
FIVE = (1, 2, 3, 4, 5)
OLD = {"tick": -3 * 60000 - 2000}  # three loops and two seconds

WHYS = ["down", "no-view", "wait-for-all", "not-quorate:1/2", "not-chosen:1", "not-chosen:0", "held-by:2", "unheard:2", "unfenced:2:unwritten",
        "unfenced:2:4744", "clear"]


def seen(ident):
    """A peer that is heard, in the file of a program that is told nothing."""
    return {"hello_tick": -200, "id": ident}


def lost(ident):
    """One that was heard five loops ago."""
    return {"hello_tick": -5 * 60000, "id": ident}


def unseen(ident):
    return {"hello_tick": None, "id": ident}


def teller(ident, **changes):
    """One that is heard and tells how it is."""
    told = {"group": 4, "held_ms": 0, "holds": False, "incarnation": 1, "leaving": False, "quorate": True, "tick": -150, **changes}
    return {**seen(ident), "refused": 0, "told": told}


def on_networks(own, ids=IDS, **down):
    """The peers of a node that says of these others, as n2, which network to them is down."""
    numbers = {int(name[1:]): network for name, network in down.items()}
    return [{**seen(ident), **({"network_down": numbers[ident]} if ident in numbers else {})} for ident in ids if ident != own]


def joined(ids, *pairs, network=1):
    """The files of nodes of which the first holds: between these pairs the network is down, and both say so."""
    files = []
    for own in ids:
        down = {"n%d" % other: network for pair in pairs for other in pair if own in pair and other != own}
        files.append((holder if own == ids[0] else node)(own, ids=ids, peers=on_networks(own, ids, **down)))
    return files


def waiting(**changes):
    """Three nodes that see one another, of which none holds."""
    return [node(1, why="clear", **changes), node(2), node(3)]


# the nodes, the status, and what is said; an age stands as S
STATES = [
    # one holds
    ([holder(1), node(2), node(3)], 0, "1 holds (no group)"),
    ([node(1, why="held-by:3"), node(2), holder(3)], 0, "3 holds (no group)"),
    # a view says whom its number names
    ([holder(1, view=NAMING), node(2, view=NAMING), node(3, view=NAMING)], 0, "1 holds (no group)"),
    ([node(own, view={**NAMING, "candidate": 0}, why="not-chosen:0") for own in (1, 2, 3)], 2, ""),
    ([holder(1, ids=(1,), votes=1, quorum=1, expected=1)], 0, "1 holds (no group)"),
    # a group
    *[([holder(1, group=group), node(2), node(3)], 0, "1 holds" + said) for group, said in ((4, ""), (5, " (unsure)"), (9, " (maintenance)"))],
    *[([holder(1, group=group), node(2), node(3)], 1, "1 holds; " + said)
      for group, said in ((None, "nothing looks after its group"), (1, "its group is down"), (2, "its group is looking"), (3, "its group is starting"),
                          (6, "its group is stopping"), (7, "its group is failed"), (8, "its group is stuck"))],
    ([holder(1, group=4), node(2, group=7), node(3, group=None)], 0, "1 holds"),
    # names
    ([holder(1, name="db1"), node(2, name="db2"), node(3)], 0, "db1 holds (no group)"),
    ([holder(1), node(2, name="db2", mail="exit"), node(3)], 1, "1 holds; db2 has mail exit"),
    # a message
    ([holder(1), node(2, mail="test"), node(3)], 0, "1 holds (no group)"),
    ([holder(1), node(2, mail="unread", mail_tick=None), node(3)], 0, "1 holds (no group)"),
    *[([holder(1), node(2, mail=mail), node(3)], 1, "1 holds; 2 has mail %s" % mail)
      for mail in ("reset", "off", "exit", "crashdump", "damaged", "failed")],
    ([holder(1, phase="leaving", mail="exit", why="down"), node(2), node(3)], 1, "1 holds; 1 is leaving; 1 has mail exit"),
    # votes, and Hellos
    ([holder(1), node(2), node(3, **ALONE)], 1, "1 holds; 3 not quorate"),
    ([holder(1, quorate=False, votes=1), node(2), node(3)], 1, "1 holds; 1 not quorate"),
    ([holder(1), node(2, view={"id": 2, "members": [1, 2]}), node(3)], 0, "1 holds (no group)"),
    ([holder(1), node(2, peers=[seen(1), unseen(3)]), node(3)], 1, "1 holds; 2 does not see 3"),
    ([holder(1, peers=[unseen(2), lost(3)]), node(2), node(3)], 1, "1 holds; 1 does not see 2; 1 does not see 3"),
    ([holder(1, peers=[seen(2), {**lost(3), "name": "db3", "refused": 340}]), node(2), node(3)], 1,
     "1 holds; 1 does not see db3 (340 packets of it refused: another key or text)"),
    ([holder(1), node(2), node(3, **BOOTING)], 1, "1 holds; 3 not quorate"),
    ([node(1, phase="dying", quorate=False, votes=1, mail="reset", why="down"), holder(2, **PAIR), node(3, **PAIR)], 1,
     "2 holds; 1 not quorate; 1 is dying; 1 has mail reset"),
    # nodes of which nothing is known now
    ([holder(1), node(2), node(3, **OLD)], 1, "1 holds; 3 silent for S s; 3 tells nothing"),
    ([holder(1), node(2), node(3, tick=1000000)], 1, "1 holds; 3 is of another boot of this host; 3 tells nothing"),
    ([holder(1, **PAIR, end="left clean"), holder(2, **PAIR), node(3, **PAIR)], 1, "2 holds; 1 ended: left clean; 1 tells nothing"),
    ([holder(1, **OLD), holder(2, **PAIR), node(3, **PAIR)], 1, "2 holds; 1 silent for S s; 1 tells nothing"),
    ([holder(1, loop=0, tick=-5000), node(2), node(3)], 1, "owner not known: 1 tells nothing; 1 silent for S s"),
    # nodes without a file: they tell nothing, or what they told
    ([holder(1), node(2)], 1, "1 holds; 3 tells nothing"),
    ([holder(1)], 1, "1 holds; 2 tells nothing; 3 tells nothing"),
    ([holder(1, group=4, peers=[teller(2), teller(3)])], 0, "1 holds"),
    ([node(2, peers=[teller(1, holds=True, held_ms=90000), teller(3)])], 0, "1 holds"),
    ([node(2, peers=[teller(1, holds=True, held_ms=90000, group=10), teller(3)])], 1, "1 holds; nothing looks after its group"),
    ([node(2, peers=[teller(1, holds=True, held_ms=90000, group=7), teller(3)])], 1, "1 holds; its group is failed"),
    ([node(2, peers=[teller(1, leaving=True), teller(3, quorate=False)]), node(3, **ALONE)], 1,
     "owner not known: 1 tells nothing; 3 not quorate; 1 is leaving"),
    ([node(2, peers=[teller(1, leaving=True), teller(3, quorate=False)])], 2, "3 not quorate; 1 is leaving"),
    # what a file says stands before what was told of its node
    ([node(1), node(2, peers=[teller(1, holds=True, held_ms=90000), seen(3)]), node(3)], 2, ""),
    # none of these holds, and one that tells nothing may
    ([node(2)], 1, "owner not known: 1, 3 tells nothing"),
    ([node(2), node(3)], 1, "owner not known: 1 tells nothing"),
    ([node(1, why="held-by:3"), node(2)], 1, "owner not known: 3 tells nothing"),
    ([holder(1, **OLD), node(2), node(3)], 1, "owner not known: 1 tells nothing; 1 silent for S s"),
    ([holder(1, end="fault SelfReset reset"), node(2), node(3)], 1, "owner not known: 1 tells nothing; 1 ended: fault SelfReset reset"),
    ([node(3, **ALONE)], 1, "owner not known: 1, 2 tells nothing; 3 not quorate"),
    # no owner
    (waiting(), 2, ""),
    ([holder(1, **OLD), node(2, **PAIR, why="unfenced:1:4744"), node(3, **PAIR)], 2, "1 silent for S s"),
    ([node(own, **BOOTING) for own in (1, 2, 3)], 2, "1 not quorate; 2 not quorate; 3 not quorate"),
    *[([node(1, ids=(1, 2), why=why)] + [node(2, ids=(1, 2))], 2, "") for why in WHYS],
    # two hold
    ([holder(1), holder(2), node(3)], 2, "TWO HOLDERS: 1, 2 (by their own word)"),
    ([holder(3), holder(1), holder(2)], 2, "TWO HOLDERS: 1, 2, 3 (by their own word)"),
    ([holder(1), holder(2, **OLD), node(3)], 1, "1 holds; 2 silent for S s; 2 tells nothing"),
    ([holder(1, phase="dying", quorate=False, votes=1, mail="reset", why="down"), holder(2, **PAIR), node(3, **PAIR)], 2,
     "TWO HOLDERS: 1, 2 (by their own word)"),
    # what a node lost of its images, its networks and its arbiter
    ([holder(1, images=2), node(2), node(3)], 1, "1 holds; 1 runs on 2 of 3 images"),
    ([holder(1, images=2), node(2, images=1), node(3)], 1, "1 holds; 1 runs on 2 of 3 images; 2 runs on 1 of 3 images"),
    ([node(1, images=2), node(2), node(3)], 2, "1 runs on 2 of 3 images"),
    # which of two networks is down: all of it, to nodes that it joins with none, and between those that are left
    ([holder(1, peers=CUT), node(2), node(3)], 1, "1 holds; network 1 between 1 and 3 is down"),
    (joined(IDS, (1, 3), (2, 3)), 1, "1 holds; network 1 to 3 is down"),
    (joined(IDS, (1, 2), (1, 3)), 1, "1 holds; network 1 to 1 is down"),
    (joined(IDS, (1, 2), (1, 3), (2, 3), network=0), 1, "1 holds; network 0 is down"),
    (joined((1, 2), (1, 2)), 1, "1 holds; network 1 is down"),
    (joined(FIVE, *((one, other) for other in (4, 5) for one in FIVE if one < other)), 1, "1 holds; network 1 to 4, 5 is down"),
    (joined(FIVE, (1, 2), (3, 4)), 1, "1 holds; network 1 between 1 and 2, 3 and 4 is down"),
    (joined(FIVE, *((one, 5) for one in FIVE[:4]), (1, 2)), 1, "1 holds; network 1 to 5 is down; network 1 between 1 and 2 is down"),
    # by the file of one node: what it knows
    ([holder(1, peers=[teller(2), {**teller(3), "network_down": 1}])], 1, "1 holds; network 1 to 3 is down"),
    ([holder(1, peers=[{**teller(2), "network_down": 0}, {**teller(3), "network_down": 1}])], 1, "1 holds; network 0 to 2 is down; network 1 to 3 is down"),
    ([holder(1, peers=[{**teller(2), "network_down": 0}, {**teller(3), "network_down": 0}])], 1, "1 holds; network 0 is down"),
    ([node(2, peers=[{**teller(1, holds=True), "name": "db1"}, {**teller(3), "name": "db3", "network_down": 1}])], 1, "db1 holds; network 1 to db3 is down"),
    # a peer that is not heard is no end; what a stale file says counts for nothing; and it stands behind all else
    ([holder(1, peers=[seen(2), {**lost(3), "network_down": 1}]), node(2, peers=[seen(1), lost(3)])], 1, "1 holds; 1 does not see 3; 2 does not see 3"),
    ([holder(1), node(2), node(3, **OLD, peers=on_networks(3, n1=1, n2=1))], 1, "1 holds; 3 silent for S s; 3 tells nothing"),
    ([holder(1, peers=[seen(2), {**teller(3), "network_down": 1}])], 1, "1 holds; 2 tells nothing; network 1 to 3 is down"),
    ([node(own, why="not-chosen:0", peers=on_networks(own, **({"n3": 1} if own != 3 else {"n1": 1, "n2": 1}))) for own in IDS], 2, "network 1 to 3 is down"),
    ([holder(1, arbiter=YES), node(2), node(3)], 0, "1 holds (no group)"),
    ([holder(1, arbiter={**YES, "answer": "no"}), node(2), node(3)], 0, "1 holds (no group)"),
    ([holder(1, arbiter={**NONE, "age": 3 * LOOP}), node(2), node(3)], 0, "1 holds (no group)"),
    ([holder(1, arbiter={**NONE, "age": 3 * LOOP + 1}), node(2), node(3)], 1, "1 holds; device silent for 180 s"),
    ([holder(1, arbiter={**YES, "age": 3 * LOOP + 1}), node(2), node(3)], 0, "1 holds (no group)"),
    ([holder(1), node(2, arbiter={**NONE, "refused": 340}), node(3)], 1,
     "1 holds; device silent for 200 s (340 packets refused: another key or text)"),
    ([holder(1, arbiter=NONE, images=2, mail="exit", peers=CUT), node(2), node(3)], 1,
     "1 holds; 1 has mail exit; 1 runs on 2 of 3 images; device silent for 200 s; network 1 between 1 and 3 is down"),
    ([holder(1), node(2), holder(3, **OLD, images=2, arbiter=NONE)], 1, "1 holds; 3 silent for S s; 3 tells nothing"),
    # nothing is known
    ([holder(1, **OLD), node(2, **OLD)], 3, "no node answers"),
    ([holder(1, tick=1000000)], 3, "no node answers"),
    ([node(1, **OFF, end="left clean")], 3, "no node answers"),
]


LINES = [  # the arbiter of a node, and the line that says what it answers
    (YES, "      device 10.0.0.9:7432 answers yes, 0.4 s ago"),
    ({**YES, "address": None, "answer": "no", "age": 0, "refused": 1}, "      device answers no, 0.0 s ago"),
    ({**NONE, "refused": 340}, "      device 10.0.0.9:7432 answers none, 200.9 s ago (340 packets refused: another key or text)"),
    ({**NONE, "age": 2000, "refused": 340}, "      device 10.0.0.9:7432 answers none, 2.0 s ago"),
]


def schema():
    """The schema of `status --json`, with what it takes of the other schemas put in place."""
    def resolved(value):
        if isinstance(value, list):
            return [resolved(one) for one in value]
        if not isinstance(value, dict):
            return value
        name, _, place = value.get("$ref", "").partition("#")
        if not name:
            return {key: resolved(one) for key, one in value.items()}
        found = json.loads((TOP / "docs" / name).read_text())
        whole = found
        for key in place.strip("/").split("/"):
            found = found[key]
        if "$ref" in found:
            found = whole["$defs"][found["$ref"].rpartition("/")[2]]
        return found
    return resolved(json.loads((TOP / "docs" / "cluster-status.schema.json").read_text()))


def try_state(judge, nodes, wanted, said):
    ended, text, errors = status(*written(nodes))
    first = re.sub(r"([0-9] silent for) [0-9.]+ s", r"\1 S s", text.splitlines()[0])
    line = said if said.startswith("TWO HOLDERS") else ": ".join(filter(None, (WORDS[wanted], said)))
    same((ended, first, errors), (wanted, "quorumd " + line, ""), "the status of %r" % nodes)
    ended, text, _ = status("--json", *written(nodes))
    parsed = json.loads(text)
    same((ended, parsed["state"], len(parsed["nodes"])), (wanted, WORDS[wanted], len(nodes)), "the JSON of %r" % nodes)
    if judge is not None:
        for fault in judge.iter_errors(parsed):
            raise SystemExit("%s, in %r" % (fault.message, parsed))
    ended, text, _ = status("--prometheus", *written(nodes))
    same((ended, text.splitlines()[-1]), (wanted, "quorumd_state %d" % wanted), "the metrics of %r" % nodes)
    return text


def try_lines():
    for arbiter, line in LINES:
        text = status(*written([holder(1, arbiter=arbiter), node(2), node(3)]))[1]
        same([one for one in text.splitlines() if "device" in one[:12]], [line], "the line of %r" % arbiter)


def try_metrics(text):
    done = subprocess.run(["promtool", "check", "metrics"], input=text.encode(), stdout=subprocess.PIPE, stderr=subprocess.STDOUT, check=False)
    same((done.returncode, done.stdout.decode()), (0, ""), "promtool on\n%s" % text)


def main():
    has_promtool = shutil.which("promtool") is not None
    judge = None
    if Draft202012Validator is None:
        print("skipped: this Python has no module jsonschema for draft 2020-12 (Debian: python3-jsonschema), so the schema was not tried")
    else:
        Draft202012Validator.check_schema(schema())
        judge = Draft202012Validator(schema())
    metrics = [try_state(judge, *state) for state in STATES]
    try_lines()
    if has_promtool:
        for text in (metrics[0], metrics[-1], metrics[STATES.index(next(state for state in STATES if state[0][-1]["incarnation"] is None))]):
            try_metrics(text)
    else:
        print("skipped: promtool (Debian: prometheus) is not here, so the metrics were not tried")
    # the order of the options and the files is free
    paths = written([holder(1), node(2), node(3)])
    same(status(paths[0], "--json", *paths[1:])[1].count('"stale":false'), 3, "files before and behind an option")
    same(sorted(path.name for path in pathlib.Path().iterdir()), ["node-%d.json" % number for number in range(len(FIVE))], "nothing is made")


main()
