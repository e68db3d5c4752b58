"""Status files of nodes, written by hand, and what `quorumctl status` says of them."""
import copy
import json
import os
import pathlib
import re
import subprocess
import time

QUORUMCTL = os.environ["QUORUMCTL"]
TOP = pathlib.Path(os.environ["TOP"])
IDS = (1, 2, 3)
LOOP = 60000  # so long that a slow machine makes no fresh file stale


def now():
    """The raw monotonic clock of this host in milliseconds, which is that of the ticks."""
    return time.clock_gettime_ns(time.CLOCK_MONOTONIC_RAW) // 1000000


def node(own, ids=IDS, **changes):
    """A node that is up and sees all, and does not hold. Its ticks are counted from the moment of its writing."""
    made = {"dropped": 0, "end": None, "expected": 3, "format": 1, "holds": False, "id": own, "incarnation": 1, "late": 0, "loop": LOOP,
            "mail": "empty", "mail_by": None, "mail_tick": -300, "peers": [{"hello_tick": -200, "id": other} for other in ids if other != own],
            "phase": "up", "pid": 1000 + own, "quorate": True, "quorum": 2, "refused": 0, "released": True, "tick": -100,
            "time": 1795899852.276, "unwritten": 0, "view": {"id": 1, "members": list(ids)}, "votes": len(ids), "why": "not-chosen:%d" % ids[0]}
    made.update(changes)
    return made


def holder(own, **changes):
    """The same of a node that holds."""
    return node(own, **{"holds": True, "why": "holding", **changes})


def at(moment, made):
    """A node whose ticks are counted from that moment."""
    moved = copy.deepcopy(made)
    moved["tick"] += moment
    if moved["mail_tick"] is not None:
        moved["mail_tick"] += moment
    for peer in moved["peers"]:
        if peer["hello_tick"] is not None:
            peer["hello_tick"] += moment
        if peer.get("told") is not None:
            peer["told"]["tick"] += moment
    return moved


def write(path, made):
    """Writes a status file, as a node does: on one line."""
    path.write_text(json.dumps(at(now(), made), sort_keys=True, separators=(",", ":")) + "\n")


def written(nodes):
    """The files of these nodes."""
    paths = []
    for number, made in enumerate(nodes):
        path = pathlib.Path("node-%d.json" % number)
        write(path, made)
        paths.append(path)
    return paths


def quorumctl(*words, **more):
    """The status, standard output and standard error of a run."""
    done = subprocess.run([QUORUMCTL, *map(str, words)], stdin=subprocess.DEVNULL, stdout=subprocess.PIPE, stderr=subprocess.PIPE, check=False, **more)
    return done.returncode, done.stdout.decode(), done.stderr.decode()


def status(*words):
    return quorumctl("status", *words)


def object_of(path):
    """What `status --json` shows of a file: the object of its node, without what is said of its age."""
    shown = status("--json", path)[1]
    whole = re.fullmatch(r'\{"nodes":\[(\{.*\})\],"said":"[^"]*","state":"[a-z ]*"\}\n', shown)
    if not whole:
        return shown
    return re.sub(r'"stale":(true|false),', "", re.sub(r'^\{"age":\d+,', "{", whole[1]))


def same(got, wanted, what):
    if got != wanted:
        raise SystemExit("%s:\n%s\nwanted:\n%s" % (what, got, wanted))
