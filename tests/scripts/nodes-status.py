"""`quorumctl status` and `quorumctl history` over three nodes that run: a boot, a message, a holder that stands still and is taken over
from, an exit, a boot again, and what their journals tell of all of it; and nodes that wait for a view, for all, for a holder and for an answer."""
import json
import os
import pathlib
import signal
import subprocess
import time

from clusterfiles import object_of
from live import Cluster, Wrong, same, try_all, wait_for

QUORUMCTL = os.environ["QUORUMCTL"]
IDS = (1, 2, 3)


def status_file(cluster, ident):
    return str(cluster.folder / ("status.%d.json" % ident))


def started(cluster, ident):
    return cluster.node(ident, before=(*cluster.BEFORE, "--status", status_file(cluster, ident)))


def quorumctl(*words):
    """The status and the lines of a run."""
    done = subprocess.run([QUORUMCTL, *words], stdin=subprocess.DEVNULL, stdout=subprocess.PIPE, check=False)
    return done.returncode, done.stdout.decode().splitlines()


def looked(cluster, ids=IDS):
    return quorumctl("status", *(status_file(cluster, ident) for ident in ids))


def comes_to(cluster, wanted, *words, ids=IDS):
    """Waits until the status is that one and the first line has all of these words; never do two of them hold."""
    last = [None]

    def is_so():
        last[0] = looked(cluster, ids)
        if "TWO HOLDERS" in last[0][1][0]:
            raise Wrong("two hold: %r" % last[0][1])
        return last[0][0] == wanted and all(word in last[0][1][0] for word in words) and last[0][1]

    try:
        return wait_for("the status is %d, with %r" % (wanted, words), is_so)
    except Wrong as wrong:
        raise Wrong("%s; at last it was %r" % (wrong, last[0])) from wrong


def row(lines, ident):
    """The columns of a node."""
    return next(line.split() for line in lines if line.split()[0] == str(ident))


def is_shown_whole(path):
    """`status --json` shows each key of a file that a node has written last, byte for byte."""
    same("what is shown of %s" % path, object_of(path) + "\n", pathlib.Path(path).read_text())


def life_of_a_cluster():
    cluster = Cluster("status")
    nodes = {ident: started(cluster, ident) for ident in IDS}
    lines = comes_to(cluster, 0, "quorumd healthy: 1 holds (no group)")
    same("three nodes", [row(lines, ident)[1:5] for ident in IDS], [["up", "yes", "yes", "3/2"], ["up", "no", "yes", "3/2"], ["up", "no", "yes", "3/2"]])
    same("whys", [row(lines, ident)[-1] for ident in IDS], ["holding", "not-chosen:1", "not-chosen:1"])
    # by the file of each node alone
    for ident in IDS:
        comes_to(cluster, 0, "quorumd healthy: 1 holds (no group)", ids=(ident,))
    cluster.message(2, "test")
    wait_for("node 2 has read test", lambda: row(looked(cluster)[1], 2)[6] == "test")
    comes_to(cluster, 0, "quorumd healthy: 1 holds (no group)")
    # the holder stands still: the others miss it, wait, and one of them takes over
    nodes[1].kill(signal.SIGSTOP)
    comes_to(cluster, 2, "quorumd no owner: 2 does not see 1; 3 does not see 1; 1 silent for ")
    lines = comes_to(cluster, 1, "quorumd degraded: 2 holds; 2 does not see 1; 3 does not see 1; 1 silent for ")
    same("the take-over", [row(lines, ident)[1:3] for ident in IDS], [["silent", "?"], ["up", "yes"], ["up", "no"]])
    nodes[1].kill()
    is_shown_whole(status_file(cluster, 1))
    # the new holder leaves, and the third one alone has no quorum
    cluster.message(2, "exit")
    same("node 2", nodes[2].end(), (0, "left clean\n"))
    is_shown_whole(status_file(cluster, 2))
    lines = comes_to(cluster, 1, "owner not known: 1, 2 tells nothing; ", "3 not quorate")
    same("what blocks node 3", row(lines, 3)[-1], "not-quorate:1/2")
    same("a node that left", row(lines, 2)[1:5], ["ended", "?", "no", "0/2"])
    # it boots again
    nodes[2] = started(cluster, 2)
    lines = comes_to(cluster, 1, "2 holds; 2 does not see 1; 3 does not see 1; 1 silent for ")
    same("the second boot", [row(lines, ident)[1:3] for ident in (2, 3)], [["up", "yes"], ["up", "no"]])
    told = [line.split("  ", 1)[1] for line in quorumctl("history", *(str(path) for path in sorted(cluster.folder.glob("log.*"))))[1]]
    in_order = ["node 1 booted as incarnation 1", "node 1 has a quorum: 3/2", "node 1 holds the resource", "node 2 read test from operator",
                "node 2 hears node 1 no more", "node 2 fenced node 1: reset written, ok=yes, msgwait 2100 ms", "node 2 holds the resource",
                "node 2 read exit from operator", "node 2 holds it no more", "node 2 ended: left clean", "node 3 lost its quorum: 1/2",
                "node 2 booted as incarnation 2", "node 2 holds the resource"]
    rest = iter(told)
    for sentence in in_order:
        if sentence not in rest:
            raise Wrong("%r is not told, or not in its place: %r" % (sentence, told))


def why(cluster, ident):
    """What blocks the start of a node, by its own file; None where it has not written one yet."""
    path = status_file(cluster, ident)
    return row(quorumctl("status", path)[1], ident)[-1] if os.path.exists(path) else None


def blocked_by(cluster, ident, wanted):
    wait_for("node %d says %s" % (ident, wanted), lambda: why(cluster, ident) == wanted)


def is_once_blocked_by(cluster, ident, wanted):
    """Whether a node says that within ten seconds, though not for long."""
    before = time.monotonic() + 10
    while time.monotonic() < before:
        if why(cluster, ident) == wanted:
            return True
    return False


def tried_again(name, attempt):
    """Attempts, in a cluster of its own each, what a slow machine can miss."""
    for number in range(5):
        if attempt(Cluster("%s-%d" % (name, number))):
            return
    raise Wrong("%s: not seen in five attempts" % name)


def waits_for_all(cluster):
    """A node alone under wait_for_all: it has no view at first, and then waits."""
    settings = cluster.folder / "conf"
    settings.write_text(settings.read_text().replace("corosync_votequorum\n", "corosync_votequorum\nwait_for_all: 1\n"))
    node = started(cluster, 1)
    is_seen = is_once_blocked_by(cluster, 1, "no-view")
    comes_to(cluster, 1, "owner not known: 2, 3 tells nothing; ", ids=(1,))
    blocked_by(cluster, 1, "wait-for-all")
    node.kill()
    return is_seen


def held_by_another():
    """A node of least id that joins a view in which another one holds: the view names that one, which goes on."""
    cluster = Cluster("held")
    nodes = [started(cluster, ident) for ident in (2, 3)]
    blocked_by(cluster, 2, "holding")
    nodes.append(started(cluster, 1))
    blocked_by(cluster, 1, "not-chosen:2")
    lines = comes_to(cluster, 0, "quorumd healthy: 2 holds (no group)")
    same("all three", [row(lines, ident)[2] for ident in IDS], ["no", "yes", "no"])
    comes_to(cluster, 0, "quorumd healthy: 2 holds (no group)", ids=(1,))
    for node in nodes:
        node.kill()


def unheard(cluster):
    """A member of the first view that stands still since before it, and answers nothing."""
    nodes = [started(cluster, ident) for ident in (1, 2)]
    path = pathlib.Path(status_file(cluster, 1))
    wait_for("node 1 hears node 2", lambda: path.exists() and json.loads(path.read_text())["peers"][0]["hello_tick"] is not None)
    time.sleep(1)
    nodes[1].kill(signal.SIGSTOP)
    is_seen = is_once_blocked_by(cluster, 1, "unheard:2")
    for node in nodes:
        node.kill()
    return is_seen


try_all(life_of_a_cluster, held_by_another, lambda: tried_again("waits", waits_for_all), lambda: tried_again("unheard", unheard))
