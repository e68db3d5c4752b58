"""A block server that fails, is late, cuts its answer short, answers something else, answers twice or closes, at each request in turn: a command
ends with a fault line and status 8, or did its whole work, and then the image is that of a file; and no node is ever fed on what
it did not read, nor do two hold."""
import concurrent.futures
import os
import pathlib
import random
import subprocess
import time

import live
from live import Cluster, Wrong, same, try_all, wait_for
from nbd import BlockServer
from resets import Machines, Marks

TOP = pathlib.Path(os.environ["TOP"])
SETTINGS = (TOP / "examples" / "two-node.conf").read_bytes()
FAULTS = "error", "late", "short", "other", "twice", "wrong", "close"
WATCHDOG = 2.0  # seconds, of the nodes below
LATE = 12  # seconds, which no command waits
COMMANDS = ("create",), ("list",), ("message", "--id", "2", "--kind", "off"), ("dump",), ("migrate",)
READS = "list", "dump", "migrate"


def run(command, image):
    """What a command on an image answers. A `create` writes over what is there."""
    before = ["--anew"] if command[0] == "create" else []
    words = [live.QUORUMD, *before, command[0], "--image", str(image), *command[1:]]
    done = subprocess.run(words, input=SETTINGS, capture_output=True, check=False)
    return done.returncode, done.stdout.decode()


def fresh(path, data):
    server = BlockServer(path)
    server.data[:] = data
    return server


def whole_runs(folder, data):
    """Each command over a server that does as it should: what it writes, how many requests it takes, and the bytes after it."""
    found = []
    for place, command in enumerate(COMMANDS):
        server = fresh(folder / ("whole-%d" % place), data)
        found.append((run(command, server.word()), server.requests, bytes(server.data)))
    return found


def at_request(fault, place, number, folder, data, whole):
    """A command with that fault at the request of that number."""
    command, (wanted, requests, after) = COMMANDS[place], whole[place]
    server = fresh(folder / ("%s-%d-%d" % (fault, place, number)), data)
    server.late, server.fault = LATE, lambda request: fault if request == number else None
    what = "%s at request %d of %s" % (fault, number, command[0])
    got = run(command, server.word())
    if got != wanted:
        same(what, (got[0], got[1].splitlines()[-1]), (8, "fault EnvFault"))
        same("%s: what it wrote before" % what, got[1].splitlines()[:-1], wanted[1].splitlines()[:len(got[1].splitlines()) - 1])
    elif fault != "twice":
        raise Wrong("%s: %r" % (what, got))
    elif number < requests and requests > 1:
        raise Wrong("%s: the second answer was taken: %r" % (what, got))
    if command[0] in READS:
        same("bytes after %s" % what, bytes(server.data), data)
    elif fault == "twice" and number == requests:
        same("bytes after %s" % what, bytes(server.data), after)


def commands():
    """Each command, with each fault at each of its requests in turn; late answers at the same time, since each takes what a command waits."""
    folder = pathlib.Path("commands").absolute()
    folder.mkdir()
    first = BlockServer(folder / "first")
    same("create", run(("create",), first.word()), (0, "created nodes 2\n"))
    data = bytes(first.data)
    whole = whole_runs(folder, data)
    tries = [(fault, place, number) for fault in FAULTS for place in range(len(COMMANDS)) for number in range(1, whole[place][1] + 1)]
    with concurrent.futures.ThreadPoolExecutor(32) as pool:
        late = [pool.submit(at_request, *each, folder, data, whole) for each in tries if each[0] == "late"]
        quick = [pool.submit(at_request, *each, folder, data, whole) for each in tries if each[0] != "late"]
        for done in late + quick:
            done.result()


class FaultyCluster(Cluster):
    """Three nodes over one server, which misbehaves once they hold. Their resources mark when they hold."""

    def __init__(self, name, fault):
        self.server, self.seed = BlockServer(pathlib.Path("%s.socket" % name).absolute()), random.Random(name)
        self.marks = Marks(name)
        super().__init__(name, timing="2000,10000,1000,1000,500")
        self.kind = fault

    def use_images(self):
        self.images = [self.server.word()]

    def node(self, ident, **given):
        return super().node(ident, resource=self.marks.agent(ident, self.folder), **given)

    def misbehave(self, often):
        """From now on each of so many requests, drawn, is at fault."""
        self.server.late = 1.5
        self.server.fault = lambda number: self.kind if self.seed.randrange(often) == 0 else None


def nodes_under(fault):
    """Nodes of whose requests each third is at fault; a machine of the tests ends the program and the resource of one that is not fed."""
    cluster = FaultyCluster("nodes-%s" % fault, fault)
    cluster.nodes = [cluster.node(ident) for ident in (1, 2, 3)]
    machines = Machines(cluster, cluster.nodes, cluster.marks, WATCHDOG)
    wait_for("one holds", lambda: cluster.marks.held)
    cluster.misbehave(often=3)
    time.sleep(20)
    cluster.server.fault = lambda number: None
    time.sleep(15)
    machines.stop()
    cluster.marks.judge()
    for node in cluster.nodes:
        if not node.runs():
            status, line = node.end()
            if status not in (-9, 0, 8, 13, 14):
                raise Wrong("%s: node %d ended with %d %r" % (fault, node.ident, status, line))


def nodes():
    with concurrent.futures.ThreadPoolExecutor(len(FAULTS)) as pool:
        for done in [pool.submit(nodes_under, fault) for fault in FAULTS]:
            done.result()


try_all(commands, nodes)
