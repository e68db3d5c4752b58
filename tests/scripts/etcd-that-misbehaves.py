"""A member of an etcd cluster that does to requests what it should not: it closes without an answer, before or after it did what was asked, fails, is late,
cuts its answer short, answers something else, twice, in pieces, too long or nothing. A command ends with a fault line and status 8, or did
its whole work, and what it writes is then as over a good one; a node does not open, or is ended by its machine; nothing is lost, and never two hold."""
import concurrent.futures
import random
import subprocess
import sys
import time

import etcd
import live
from etcd import Crooked, Keys
from live import Cluster, Wrong, same, try_all, wait_for
from resets import Machines, Marks

if not etcd.is_there():
    print("skipped: no etcd (Debian: etcd-server)")
    sys.exit(0)

HOST = etcd.servers()[0].host
SETTINGS = b"nodelist {\nnode {\nnodeid: 1\n}\nnode {\nnodeid: 2\n}\n}\nquorum {\nprovider: corosync_votequorum\ntwo_node: 1\n}\n"
COMMANDS = ("create",), ("list",), ("dump",), ("migrate",), ("message", "--id", "2", "--kind", "off"), ("message", "--id", "1", "--kind", "clear")
DONE = "doubled", "late"  # with these a command may be done: it waits longer than for such an answer, or takes the first of two
WATCHDOG = 2.0  # seconds, of the nodes below
ENDS = -9, 0, 8, 13, 14  # of a node: killed by its machine, left, a call failed, halted


def run(command, host, prefix):
    words = [live.QUORUMD, command[0], "--image", "etcd:%s/%s" % (host, prefix), *command[1:]]
    done = subprocess.run(words, input=SETTINGS, capture_output=True, check=False)
    return done.returncode, done.stdout.decode(), live.without_advice(done.stderr.decode())


def sectors(prefix):
    return {key.rsplit("/", 1)[1]: value for key, (value, _) in Keys(HOST).all(prefix).items()}


def put(prefix, image):
    keys = Keys(HOST)
    for name, value in image.items():
        keys.put("%s/%s" % (prefix, name), value)


def at_request(command, place, number, fate, before, whole):
    """A command of which one request is at fault."""
    what, prefix = "%s at request %d of %s" % (fate, number, " ".join(command)), "at/%d-%d-%s" % (place, number, fate)
    put(prefix, before)
    crooked = Crooked(HOST, lambda count: fate if count == number else None)
    status, said, why = run(command, crooked.at, prefix)
    found, after = sectors(prefix), whole["after"]
    if status == whole["status"]:
        same(what + " may be done", fate in DONE, True)
        same(what + ": what it writes, and the keys", (said, found), (whole["said"], after))
        return
    same(what + ": how it ends", (status, said.splitlines()[-1:], why.count("\n")), (8, ["fault EnvFault"], 1))
    same(what + ": what it wrote before", said.splitlines()[:-1], whole["said"].splitlines()[:len(said.splitlines()) - 1])
    for name in {**found, **after}:
        one = found.get(name, bytes(512))
        if one not in (before.get(name, bytes(512)), after.get(name, bytes(512)), bytes(512)):
            raise Wrong("%s: sector %s is neither as before nor as after" % (what, name))
    header = found.get("0000", bytes(512))
    same(what + ": no header, or a whole image", header == bytes(512) or len(found) == len(after), True)


def commands():
    """Each command, with each fault at each of its requests in turn."""
    same("create", run(("create",), HOST, "whole")[:2], (0, "created nodes 2\n"))
    image, tries = sectors("whole"), []
    with concurrent.futures.ThreadPoolExecutor(24) as pool:
        for place, command in enumerate(COMMANDS):
            before = {} if command[0] == "create" else image
            put("command/%d" % place, before)
            straight = Crooked(HOST, lambda count: None)
            status, said, _ = run(command, straight.at, "command/%d" % place)
            whole = {"status": status, "said": said, "after": sectors("command/%d" % place)}
            for fate in Crooked.FATES:
                for number in range(1, straight.count + 1):
                    tries.append(pool.submit(at_request, command, place, number, fate, before, whole))
        for each in tries:
            each.result()


class CrookedCluster(Cluster):
    """The nodes of a cluster over a member that misbehaves. Their resources mark when they hold."""

    def __init__(self, name, ids, fate=lambda number: None):
        self.prefix, self.crooked = "test/" + name, Crooked(HOST, lambda number: None)
        self.marks = Marks(name)
        super().__init__(name, ids=ids, timing="2000,10000,1000,1000,500")
        self.crooked.count, self.crooked.fate = 0, fate

    def use_images(self):
        self.images = ["etcd:%s/%s" % (self.crooked.at, self.prefix)]

    def node(self, ident, **given):
        for path in self.folder / ("agent.%d" % ident), self.folder / ("watchdog.%d" % ident):
            path.unlink(missing_ok=True)
        return super().node(ident, resource=self.marks.agent(ident, self.folder), **given)


def life_of_one(fate, number):
    """A node of a cluster of one, of whose requests one is at fault, from its opening on."""
    what = "%s at request %d of a node" % (fate, number)
    cluster = CrookedCluster("one-%s-%d" % (fate, number), (1,), lambda count: fate if count == number else None)
    node = cluster.node(1, turns=60)
    machines = Machines(cluster, [node], cluster.marks, WATCHDOG)
    status, line = node.end()
    machines.stop()
    same(what + ": how it ends", status in ENDS, True)
    if not cluster.watchdog(1):
        said = status, line, cluster.marks.starts, node.said() != []
        same(what + ": a node that does not open, or not boot", said in ((8, "fault EnvFault\n", 0, True), (14, "fault BootHalted 1\n", 0, True)), True)
    cluster.crooked.fate = lambda count: None
    wait_for("the member answers", lambda: cluster.quorumd("list")[0] == 0)  # the image is whole
    cluster.marks.judge()


def lives():
    with concurrent.futures.ThreadPoolExecutor(20) as pool:
        tries = [pool.submit(life_of_one, fate, number) for number in (1, 2, 3, 4, 5, 6, 8) for fate in Crooked.FATES]
        for each in tries:
            each.result()


def two_nodes_under(fate):
    """Two nodes, of whose requests each third is at fault for a while, and then none: who ends is started again, as its machine would do."""
    cluster, drawn = CrookedCluster("two-" + fate, (1, 2)), random.Random(fate)
    nodes = {ident: cluster.node(ident) for ident in (1, 2)}
    machines = Machines(cluster, list(nodes.values()), cluster.marks, WATCHDOG)
    wait_for("one holds", lambda: cluster.marks.held)
    cluster.crooked.fate = lambda number: fate if drawn.randrange(3) == 0 else None
    end = time.monotonic() + 20
    while time.monotonic() < end and any(node.runs() for node in nodes.values()):
        time.sleep(0.1)
    cluster.crooked.fate = lambda number: None
    for ident, node in list(nodes.items()):
        if not node.runs():
            status, line = node.end()
            if status not in ENDS:
                raise Wrong("%s: node %d ended with %d %r" % (fate, ident, status, line))
            wait_for("its machine is reset", lambda ident=ident: ident not in cluster.marks.held)
    machines.stop()
    cluster.marks.judge()
    again = [ident for ident in nodes if not nodes[ident].runs()]
    for ident in again:
        nodes[ident] = cluster.node(ident)
    machines = Machines(cluster, list(nodes.values()), cluster.marks, WATCHDOG)
    wait_for("one holds again after " + fate, lambda: cluster.marks.held)
    machines.stop()
    cluster.marks.judge()
    for node in nodes.values():
        node.kill()


def nodes():
    with concurrent.futures.ThreadPoolExecutor(len(Crooked.FATES)) as pool:
        for done in [pool.submit(two_nodes_under, fate) for fate in Crooked.FATES]:
            done.result()


try_all(commands, lives, nodes)
