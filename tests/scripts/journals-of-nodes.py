"""What nodes say of themselves. The journal of a node is, line by line, what a second reader works out from the record of the same run: of nodes
through a boot, a take-over, a cut, a message of each kind, a stop that fails and an exit. A journal keeps its grammar whatever a path holds. Nobody
waits for standard error: whatever becomes of it, the record of the node is a whole run, and the lines that were lost are counted. The status file has
each state of a node by its schema."""
import fcntl
import json
import os
import pathlib
import re
import subprocess

TOP = pathlib.Path(os.environ["TOP"])

from cuts import CutCluster, Relay
from live import PLAIN, QUORUMD, WARNINGS, Agent, Cluster, Wrong, event_of, same, try_all, wait_for
from nodeaudit import audited
from told import said_in, told_of

try:
    from jsonschema import Draft202012Validator
    from referencing import Registry, Resource
except ImportError:
    Draft202012Validator = None

LINE = re.compile(r'quorumd: node=\d+ tick=\d+ time=\d+\.\d{3} level=[3-6] event=[a-z-]+( [a-z-]+=([^\x00-\x20"=\x7f]+|"[^\x00-\x1f"\x7f]*"))*')
PIPE = 32768  # bytes of a small pipe


class Records:
    """Nodes with a record of their calls."""

    COMMAND = "node-logged"

    def judged(self, node, more=()):
        """What a second reader makes of the record of a node, and its journal."""
        record, journal = node.answer.read_text(), node.log.read_text()
        record = record[:record.rfind("\n") + 1]
        lines = record.splitlines()
        if re.match("turns |left |fault ", lines[-1]):
            lines.pop()
        self.audited(node, lines, more)
        for line in journal.splitlines():
            if line.startswith("quorumd: node=") and not (LINE.fullmatch(line) and len(line.encode()) < 512):
                raise Wrong("no line of a journal: %r" % line)
        return told_of(record, self.ids, node.ident), said_in(journal)

    def audited(self, node, lines, more=()):
        """What `audit` says of the record of a node, which is a run or the beginning of one; a second program of a node says the same."""
        text = (self.folder / "conf").read_text() + "----\n" + "".join(line + "\n" for line in lines)
        words = ["--id", str(node.ident), "--turns", node.words["turns"], *more]
        done = subprocess.run([QUORUMD, "audit", *words], input=text, stdout=subprocess.PIPE, text=True, check=False)
        if done.returncode or not done.stdout.startswith("run "):
            raise Wrong("the record of node %d: %s" % (node.ident, done.stdout))
        same("the record of node %d by a second program" % node.ident, audited(text, " ".join(map(str, words))), done.stdout.rstrip("\n"))
        return done.stdout


class RecordedCluster(Records, Cluster):
    def __init__(self, name, ids=(1, 2, 3)):
        self.ids = tuple(ids)
        super().__init__(name, ids=ids)


class CutRecords(Records, CutCluster):
    ids = (1, 2, 3)


def tells_the_same(cluster, *nodes, more=()):
    """Each of these has ended."""
    for node in nodes:
        wanted, got = cluster.judged(node, more)
        same("the journal of node %d" % node.ident, got, wanted)


def take_over():
    """The holder is sent a test and is then paused, so that another one resets it and starts; it wakes and reads who did it. Then one is turned off,
    and the last one leaves."""
    cluster = RecordedCluster("taken", ids=(1, 2, 3))
    nodes = [cluster.node(ident) for ident in (1, 2, 3)]
    nodes[0].waits_for("start: ok")
    cluster.message(1, "test")
    wait_for("the holder reads it", lambda: nodes[0].events("mail"))
    nodes[0].kill(19)
    nodes[1].waits_for("start: ok")
    nodes[0].kill(18)
    same("node 1", nodes[0].end()[0], 13)
    cluster.message(3, "off")
    same("node 3", nodes[2].end()[0], 13)
    cluster.message(2, "exit")
    same("node 2", nodes[1].end()[0], 0)
    tells_the_same(cluster, *nodes)
    same("who reset node 1", [(event["message"], event["by"]) for event in nodes[0].events("mail")], [("test", "operator"), ("reset", "2")])
    same("who was reset", [(event["of"], event["ok"]) for event in nodes[1].events("fence-written")][:1], [("1", "yes")])


def other_messages():
    """A crash dump, a clear, and a reset that another node wrote no more."""
    cluster = RecordedCluster("messages", ids=(5, 70))
    nodes = [cluster.node(ident) for ident in (5, 70)]
    nodes[0].waits_for("start: ok")
    cluster.message(70, "test")
    wait_for("it is read", lambda: nodes[1].events("mail"))
    cluster.message(70, "clear")
    wait_for("it is read", lambda: len(nodes[1].events("mail")) > 1)
    cluster.message(70, "crashdump")
    same("node 70", nodes[1].end()[0], 13)
    cluster.message(5, "exit")
    same("node 5", nodes[0].end()[0], 0)
    tells_the_same(cluster, *nodes)


def failed_stop():
    """An agent that stops only at the second time, and the path of whose socket holds what is no byte of a value."""
    cluster = RecordedCluster("stop", ids=(1,))
    path = cluster.folder / 'a "socket"\nquorumd: node=1 tick=1 = 100%'
    agent = Agent(path, lambda line, number: b"no\n" if number == 3 else b"ok\n")
    node = cluster.node(1, resource=agent.word())
    node.waits_for("start: ok")
    cluster.message(1, "exit")
    same("node", node.end(), (0, node.answer.read_text()))
    tells_the_same(cluster, node)
    same("the stops", [event["ok"] for event in node.events("stop")], ["no", "yes"])
    lines = node.log.read_text().splitlines()
    same("other lines than of the journal and of the agent", [line for line in lines if not event_of(line) and "socket" not in line and not line.endswith(WARNINGS)], [])


def cut_off():
    """A node of three to which no packet comes, and from which none goes: it is reset, and reads by whom."""
    cluster = CutRecords("cut-off", 3, Relay()).start(0)
    cluster.cut(cluster.of(3))
    same("node 3", cluster.nodes[2].end()[0], 13)
    for ident in 1, 2:
        cluster.message(ident, "exit")
    for node in cluster.nodes[:2]:
        same("node %d" % node.ident, node.end()[0], 0)
    tells_the_same(cluster, *cluster.nodes)
    same("who was lost", {event["id"] for event in cluster.nodes[2].events("peer-lost")}, {"1", "2"})
    same("who reset node 3", [event["by"] for event in cluster.nodes[2].events("mail")], ["1"])


def killed():
    """Of a node that is killed the journal is what its record tells, or was about to tell, of the last turn."""
    cluster = RecordedCluster("killed-node", ids=(1, 2))
    nodes = [cluster.node(ident) for ident in (1, 2)]
    nodes[0].waits_for("start: ok")
    nodes[0].kill()
    nodes[0].process.wait()
    wanted, got = cluster.judged(nodes[0])
    same("the journal of a killed node", got, wanted[:len(got)])
    if len(wanted) - len(got) > 5:
        raise Wrong("%d lines are missing at its end" % (len(wanted) - len(got)))


# ---- standard error

def whole(cluster, node):
    """The node has left clean, and its record is a whole run."""
    same("answer", (node.end()[0], node.answer.read_text().splitlines()[-1]), (0, "left clean"))
    same("record", cluster.audited(node, node.answer.read_text().splitlines()[:-1], ("--leave", "60"))[:9], "run whole")


def blocked(name, **given):
    """A node with a status file that leaves at turn 60."""
    cluster = RecordedCluster(name, ids=(1,))
    node = cluster.node(1, before=("--status", str(cluster.folder / "status"), "--open"), more=("--leave", "60"), **given)
    return cluster, node


def last_status(cluster):
    return json.loads((cluster.folder / "status").read_text())


def full_pipe():
    """A pipe that is full: all lines are dropped. It is read again: the next line says how many."""
    reader, writer = os.pipe()
    fcntl.fcntl(writer, fcntl.F_SETPIPE_SZ, PIPE)
    os.write(writer, b"x" * PIPE)
    cluster, node = blocked("full-pipe", errors=writer)
    os.close(writer)
    status = wait_for("lines are dropped", lambda: (cluster.folder / "status").exists() and last_status(cluster)["dropped"] > 4 and last_status(cluster))
    same("no end", status["end"], None)
    read = os.read(reader, PIPE)
    while (more := os.read(reader, PIPE)):
        read += more
    whole(cluster, node)
    events = [event_of(line) for line in read.lstrip(b"x").decode().splitlines()]
    same("the first line", events[0]["event"], "lines-dropped")
    same("what was dropped", sum(int(event["count"]) for event in events if event["event"] == "lines-dropped"), last_status(cluster)["dropped"])
    same("the last line", events[-1]["event"], "end")
    os.close(reader)


def gone_reader():
    """Nobody reads the pipe any more."""
    reader, writer = os.pipe()
    os.close(reader)
    cluster, node = blocked("gone-reader", errors=writer)
    os.close(writer)
    whole(cluster, node)
    if last_status(cluster)["dropped"] < 10:
        raise Wrong("lines that were not counted: %r" % last_status(cluster))


def closed_errors():
    """Standard error is closed: nothing of a line reaches another file."""
    cluster, node = blocked("closed", run_as=("sh", "-c", 'exec "$@" 2>&-', "sh"))
    whole(cluster, node)
    for file in cluster.image, cluster.folder / "watchdog.1", cluster.folder / "resource.1":
        if b"quorumd: " in file.read_bytes():
            raise Wrong("a line in %s" % file)


def full_disk():
    """No line can be written."""
    with open("/dev/full", "w") as full:
        cluster, node = blocked("full-disk", errors=full)
    whole(cluster, node)
    if last_status(cluster)["dropped"] < 10:
        raise Wrong("lines that were not counted: %r" % last_status(cluster))


def levels():
    """With JOURNAL_STREAM a line begins with its level."""
    cluster = RecordedCluster("levels", ids=(1,))
    node = cluster.node(1, more=("--leave", "60"), run_as=("env", "JOURNAL_STREAM=8:1"))
    whole(cluster, node)
    for line in node.log.read_text().splitlines():
        level = re.match(r"<(\d)>quorumd: (?:node=1 .* level=(\d) )?", line)
        if not level or level[1] != (level[2] or "4"):
            raise Wrong("no level: %r" % line)


# ---- the status file

def judge():
    """What says whether a text is a status by the schema."""
    schemas = [json.loads((TOP / "docs" / name).read_text()) for name in ("node-status.schema.json", "status.schema.json")]
    if Draft202012Validator is None:
        def plain(status):  # a small reader: each key is there that has to be, and none that is not known
            return set(schemas[0]["required"]) <= set(status) <= set(schemas[0]["properties"])
        return plain
    registry = Registry().with_resource("status.schema.json", Resource.from_contents(schemas[1]))
    return Draft202012Validator(schemas[0], registry=registry).is_valid


IS_STATUS = judge()


def status_of(path):
    """A status that is one by its schema, its keys in order."""
    text = path.read_text()
    status = json.loads(text)
    same("its keys", list(status), sorted(status))
    same("its text", re.sub(r'"time":\d+\.\d{3}', '"time":0', text), json.dumps({**status, "time": 0}, separators=(",", ":")) + "\n")
    if not IS_STATUS(status):
        raise Wrong("no status: %s" % text)
    return status


def seen_statuses(path, until):
    """The statuses of a file up to the first that is as wanted."""
    seen = []

    def looked():
        if path.exists():
            seen.append(status_of(path))
        return seen and until(seen[-1])

    wait_for("a status", looked)
    return seen


def statuses():
    """Two nodes of 32, whose ids have ten digits: each status is one, its age is small, the last one has the end and no votes."""
    ids = range(4294967264, 4294967296)
    cluster = Cluster("statuses", ids=ids)
    files = [cluster.folder / ("status.%d" % place) for place in range(2)]
    nodes = [cluster.node(ident, before=("--status", str(file), "--open")) for ident, file in zip(ids, files)]
    first = seen_statuses(files[0], lambda status: status["view"] and len(status["view"]["members"]) == 2)
    same("conditions", {status["why"].split(":")[0] for status in first} - {"down", "no-view", "not-quorate"}, set())
    cluster.message(ids[1], "test")
    last = seen_statuses(files[1], lambda status: status["mail"] == "test" and status["votes"] > 0)[-1]
    same("a test", (last["mail_by"], last["id"], len(last["peers"]), last["votes"]), (None, ids[1], 31, 2))
    same("who was heard", [peer["id"] for peer in last["peers"] if peer["hello_tick"] is not None], [ids[0]])
    for node, ident in zip(nodes, ids):
        cluster.message(ident, "exit")
        same("answer", node.end(), (0, "left clean\n"))
    left = status_of(files[0])
    same("a node that left", [left[key] for key in ("end", "phase", "quorate", "votes", "why", "view")], ["left clean", "off", False, 0, "down", None])


def states():
    """Three nodes, one of which holds, is paused and is followed: what the statuses say."""
    cluster = Cluster("states")
    files = [cluster.folder / ("status.%d" % ident) for ident in (1, 2, 3)]
    nodes = [cluster.node(ident, before=("--status", str(file), "--open")) for ident, file in zip((1, 2, 3), files)]
    seen_statuses(files[0], lambda status: status["why"] == "holding" and status["holds"])
    seen_statuses(files[1], lambda status: status["why"] == "not-chosen:1")
    nodes[0].kill()
    waits = seen_statuses(files[1], lambda status: status["holds"])
    if not {"unfenced:1"} <= {status["why"].rpartition(":")[0] for status in waits}:
        raise Wrong("no wait for msgwait: %r" % {status["why"] for status in waits})
    cluster.message(2, "reset")
    same("node 2", nodes[1].end()[0], 13)
    last = status_of(files[1])
    same("a node that was reset", (last["end"], last["mail"], last["mail_by"]), ("fault SelfReset reset", "reset", None))


def unwritten_status():
    """A status file that cannot be written: it is said once, and the node goes on."""
    cluster = RecordedCluster("unwritten", ids=(1,))
    path = cluster.folder / "none" / "status"
    node = cluster.node(1, before=("--status", str(path), "--open"), more=("--leave", "60"))
    whole(cluster, node)
    same("it said", [line for line in node.said() if str(path) in line], ["%s: No such file or directory (os error 2)" % path])


def limited_size():
    """A limit on the size of files is refused before the port."""
    cluster = Cluster("limited", ids=(1,))
    words = [QUORUMD, "--open", "node", "--id", "1", "--image", str(cluster.image), "--watchdog", "w", "--resource", "r", "--port", str(cluster.port), "--turns", "5"]
    with open(cluster.folder / "conf") as settings:
        done = subprocess.run(["bash", "-c", 'ulimit -f 1000; exec "$@"', "bash", *words], stdin=settings, capture_output=True, text=True, check=False, env=PLAIN)
    same("answer", (done.returncode, done.stdout), (8, "fault EnvFault\n"))
    same("its last line", [event_of(line)["ok"] for line in done.stderr.splitlines() if event_of(line)], ["no"])


try_all(take_over, cut_off, other_messages, failed_stop, killed, full_pipe, gone_reader, closed_errors, full_disk, levels, statuses, states, unwritten_status, limited_size)
