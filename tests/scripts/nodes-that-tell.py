"""What nodes tell one another, each with a status file of its own as on a host of its own: by any one of them `quorumctl status` says who holds, by the name of the settings text, and by all of them
after a kill; a node with another key is named with the count of its packets; a group that fails shows on each; who lies that it holds moves no node."""
import json
import os
import pathlib
import signal
import socket
import struct
import subprocess

from live import Cluster, milliseconds, same, try_all, wait_for

QUORUMCTL = os.environ["QUORUMCTL"]
IDS = (1, 2, 3)
TOLD = struct.Struct(">2sBBBBQQ")


class TellingCluster(Cluster):
    """Nodes at addresses of their own, with names, a key, and a group each."""

    BEFORE = ()

    def __init__(self, name, **given):
        super().__init__(name, **given)
        for key in ("key", "other"):
            (self.folder / key).write_bytes(os.urandom(128))
            (self.folder / key).chmod(0o600)

    def place(self, ident):
        return "ring0_addr: 127.0.1.%d\nname: db%d\n" % (ident, ident)

    def file(self, ident):
        return self.folder / ("status.%d.json" % ident)

    def group(self, ident):
        return self.folder / ("group.%d" % ident)

    def teller(self, ident, *before, key="key"):
        guard = before or ("--links", str(self.folder / "conf"), "--key", str(self.folder / key))
        return self.node(ident, before=("--status", str(self.file(ident)), *guard))

    def first_line(self, ident):
        """The status and the first line by the file of one node."""
        done = subprocess.run([QUORUMCTL, "status", str(self.file(ident))], stdin=subprocess.DEVNULL, stdout=subprocess.PIPE, check=False)
        return done.returncode, done.stdout.decode().partition("\n")[0]

    def says(self, ident, *wanted):
        wait_for("by node %d it is %r" % (ident, wanted), lambda: self.first_line(ident) in wanted)


def names(node, event):
    """The names in the lines of an event."""
    return {line["name"] for line in node.events(event)}


def each_says_who_holds():
    cluster = TellingCluster("holds")
    nodes = {ident: cluster.teller(ident) for ident in IDS}
    for ident in IDS:
        cluster.says(ident, (0, "quorumd healthy: db1 holds (no group)"))
    same("names in the journal", names(nodes[1], "peer-seen"), {"db2", "db3"})
    same("its own name", names(nodes[1], "claimed"), {"db1"})
    shown = json.loads(cluster.file(1).read_text())
    same("names in the file", (shown["name"], [peer["name"] for peer in shown["peers"]]), ("db1", ["db2", "db3"]))
    nodes[1].kill()
    for ident in (2, 3):
        cluster.says(ident, (1, "quorumd degraded: db2 holds; db%d does not see db1" % ident))
    same("names of who was fenced", names(nodes[2], "fence-written"), {"db1"})


def a_standby_leaves():
    """It comes to its end within one turn: the others are told that it left."""
    cluster = TellingCluster("leaves")
    nodes = {ident: cluster.teller(ident) for ident in IDS}
    cluster.says(1, (0, "quorumd healthy: db1 holds (no group)"))
    cluster.message(3, "exit")
    same("its end", nodes[3].end(), (0, "left clean\n"))
    for ident in (1, 2):
        peers = {peer["id"]: peer for peer in json.loads(cluster.file(ident).read_text())["peers"]}
        same("it told before that", peers[3]["told"]["holds"], False)

    def is_told(ident):
        peers = {peer["id"]: peer for peer in json.loads(cluster.file(ident).read_text())["peers"]}
        return peers[3]["told"]["leaving"]
    for ident in (1, 2):
        wait_for("node %d was told that node 3 left" % ident, lambda ident=ident: is_told(ident))


def another_key():
    cluster = TellingCluster("keys")
    nodes = [cluster.teller(1), cluster.teller(2), cluster.teller(3, key="other")]

    def is_named():
        status, line = cluster.first_line(1)
        begin, end = "quorumd degraded: db1 holds; db1 does not see db3 (", " packets of it refused: another key or text)"
        return status == 1 and line.startswith(begin) and line.endswith(end) and int(line.removeprefix(begin).removesuffix(end)) > 0

    wait_for("node 1 names node 3 and its packets", is_named)
    for node in nodes:
        node.kill()


def write_group(cluster, ident, word, tick):
    """Writes the word of a supervisor, as it does: whole or not at all."""
    path = pathlib.Path("%s.new" % cluster.group(ident))
    path.write_text("%s %d\n" % (word, tick))
    path.rename(cluster.group(ident))


def a_group():
    """The group of the holder, as its supervisor says it each second."""
    cluster = TellingCluster("group", ids=(1, 2))
    guard = ("--links", str(cluster.folder / "conf"), "--key", str(cluster.folder / "key"))
    for ident in (1, 2):
        cluster.teller(ident, "--group", str(cluster.group(ident)), *guard)
    for ident in (1, 2):
        cluster.says(ident, (1, "quorumd degraded: db1 holds; nothing looks after its group"))
    for word, wanted in (("runs", (0, "quorumd healthy: db1 holds")), ("maintenance", (0, "quorumd healthy: db1 holds (maintenance)")),
                         ("failed", (1, "quorumd degraded: db1 holds; its group is failed"))):
        for ident in (1, 2):
            def is_told(ident=ident, word=word, wanted=wanted):
                write_group(cluster, 1, word, milliseconds())
                return cluster.first_line(ident) == wanted
            wait_for("node %d says of %s %r" % (ident, word, wanted), is_told)
    # what is no word of a supervisor, and one that is old
    for text in ("runs", "runs %d" % milliseconds(), "Runs %d\n" % milliseconds(), "runs -1\n", "runs %d\n" % (milliseconds() - 5000)):
        cluster.group(1).write_text(text)
        cluster.says(2, (1, "quorumd degraded: db1 holds; nothing looks after its group"))


def a_liar():
    """Node 2 is killed and a stranger has its port: by its word node 2 holds. What is shown goes by that, and no node does anything."""
    cluster = TellingCluster("liar")
    nodes = {ident: cluster.teller(ident, "--open", "--links", str(cluster.folder / "conf")) for ident in IDS}
    cluster.says(3, (0, "quorumd healthy: db1 holds (no group)"))
    nodes[2].kill()
    nodes[2].process.wait()
    before = {ident: len(nodes[ident].events("start", "stop", "hold-won", "hold-lost", "halt")) for ident in (1, 3)}
    with socket.socket(socket.AF_INET, socket.SOCK_DGRAM) as stranger:
        stranger.bind(("127.0.1.2", cluster.port + 1))

        def lies(state, held, group=4, sender=1):
            for ident in (1, 3):
                stranger.sendto(TOLD.pack(b"QN", 9, sender, state, group, 7, held), ("127.0.1.%d" % ident, cluster.port + ident - 1))

        def is_shown(wanted, *lie, **more):
            lies(*lie, **more)
            return cluster.first_line(3)[1].startswith(wanted)

        wait_for("two hold by their words", lambda: is_shown("quorumd TWO HOLDERS: db1, db2 (by their own word)", 3, 999999))
        wait_for("node 2 does not hold", lambda: is_shown("quorumd degraded: db1 holds; ", 2, 0))
        # what is no word: the rank of another node, states and groups that are none, and a time without a hold
        for lie, more in (((3, 9), {"sender": 0}), ((8, 0), {}), ((3, 9, 11), {}), ((2, 9), {})):
            lies(*lie, **more)
        told = {peer["id"]: peer["told"] for peer in json.loads(cluster.file(3).read_text())["peers"]}
        same("what node 2 told last", (told[2]["holds"], told[2]["incarnation"]), (False, 7))
    after = {ident: len(nodes[ident].events("start", "stop", "hold-won", "hold-lost", "halt")) for ident in (1, 3)}
    same("what nodes 1 and 3 did meanwhile", after, before)
    nodes[1].kill(signal.SIGKILL)


try_all(each_says_who_holds, a_standby_leaves, another_key, a_group, a_liar)
