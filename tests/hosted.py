"""For what moves the resource by quorumctl: three nodes of this host with names, started as their unit does, in the folders of the package."""
import json
import os
import pathlib
import subprocess

from arbiters import SEATS
from live import Cluster, Node, free_ports, wait_for

QUORUMCTL = os.environ["QUORUMCTL"]
RUN, KEPT = pathlib.Path("/run/quorumd"), pathlib.Path("/var/lib/quorumd")
WAITING = "waiting; Ctrl-C ends the waiting alone\n"


class Named(Cluster):
    """Nodes with names and addresses. `quorum` is what the section of that name has besides."""

    def __init__(self, name, ids=(1, 2, 3), quorum=""):
        super().__init__(name, ids)
        self.ids = list(ids)
        conf = self.folder / "conf"
        conf.write_text(conf.read_text().replace("corosync_votequorum\n", "corosync_votequorum\n" + quorum))

    def first_port(self, count):
        return free_ports(SEATS)

    def place(self, ident):
        return "name: db%d\nring0_addr: 127.0.0.%d\n" % (ident, ident)


class Hosted(Node):
    """A node that is started as the unit does."""

    def __init__(self, cluster, ident):
        kept, words = KEPT / ("standby-%d" % ident), RUN / ("standing-%d" % ident)
        words.write_text(kept.read_text() if kept.exists() else "")
        self.status = RUN / ("node-%d.json" % ident)
        self.status.unlink(missing_ok=True)
        before = ("--open", "--links", str(cluster.folder / "conf"), "--status", str(self.status), "--standing-file", str(words))
        super().__init__(cluster, ident, before=before)

    def shown(self):
        return json.loads(wait_for("a status", lambda: self.status.exists() and self.status.read_text()))

    def holds(self):
        return self.shown()["holds"]

    def why(self):
        return self.shown()["why"]

    def waits_for_all(self):
        wait_for("db%d sees all" % self.ident, lambda: (self.shown()["view"] or {}).get("members") == self.cluster.ids)


def quorumctl(*words):
    done = subprocess.run([QUORUMCTL, *words], stdin=subprocess.DEVNULL, stdout=subprocess.PIPE, stderr=subprocess.PIPE, text=True, check=False)
    return done.returncode, done.stdout, done.stderr


def holders(nodes):
    return [node.ident for node in nodes if node.runs() and node.holds()]
