"""A call that fails at once, each time that it is made, does not let a node run through its turns: it makes about as many calls of the system a second as at rest.
The calls are made to fail by strace; an image on a block server fails by itself."""
import concurrent.futures
import shutil
import sys
import time

from live import Cluster, Wrong, same, try_all
from nbd import BlockServer

if not shutil.which("strace"):
    print("skipped: no strace (Debian: strace)")
    sys.exit(0)

TURNS = 240  # of 40 ms each, at rest
LEAST = 0.02  # seconds a turn
MOST = 12  # calls of the system a turn
# the calls of a node by which it hears, says and reads; from which one on they fail: after those of its boot
CALLS = {"recvfrom": 1, "sendto": 1, "pread64": 14}


class Traced(Cluster):
    """A cluster of two, of whose nodes one runs, by strace."""

    def judge(self, name, *words):
        """The node of id 1 with these words of strace runs its turns in their time, and with few calls of the system."""
        log, start = self.folder / "calls", time.monotonic()
        node = self.node(1, turns=TURNS, run_as=("strace", "-f", "-qq", "-o", str(log), *words))
        status, line = node.end()
        took, count = time.monotonic() - start, log.read_text().count("\n")
        same("%s: how it ends" % name, (status, line.startswith("turns %d " % TURNS)), (0, True))
        if took < LEAST * TURNS:
            raise Wrong("%s: %d turns in %.2f s" % (name, TURNS, took))
        if count > MOST * TURNS:
            raise Wrong("%s: %d calls of the system in %d turns" % (name, count, TURNS))
        return node


def with_failing(call, first):
    cluster = Traced("call-" + call, ids=(1, 2))
    node = cluster.judge(call, "-e", "inject=%s:error=EIO:when=%d+" % (call, first))
    same("%s: it failed" % call, "(INJECTED)" in (cluster.folder / "calls").read_text(), True)
    same("%s: it says so" % call, any("Input/output error" in line for line in node.said()), True)


def each_call():
    with concurrent.futures.ThreadPoolExecutor(len(CALLS)) as pool:
        for done in [pool.submit(with_failing, *each) for each in CALLS.items()]:
            done.result()


class Served(Traced):
    """Its image is on a block server."""

    def use_images(self):
        self.server = BlockServer(self.folder / "server")
        self.images = [self.server.word()]


def dead_server():
    """Its server closes each connection at once, from a request on that comes while it runs."""
    cluster = Served("dead", ids=(1, 2))
    cluster.server.fault = lambda number: "close" if number > cluster.limit else None
    cluster.limit = cluster.server.requests + 12
    node = cluster.judge("dead server")
    same("it says so", any("the server closed the connection" in line for line in node.said()), True)


try_all(each_call, dead_server)
