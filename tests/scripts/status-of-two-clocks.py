"""On a host whose two monotonic clocks are 100 s apart, either way: a status file of the program of before, whose ticks are of the slewed clock, is as
fresh for `quorumctl status` as one of this program, whose ticks are of the raw one; one that is old by its own clock is stale. A node writes
ticks of the raw clock."""
import json
import os
import pathlib
import shutil
import subprocess

from clusterfiles import TOP, at, holder, node, now, quorumctl, same
from live import QUORUMD, Cluster

APART = 100
LOOP = 1000
AGE = 100  # milliseconds of a file as clusterfiles writes it


def host(apart):
    """The environment of a program on a host whose clocks are so many seconds apart."""
    return dict(os.environ, LD_PRELOAD=str(pathlib.Path("two-clocks.so").resolve()), APART=str(apart))


def written(moved):
    """The files of three nodes of which the first holds, with their ticks moved by so many milliseconds from the raw clock."""
    paths = []
    for made in (holder(1, loop=LOOP), node(2, loop=LOOP), node(3, loop=LOOP)):
        paths.append(pathlib.Path("node-%d.json" % made["id"]))
        paths[-1].write_text(json.dumps(at(now() + moved, made), sort_keys=True, separators=(",", ":")) + "\n")
    return paths


def judged(apart, moved):
    """The exit status, and the ages of the nodes in seconds, of files that are moved so on a host whose clocks are so far apart."""
    ended, text, _ = quorumctl("status", "--json", *written(moved), env=host(apart))
    return ended, [made["age"] / 1000 for made in json.loads(text)["nodes"]]


def fresh(apart, moved, what):
    ended, ages = judged(apart, moved)
    same((ended, [AGE / 1000 <= age < AGE / 1000 + 2 for age in ages]), (0, [True] * 3), "%s: %s" % (what, ages))


def stale(apart, moved, what):
    same(judged(apart, moved)[0], 3, what)


def try_readers():
    for apart in APART, -APART:
        fresh(apart, 0, "this program, %d s apart" % apart)
        fresh(apart, 1000 * apart, "the program of before, %d s apart" % apart)
        stale(apart, -30 * 1000, "this program, 30 s old, %d s apart" % apart)
        stale(apart, 1000 * apart - 30 * 1000, "the program of before, 30 s old, %d s apart" % apart)


def try_a_node():
    """The tick of a node's status file is one of the raw clock."""
    for apart in APART, -APART:
        cluster = Cluster("node%d" % apart, ids=(1,))
        path = cluster.folder / "status"
        words = [QUORUMD, "--status", path, "node", "--id", "1", "--image", cluster.image, "--watchdog", cluster.folder / "watchdog", "--resource",
                 cluster.folder / "resource", "--port", str(cluster.port), "--turns", "100"]
        for name in ("watchdog", "resource"):
            (cluster.folder / name).write_bytes(b"")
        begun = now()
        with open(cluster.folder / "conf") as settings:
            subprocess.run(list(map(str, words)), stdin=settings, env=host(apart), capture_output=True, check=False)
        tick = json.loads(path.read_text())["tick"]
        same(begun <= tick <= now(), True, "a tick of %d, begun at %d, clocks %d s apart" % (tick, begun, apart))


compiler = shutil.which("cc")
if compiler is None:
    print("skipped: cc is not installed")
else:
    subprocess.run([compiler, "-shared", "-fPIC", "-o", "two-clocks.so", TOP / "tests/parts/two-clocks.c"], check=True)
    try_readers()
    try_a_node()
