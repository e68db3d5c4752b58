"""Runs in which a node ends and the world is quiet: the other one has started by the longest take-over of `quorumctl timing`, and where
a call of the disk takes as long as a loop it writes no reset at all. And some runs drawn at random, none above the bound."""
import os
import pathlib
import re
import subprocess

from quietruns import Pace, Survivor, Times

LONG = 300000
quorumd, quorumctl, top = os.environ["QUORUMD"], os.environ["QUORUMCTL"], pathlib.Path(os.environ["TOP"])
NONE_ABOVE = r"quiet runs from seed 1: [0-9]+, and 0 more in which the watchdog ended the node; 0 above the bound, the nearest 0\.[0-9]+ of it"


def slowest(low, high):
    """Calls and feeds as late as they may be, and a clock that is right."""
    return (low + high) // 2 if 101 * low == 99 * high else high


def until_look(node, tick):
    """Until an entry at this tick or later."""
    while not (node.tick() >= tick and node.last_entry == node.time):
        assert node.step(), "the watchdog ends the node"


def run(times, disk, is_bounded):
    """The trace of a run in which node 2 is off from the first moment on. Three loops and a tick later a look misses it; a sixteenth of a
    loop and two turns later the news of those who followed it would be there, and the look a loop after that gives the view."""
    pace = Pace(disk, 50, True)
    node = Survivor(times, pace, [True, False], [0, 0], slowest)
    node.leave_dirty()
    node.boot(0)
    node.view(1, 3)
    until_look(node, 3 * times.loop + 1)
    news = (times.loop + 15) // 16 + 2 * pace.turn_ticks()
    until_look(node, node.tick() + news + times.loop)
    node.view(2, 1)
    while node.time < LONG and not (is_bounded and node.holds):
        assert node.step(), "the watchdog ends the node"
    text = node.head() + "\n".join(node.lines) + "\n"
    done = subprocess.run([quorumd, "replay"], input=text.encode(), stdout=subprocess.PIPE, check=True)
    return done.stdout.decode().splitlines()


def printed(times, disk):
    words = ["timing", "--watchdog", times.watchdog, "--loop", times.loop, "--read-limit", times.read_limit,
             "--feed-delay", times.feed_delay, "--disk", disk]
    said = subprocess.run([quorumctl, *map(str, words)], stdout=subprocess.PIPE, check=True).stdout.decode()
    return dict(line.rsplit(" ", 1) if "none" not in line else (line.split(" none")[0], "none") for line in said.splitlines())


for line in open(top / "tests" / "rows" / "take-over-runs.tsv"):
    if line.startswith("#"):
        continue
    watchdog, loop, read_limit, feed_delay, msgwait, disk, bound, resets = line.rstrip("\n").split("\t")
    times = Times(int(watchdog), int(msgwait), int(loop), int(read_limit), int(feed_delay))
    said = printed(times, int(disk))["longest take-over"]
    assert (said == "none") == (bound == "none"), "%s: timing says %s" % (line, said)
    trace = run(times, int(disk), resets == "yes")
    starts = [int(said.split()[1]) for said in trace if " start" in said]
    assert any("reset:" in said for said in trace) == (resets == "yes"), "%s: resets" % line
    if bound != "none":
        assert starts and starts[0] <= int(bound), "%s: it starts at %s" % (line, starts)
drawn = subprocess.run([top / "bench" / "quiet", "500", "1"], stdout=subprocess.PIPE, stderr=subprocess.DEVNULL, check=True, text=True).stdout
assert any(re.match(NONE_ABOVE, said) for said in drawn.splitlines()), drawn
