"""bench/soak-nodes --written: runs of simulated nodes, on one image and on three, are written down, and all agrees: `replay` plays the schedule
to its end, `audit` takes each log as a run, and each journal is what a second reader makes of the log. A program that changes a line of one of
them is found out; words that name no run are refused."""
import os
import pathlib
import re
import stat
import subprocess
import sys

from live import same

TOP = pathlib.Path(os.environ["TOP"])
BUILT = subprocess.run([TOP / "bench" / "qn_soak_nodes", "--program"], stdout=subprocess.PIPE, stderr=subprocess.DEVNULL, check=False, text=True).stdout.strip()
RUNS = ("2 1 3 60 kills 0", "5 1 5 40 leaves 3000", "3 1 3 60 operators 0", "4 1 2 60 arbiter 0", "2 1 3 60 images 0 images 3", "6 1 3 60 damages 0 images 3",
        "4 1 3 60 operators 0 images 3", "7 1 5 40 mixed 3000 images 3",
        # a machine ends when its node has told that it is to start, and before it makes that call
        "20261404 1 5 100 isolations 0 images 3")
KINDS = {"claimed", "phase", "view", "peer-seen", "why", "hold-won", "start"}  # what some journal tells

# A program that runs the real one and changes what it says where its seventh word is the one given.
FAULTY = """#!/usr/bin/env bash
if [ "$7" != %s ]; then exec %s "$@"; fi
%s "$@" 2> >(sed -u '%s' >&2) | sed '%s'
"""


def written(folder, words, program=BUILT):
    """The status and the line of a run that is written into a folder."""
    done = subprocess.run([str(TOP / "bench" / "soak-nodes"), "--written", folder, *words.split(" ")], env={**os.environ, "SOAK_NODES": str(program)},
                          stdout=subprocess.PIPE, stderr=subprocess.PIPE, check=False, text=True)
    return done.returncode, done.stdout


def faulty(name, word, errors="", output=""):
    """A program that changes its lines on standard error, or its output, where it is asked for them."""
    path = pathlib.Path(name).resolve()
    path.write_text(FAULTY % (word, BUILT, BUILT, errors, output))
    path.chmod(path.stat().st_mode | stat.S_IXUSR)
    return path


if not BUILT:
    print("skipped: neither built from these sources (bench/qn_soak_nodes --build-only) nor released, to run clusters of running nodes")
    sys.exit(0)

told = ""
for number, run in enumerate(RUNS):
    name = "run-%d" % number
    same(run, written(name, run), (0, "qn_soak_nodes %s: ok\n" % run))
    journals = sorted(pathlib.Path(name).glob("journal.*"))
    same("%s: its journals" % run, len(journals), int(run.split(" ")[2]))
    told += "".join(journal.read_text() for journal in journals)
same("kinds of lines that no journal has", sorted(KINDS - set(re.findall(r" event=([a-z-]+)", told))), [])

WRONG = (
    (faulty("other-journal", "journals", errors="s/why=no-view/why=clear/"), "its journal has"),
    (faulty("other-log", "journals", output="s/^feed ok/start ok/"), "its log:"),
    (faulty("other-schedule", "schedule", output="/^feed 1/d"), "its schedule does not replay to end"),
)
for wrong, said in WRONG:
    status, line = written("wrong", RUNS[0], wrong)
    same("%s: %s" % (said, line), (status, said in line), (1, True))

for words in ("1 2 3 60 kills 0", "1 1 3 60 others 0", "1 1 3 60 kills", "1 1 3 60 kills 0 images 2", "1 1 3 60 kills 0 logs", "x 1 3 60 kills 0"):
    same(words, written("none", words)[0], 2)
