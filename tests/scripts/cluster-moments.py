"""`quorumctl status` and `history` over what three real nodes said at four moments, and over the journals of two of their runs. What
is wanted was worked out by a program in Python that is none of ours."""
import json
import pathlib
import re
import subprocess

from clusterfiles import QUORUMCTL, TOP, at, now, quorumctl, same, status

MOMENTS = ("one-holds", "holder-stopped", "holder-back-and-dying", "left")
TRIES = 20  # a run that took so long that a file may have become stale is made again
SLOW = 1000

# an age in seconds in the text, in a sentence and as a metric
AGES = re.compile(r"[0-9.]+(?=s  )|(?<=silent for )[0-9.]+|(?<=age_seconds\{node=\"[0-9]\"\} )[0-9.]+")


def moved(folder, by):
    """The files of a moment with their ticks moved."""
    paths = []
    for path in sorted(folder.glob("node-*.json")):
        made = at(by, json.loads(path.read_text()))
        paths.append(pathlib.Path(path.name))
        paths[-1].write_text(json.dumps(made, sort_keys=True, separators=(",", ":")) + "\n")
    return paths


def looked(folder, *words):
    """What is said of a moment, by how much its ticks were moved, and how long that took."""
    for _ in range(TRIES):
        begin = now()
        by = begin - int((folder / "now").read_text())
        got = status(*words, *moved(folder, by))
        passed = now() - begin
        if passed < SLOW:
            return got, by, passed
    raise SystemExit("no run of %d was within %d ms" % (TRIES, SLOW))


def same_but_ages(got, wanted, passed, what):
    """Two texts that differ in ages alone, by no more than the time that passed."""
    same(AGES.sub("AGE", got), AGES.sub("AGE", wanted), what)
    for one, other in zip(AGES.findall(got), AGES.findall(wanted)):
        if not -0.11 <= float(one) - float(other) <= passed / 1000 + 0.11:
            raise SystemExit("%s: an age of %s, and not %s" % (what, one, other))


def try_text(folder, form, words):
    (ended, got, errors), _, passed = looked(folder, *words)
    wanted = (folder / form).read_text()
    if form == "metrics":
        got = "".join(line for line in got.splitlines(keepends=True) if not line.startswith("# HELP "))
    same_but_ages(got, wanted, passed, "%s of %s" % (form, folder.name))
    same((ended, errors), (int((folder / "status").read_text()), ""), folder.name)


def try_json(folder):
    (_, got, _), by, passed = looked(folder, "--json")
    wanted = json.loads((folder / "json").read_text())
    wanted["nodes"] = [at(by, made) for made in wanted["nodes"]]
    parsed = json.loads(got)
    same(got, json.dumps(parsed, sort_keys=True, separators=(",", ":")) + "\n", "the JSON is one line in order")
    for one, other in zip(parsed["nodes"], wanted["nodes"]):
        if not 0 <= one["age"] - other["age"] <= passed:
            raise SystemExit("%s: an age of %d, and not %d" % (folder.name, one["age"], other["age"]))
        other["age"] = one["age"]
    same_but_ages(parsed.pop("said"), wanted.pop("said"), passed, "the JSON of %s" % folder.name)
    same(parsed, wanted, "the JSON of %s" % folder.name)


def try_journals(folder):
    wanted = (0, (folder / "history").read_text(), "")
    paths = sorted(folder.glob("node-*"))
    same(quorumctl("history", *paths), wanted, "history of %s" % folder.name)
    # from standard input, behind what a log adds, among lines of others, and with no end of the last line
    log = b"".join(b"Nov 28 21:04:09 host quorumd[7]: %s" % line for path in paths for line in path.read_bytes().splitlines(keepends=True))
    log = b"quorumd: disk: Permission denied (os error 13)\n\xff\xfe\n" + b"x" * 5000 + b"\n" + log.rstrip(b"\n")
    done = subprocess.run([QUORUMCTL, "history"], input=log, stdout=subprocess.PIPE, check=True)
    same(done.stdout.decode(), wanted[1], "history of a log of %s" % folder.name)


for name in MOMENTS:
    place = TOP / "tests" / "cluster" / name
    for form, words in (("text", ()), ("metrics", ("--prometheus",))):
        try_text(place, form, words)
    try_json(place)
for folder in (TOP / "examples" / "journals" / "take-over", TOP / "tests" / "cluster" / "journals" / "paused-holder"):
    try_journals(folder)
