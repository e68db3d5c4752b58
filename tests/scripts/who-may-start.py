"""Who may start under a view, by its number: each row of tests/rows/chosen.tsv as a schedule in which every member boots and is told the
view, once by quorumd and once by the plain program of bench/plain, where rustc is there; and by what reads records of nodes. And whether a
member that holds gives up under it. A row says how many nodes are configured, the number of the view, its members as ranks, and the rank that may
start, `-` for none. The same of each view that a leader makes in the rows `candidate` of tests/program/qn_tests, where all nodes are its members."""
import json
import os
import pathlib
import shutil
import subprocess

from members import View
from told import Told

TOP = pathlib.Path(os.environ["TOP"])
QUORUMD = os.environ["QUORUMD"]
TIMES = "timing 5000 10000 1000 2000 1000"
BOOT = 4  # what a boot asks its disk for: the header, the own slot, the claim and the clear
NOBODY = 254


def rows():
    for line in (TOP / "tests" / "rows" / "chosen.tsv").read_text().splitlines():
        if not line.startswith("#"):
            count, number, members, chosen = line.split("\t")
            yield int(count), int(number), [int(rank) + 1 for rank in members.split(",")], 0 if chosen == "-" else int(chosen) + 1


def led():
    """The views of leaders, with whom each names: a rank, `none`, or `nobody`."""
    for line in (TOP / "tests" / "program" / "qn_tests" / "stdin").read_text().splitlines():
        if line.startswith("candidate\t"):
            words = line.split("\t")
            members = [int(rank) + 1 for rank in words[1].split(",")]
            yield max(members), int(words[14]), members, chosen_by(words[12], members)


def chosen_by(name, members):
    """The id of who may start where a leader names that; 0 for nobody."""
    if name == "none":
        return members[0]
    return 0 if name == "nobody" else int(name) + 1


def settings(count, members):
    """So many nodes, of which these alone have votes, so that who sees them is quorate."""
    nodes = ("    node {\n        nodeid: %d\n        quorum_votes: %d\n    }\n" % (ident, ident in members) for ident in range(1, count + 1))
    return "nodelist {\n%s}\n" % "".join(nodes)


def schedule(count, number, members):
    """Each member boots and is told the view."""
    lines = []
    for ident in members:
        lines += ["boot %d 0" % ident] + ["land %d" % ident, "done %d" % ident] * BOOT
    told = ",".join(map(str, members))
    lines += ["view %d %d %s" % (ident, number, told) for ident in members]
    return "%s----\n%s\n%s\n" % (settings(count, members), TIMES, "\n".join(lines))


def held(count, number, members, holder):
    """A member boots, alone has votes, reads that the others are clean, and holds; then it is told the view."""
    lines = ["boot %d 0" % holder] + ["land %d" % holder, "done %d" % holder] * BOOT + ["view %d 0 %d" % (holder, holder)]
    lines += ["land %d" % holder, "done %d" % holder] * count
    lines += ["view %d %d %s" % (holder, number, ",".join(map(str, members)))]
    return "%s----\n%s\n%s\n" % (settings(count, [holder]), TIMES, "\n".join(lines))


def holding(row):
    """The schedules in which a member holds, for some of the members, each with whether it gives up: the view names another one, or nobody may start."""
    count, number, members, _ = row
    name = number >> 56
    for holder in sorted({members[0], members[-1], name if name in members else members[0]}):
        yield held(count, number, members, holder), name == NOBODY or name in members and name != holder


def judge_held(row):
    """Whether the holder stops, by quorumd."""
    for text, gives_up in holding(row):
        before, last = answer(text, QUORUMD, "replay").splitlines()[-3:-1]
        demand("why=holding" in before, "nobody holds before view %d of %s: %s" % (row[1], row[2], before))
        stops = "stop" in last.split()[3].split(",")
        demand(stops == gives_up, "view %d of %s: %s" % (row[1], row[2], last))


def answer(text, *words):
    return subprocess.run([*words], input=text, stdout=subprocess.PIPE, check=False, text=True).stdout


def demand(right, what):
    if not right:
        raise SystemExit(what)


def judge(row):
    """What each member says by quorumd."""
    count, number, members, chosen = row
    said = json.loads(answer(schedule(count, number, members), QUORUMD, "status", "--form", "json"))
    whys = {node["id"]: node["why"] for node in said if node["id"] in members}
    for ident, why in whys.items():
        wanted = "not-chosen:%d" % chosen
        waits = why in ("holding", "clear") or why.split(":")[0] in ("unheard", "unfenced")
        demand(waits if ident == chosen else why == wanted, "view %d of %s: node %d says %s, and %d may start" % (number, members, ident, why, chosen))


def judge_told(row):
    """What is read off the record of a member."""
    count, number, members, chosen = row
    told = Told(range(1, count + 1), members[-1])
    told.view = View(number, tuple(members))
    demand(told.chosen() == chosen, "view %d of %s: %d may start, and by the record %d" % (number, members, chosen, told.chosen()))


def main():
    table, leaders = list(rows()), list(led())
    demand((len(table), len(leaders)) == (100, 200), "%d rows, and %d of leaders" % (len(table), len(leaders)))
    table += leaders
    configured = [row for row in table if max(row[2]) <= row[0]]
    for row in table:
        if row in configured:
            judge(row)
            judge_told(row)
            judge_held(row)
        else:
            said = answer(schedule(*row[:3]), QUORUMD, "replay").splitlines()[-1]
            demand(said.endswith("UnknownNode"), "a view with a member that is not configured: %s" % said)
    if shutil.which("rustc") is None:
        print("skipped: there is no rustc here, so the plain program was not tried")
        return
    subprocess.run(["rustc", "--edition", "2021", "-O", "-o", "plain", str(TOP / "bench" / "plain" / "main.rs")], check=True)
    for row in configured:
        for text in (schedule(*row[:3]), *(text for text, _ in holding(row))):
            demand(answer(text, "./plain", "replay") == answer(text, QUORUMD, "replay"), "the plain program says otherwise of view %d" % row[1])


main()
