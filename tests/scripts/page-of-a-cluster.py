"""quorumd-page over status files that are written here and over the journals of a take-over: the verdict, the owner, a row and a strip for each node, the
fences and the last hour; two holders, no owner, 32 nodes, a file that is none; what a node told; names that are no markup. The page has nothing from elsewhere,
is put in place as a whole, and is written over nothing but a page."""
import html.parser
import json
import os
import pathlib
import re
import subprocess
import sys

from clusterfiles import TOP, holder, node, write

SCRIPT = TOP / "contrib" / "quorumd-page"
JOURNALS = TOP / "examples" / "journals" / "take-over"
sys.path.insert(0, str(TOP / "contrib"))
from quorumd_page import cluster as clusters, happened, page, seen

VOID = {"meta", "br", "hr", "img", "link"}
NAMES = {1: "db1", 2: "db2", 3: "<b>db3</b>&\"'"}


def demand(holds, what):
    if not holds:
        raise SystemExit("wrong: %s" % what)


def same(got, wanted, what):
    demand(got == wanted, "%s: %r, wanted %r" % (what, got, wanted))


class Reader(html.parser.HTMLParser):
    """A page as its elements, each closed in its place, and the texts of rows and headings."""

    def __init__(self, text):
        super().__init__()
        self.open, self.rows, self.texts, self.attributes, self.strips = [], [], {}, [], 0
        self.feed(text)
        demand(not self.open, "each element is closed: %r" % self.open)

    def handle_starttag(self, tag, attrs):
        self.attributes += attrs
        self.strips += ("class", "strip") in attrs
        if tag == "tr":
            self.rows.append("")
        if tag not in VOID:
            self.open.append(tag)

    def handle_startendtag(self, tag, attrs):
        self.attributes += attrs

    def handle_endtag(self, tag):
        demand(self.open and self.open.pop() == tag, "%s is closed in its place" % tag)

    def handle_data(self, data):
        if "tr" in self.open:
            self.rows[-1] += data + "|"
        for tag in {"h1", "p", "li", "title"} & set(self.open):
            self.texts[tag] = self.texts.get(tag, "") + data + ("" if tag == "h1" else " ")


def environment():
    folder = pathlib.Path("bin")
    folder.mkdir(exist_ok=True)
    if not (folder / "quorumctl").exists():
        (folder / "quorumctl").symlink_to(os.environ["QUORUMCTL"])
        (folder / "journalctl").write_text("#!/bin/sh\ncase \"$*\" in *--output=cat*--unit=quorumd@\\*) cat '%s' ;; *) exit 1 ;; esac\n" % (JOURNALS / "node-2"))
        (folder / "journalctl").chmod(0o755)
    return dict(os.environ, PATH="%s:%s" % (folder.resolve(), os.environ["PATH"]))


def run(*words, **more):
    done = subprocess.run([SCRIPT, *map(str, words)], env=more.get("env") or environment(), stdin=subprocess.DEVNULL, stdout=subprocess.PIPE, stderr=subprocess.PIPE, check=False)
    return done.returncode, (done.stdout + done.stderr).decode()


def paged(nodes, *words):
    """The page over the files of these nodes."""
    files = []
    for number, made in enumerate(nodes):
        files += ["--status", "n%d.json" % number]
        write(pathlib.Path(files[-1]), made)
    same(run(*files, *words, "page.html"), (0, ""), "a page is written")
    text = pathlib.Path("page.html").read_text()
    found = Reader(text)
    for name, value in found.attributes:
        demand(name not in ("src", "href", "srcset", "data", "action") and "http" not in (value or "").replace("http-equiv", ""), "nothing is from elsewhere: %s=%s" % (name, value))
    demand(not re.search(r"url\(|@import|https?:", text), "nothing is loaded")
    return found


def three(**of_first):
    return [holder(1, name=NAMES[1], **of_first), node(2, name=NAMES[2]), node(3, name=NAMES[3])]


def verdicts():
    found = paged(three())
    same((found.texts["h1"], found.strips, len(found.rows)), ("healthy", 4, 4), "three nodes, with a head and the strip of the owner")
    demand("db1 holds the resource" in re.sub(" +", " ", found.texts["p"]), found.texts["p"])
    same([row.split("|")[0] for row in found.rows[1:]], ["db1", "db2", NAMES[3]], "names are texts, and no markup")
    demand([("HOLDS" in row) for row in found.rows[1:]] == [True, False, False] and "quorate 3/2" in found.rows[2], found.rows)
    found = paged([*three()[:1], holder(2), node(3)])
    demand(found.texts["h1"] == "TWO HOLDERS" and [("HOLDS" in row) for row in found.rows[1:]] == [True, True, False], "two hold: %r" % found.rows)
    demand("hold, by their own word." in found.texts["p"], found.texts["p"])
    found = paged([node(2, why="unfenced:1:4744", view={"id": 2, "members": [2, 3]}, votes=2), node(3, why="not-chosen:2", view={"id": 2, "members": [2, 3]}, votes=2)])
    demand(found.texts["h1"] == "no owner" and "Nobody holds" in found.texts["p"], "nobody holds: %r" % found.texts)
    demand("waits for the reset of node 1: 4.7 s left" in found.rows[2] and "leaves it to node 2" in found.rows[3], found.rows)
    ids = tuple(range(1, 33))
    found = paged([(holder if ident == 7 else node)(ident, ids=ids, expected=32, quorum=17) for ident in ids])
    demand(found.strips == 33 and len(found.rows) == 33 and "HOLDS" in found.rows[7], "32 nodes")
    found = paged([node(2)])
    demand(len(found.rows) == 4 and "tells nothing of itself" in found.rows[1] and found.texts["h1"] != "healthy", "one host of which no other tells: %r" % found.rows)
    found = paged([holder(1, end="left clean")])
    demand("ended: left clean" in found.rows[1] and "HOLDS" not in found.rows[1], "a node that ended holds nothing: %r" % found.rows)


def faults():
    pathlib.Path("none.json").write_text("{}\n")
    found = paged(three(), "--status", "none.json", "--status", "absent.json")
    demand("none.json: " in found.texts["p"] and "absent.json: " in found.texts["p"], "files that are none are named")
    status, said = run("--status", "n0.json", "--journal", "no-journal", "page.html")
    found = Reader(pathlib.Path("page.html").read_text())
    demand(status == 0 and "no-journal" in said and "The journals were not read: " in found.texts["p"] and found.texts["h1"] != "unknown", "a journal that is not there: %r" % said)
    status, said = run("--status", "n0.json", "page.html", env=dict(os.environ, PATH="/nowhere:/usr/bin:/bin"))
    found = Reader(pathlib.Path("page.html").read_text())
    demand(status == 0 and "quorumd-page: quorumctl: No such file or directory" in said and found.texts["h1"] == "unknown", "without quorumctl nothing is known: %r" % said)


def told():
    """Keys of a later release than that of a file: what others told, names, groups."""
    shown = node(2, tick=900000, mail_tick=None, loop=1000, age=200, stale=False, peers=[
        {"hello_tick": 899900, "id": 1, "name": "db1", "refused": 0, "told": {"group": 7, "held_ms": 81204, "holds": True, "incarnation": 3, "leaving": False, "quorate": True, "tick": 899950}},
        {"hello_tick": 890000, "id": 3, "refused": 340, "told": {"group": 10, "held_ms": 0, "holds": True, "incarnation": 3, "leaving": False, "quorate": True, "tick": 890000}}])
    found = clusters.cluster_of(json.dumps({"nodes": [shown], "said": "db1 holds; its group is failed", "state": "degraded"}))
    first, second, third = found.nodes
    same((first.title(), first.holds, first.quorate, first.group, first.held_ms, first.silent_ms), ("db1", True, True, "failed", 81204, 300), "what node 1 told")
    same((third.holds, third.is_live, third.phase, third.refused), (None, False, "not heard", 340), "what was told ten seconds ago is of no use")
    same([clusters.group_word(shown) for shown in ({}, {"group": None}, {"group": 0}, {"group": 9}, {"group": 10}, {"group": 11})],
         ["", "unattended", "none", "maintenance", "unattended", ""], "the words of a group")
    same((second.is_own, second.holds, [node.ident for node in found.holders()]), (True, False, [1]), "the own node")
    text = page.page_of("host", 1000000, 10, found, [], [])
    demand("db1</strong> holds the resource for 81 s" in text or "db1</strong> holds the resource for 1 min" in text, "for how long it holds")
    demand("its resources: failed" in text and "340 of its packets were refused" in text, "what else was told")
    hands_over = json.dumps({"nodes": [holder(1, tick=900000, age=200, stale=False), holder(2, tick=900000, age=200, stale=False)], "said": "1 hands over to 2", "state": "degraded"})
    text = page.page_of("host", 1000000, 10, clusters.cluster_of(hands_over), [], [])
    demand("the one hands over to the other" in text and "<h1>degraded</h1>" in text and 'class="owner clash"' not in text, "a hand-over is no alarm")
    for broken in ("", "[]", "{}", '{"nodes": 3, "said": "", "state": "healthy"}', '{"nodes": [{"id": 1}], "said": "", "state": "healthy"}'):
        try:
            clusters.cluster_of(broken)
        except ValueError:
            continue
        demand(False, "%r is no status" % broken)


def hour():
    """The spans and marks of the take-over, by what its journals tell."""
    history = subprocess.run([os.environ["QUORUMCTL"], "history", *sorted(JOURNALS.glob("node-*"))], stdout=subprocess.PIPE, check=True).stdout.decode()
    events = happened.events_of(history)
    same(len(events), len(history.splitlines()), "each line is an event")
    zero = next(event.time for event in events if event.ident == 1 and event.said.startswith("booted"))  # 21:03:57.797
    begin, end = zero - 1, zero + 60

    def spans(ident, is_live, kind):
        found, _ = happened.lane_of(clusters.Node(ident, is_own=True, is_live=is_live, phase="up" if is_live else "silent"), events, begin, end)
        return [(round(span.begin - zero, 3), round(span.end - zero, 3)) for span in found if span.kind == kind]

    same(spans(1, False, "holds"), [(2.043, 12.004)], "node 1 held from its start until it was missed")
    same(spans(1, False, "gap"), [(12.004, 60.0)], "and nothing is known of it from then on")
    same(spans(2, True, "holds"), [(22.22, 24.428)], "node 2 held until it left")
    same(spans(3, True, "quorate"), [(1.032, 27.44)], "node 3 was quorate")
    _, marks = happened.lane_of(clusters.Node(1), events, begin, end)
    same([(mark.kind, round(mark.time - zero, 3)) for mark in marks], [("booted", 0.0), ("fenced", 12.199)], "what happened to node 1")
    same([(of, is_written) for _, of, is_written in happened.fences_of(events)], [(1, True)], "the fences")
    same(happened.spans_of([], True, 0, 10), [(0, 10)], "nothing told is as now")
    same(happened.spans_of([(4, False)], False, 0, 10), [(0, 4)], "before an end it was so")
    same(happened.spans_of([(4, True), (6, False), (6, True)], True, 5, 10), [(5, 6), (6, 10)], "what began before the picture")
    found = paged(three(), *(word for path in sorted(JOURNALS.glob("node-*")) for word in ("--journal", path)))
    demand("db1 was fenced by db2" in found.texts["li"] and "db1 was fenced by db2" in paged(three()).texts["li"], "the fence has names: %r" % found.texts["li"][:300])


def record():
    """What the page said is kept for an hour, a line each time that it was written."""
    path = pathlib.Path("page.html.seen")
    path.write_text("12 healthy 1\nrubbish\n")
    paged(three())
    paged(three())
    lines = path.read_text().splitlines()
    demand(len(lines) == 2 and all(re.fullmatch(r"\d+ healthy 1", line) for line in lines), "two lines, and none older than an hour: %r" % lines)
    cluster = clusters.Cluster("healthy", "", [clusters.Node(1, "db1"), clusters.Node(2)])
    looks = seen.lines_read("".join("%d %s\n" % row for row in ((0, "healthy 1"), (10, "healthy 1"), (20, "no-owner -"), (30, "healthy 2"), (200, "no-owner 1,2"), (210, "unknown ?"))), 0, 300)
    same([tuple(span) for span in seen.spans_of(cluster, looks, 60)],
         [("healthy", 0, 20, "db1 held"), ("no-owner", 20, 30, "no owner"), ("no-owner", 200, 210, "db1 and node 2 BOTH held")], "spans, and a gap where nothing was written")


def in_place():
    """Nothing is written over but a page, and that whole or not at all."""
    for words, line in (((), "no PAGE"), (("a", "b"), "b is one too many"), (("--every", "0", "page.html"), "--every 0"), (("--journal",), "its value is missing"), (("--key", "x"), "--key is not taken"),
                        (("bin",), "bin: a file in a folder"), (("absent/page.html",), "a file in a folder that is there"), (("n0.json",), "n0.json is there and is no page")):
        status, said = run(*words)
        demand(status == 2 and line in said and "Traceback" not in said, "%r: %d %r" % (words, status, said))
    pathlib.Path("linked").write_text("of somebody else\n")
    pathlib.Path("page.html.new").symlink_to("linked")
    paged(three())
    same((pathlib.Path("linked").read_text(), pathlib.Path("page.html.new").exists()), ("of somebody else\n", False), "no link is followed, and nothing is left")
    before = pathlib.Path("page.html").read_text()
    pathlib.Path("page.html.new").mkdir()
    status, said = run("--status", "n0.json", "page.html")
    demand(status == 1 and said.splitlines()[-1] == "quorumd-page: page.html.new: Is a directory", "it cannot be written: %r" % said)
    same(pathlib.Path("page.html").read_text(), before, "the page of before")


verdicts()
faults()
told()
hour()
record()
in_place()
