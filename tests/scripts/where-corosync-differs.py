"""Where Corosync differs: our side of each row of the table of votes of docs/dev/COROSYNC.md, from the settings and events that it names; and of each text
of tests/rows/corosync-texts.tsv, which that page names. Where Corosync 3.1.7 is installed, `corosync -t` judges each text as the
table says (column 4; `-` says nothing)."""
import os
import pathlib
import re
import shutil
import subprocess
import sys

TOP = pathlib.Path(os.environ["TOP"])
PAGE = (TOP / "docs" / "dev" / "COROSYNC.md").read_text()
PART = PAGE.split("\n## Votes\n")[1].split("\n## ")[0]
UP = ["land", "done"] * 4  # the header, the own slot, the claim and the clear: the node is up
wrong = []


def rows():
    """The cells of each row of the table: subject, votes, keys, events and our answer without their marks."""
    lines = [line for line in PART.splitlines() if line.startswith("| ") and not line.startswith("| Subject")]
    return [[cell.strip() for cell in line.strip("|").split("|")] for line in lines]


def code(cell):
    found = re.search(r"`([^`]*)`", cell)
    return found[1] if found else ""


def settings(votes, keys):
    nodes = ["node {\nnodeid: %d\nquorum_votes: %s\n}" % (at, count) for at, count in enumerate(votes.split(), 1)]
    provider = [] if keys == "provider" else ["provider: corosync_votequorum"]
    lines = [] if keys == "provider" else re.sub("([{}])", r"\1;", keys.replace("}", ";}")).split(";")
    return "\n".join(["nodelist {", *nodes, "}", "quorum {", *provider, *[line.strip() for line in lines], "}", ""])


def schedule(node, events):
    """The lines of the events, which come to one node once it is up."""
    lines = ["boot %d 0" % node] + ["%s %d" % (word, node) for word in UP]
    for number, event in enumerate(events.split("; "), 1):
        word, _, what = event.partition(" ")
        if word == "view":
            lines.append("view %d %d %s" % (node, number, what))
        elif word == "device":
            lines.append("device %d %s" % (node, what))
        elif word == "pass":
            lines += ["pass " + what, "tick %d" % node]
        else:
            wrong.append("no such event: " + event)
    return "".join(line + "\n" for line in lines)


def counted(text, node):
    """What the node prints of its votes after a schedule."""
    done = subprocess.run([os.environ["QUORUMD"], "status"], input=text, stdout=subprocess.PIPE, text=True)
    found = re.search(r"(?m)^node %d up .* quorate=(yes|no) (\d+/\d+) " % node, done.stdout)
    return "%s %s" % (found[1], found[2]) if found else done.stdout


def look(subject, votes, keys, events, answer):
    there = re.search(r"at node (\d+)", events)
    node = int(there[1]) if there else 1
    text = settings(code(votes), code(keys)) + "----\ntiming 5000 10000 1000 2000 1000\n" + schedule(node, code(events))
    got = counted(text, node)
    if got != code(answer):
        wrong.append("%s: wanted %s, got %s" % (subject, code(answer), got))


def has_corosync():
    """Whether the Corosync that the tables were seen with is there, and can be run."""
    if os.getuid() == 0 and shutil.which("corosync"):
        return "version '3.1.7'" in subprocess.run(["corosync", "-v"], capture_output=True, text=True, check=False).stdout
    return False


def look_at_text(name, text, answer, judged):
    """A text of the table: what `replay` answers to it as a head, its row of the page, and the status of `corosync -t`, if that is to be tried."""
    head = text + b"\n----\ntiming 5000 10000 1000 2000 1000\n"
    got = subprocess.run([os.environ["QUORUMD"], "replay"], input=head, stdout=subprocess.PIPE, check=False).stdout.decode()
    if got != answer + "\n":
        wrong.append("%s: wanted %s, got %s" % (name, answer, got))
    if "`%s`" % name not in PAGE:
        wrong.append("docs/dev/COROSYNC.md does not name the row %s" % name)
    if judged is not None:
        pathlib.Path("text").write_bytes(text)
        status = subprocess.run(["corosync", "-t", "-c", os.path.abspath("text")], capture_output=True, check=False).returncode
        if status != judged:
            wrong.append("%s: Corosync ends with %d, and not %d" % (name, status, judged))


def texts():
    """The rows of the table of texts: a name, the bytes that `printf %b` makes of the second column, our answer, and what Corosync's status is to be."""
    for line in (TOP / "tests" / "rows" / "corosync-texts.tsv").read_text().splitlines():
        name, text, answer, judged = line.split("\t")
        made = subprocess.run(["bash", "-c", "printf %b \"$1\"", "-", text], stdout=subprocess.PIPE, check=True).stdout
        yield name, made, answer, None if judged == "-" else int(judged)


for row in rows():
    look(*row[:5])
is_tried = has_corosync()
if not is_tried:
    print("skipped: not installed (Debian 12: corosync), to let Corosync judge the texts")
for name, text, answer, judged in texts():
    look_at_text(name, text, answer, judged if is_tried else None)
if len(rows()) < 20:
    wrong.append("the table of votes of docs/dev/COROSYNC.md has %d rows" % len(rows()))
print("\n".join(wrong))
sys.exit(1 if wrong else 0)
