"""`node3-logged` records a node on three images, also where one of them is lost, and `audit --images 3` takes the record as a whole run, each
beginning of it as the beginning of one, and names the first line that is another. Whole records of a node on one image, each read and
write of which is made on three images in their order, are runs of a node on three."""
import os
import pathlib
import re
import subprocess

from live import QUORUMD, TripleCluster, same

TOP = pathlib.Path(os.environ["TOP"])
WORDS = ["--id", "1", "--turns", "60", "--leave", "40"]


def audit(text, *words):
    done = subprocess.run([QUORUMD, "audit", *words], input=text, stdout=subprocess.PIPE, text=True, check=False)
    return done.returncode, done.stdout


def turns_of(lines):
    return sum(line.startswith("now ") for line in lines)


def text_of(lines):
    return "".join(line + "\n" for line in lines)


def recorded(name, lost=None):
    """The lines of a record of a node on three images, of which one may be lost; and the head of an audit of them."""
    cluster = TripleCluster(name, ids=(1,))
    if lost is not None:
        os.truncate(cluster.images[lost], 700)
    image = ",".join(map(str, cluster.images))
    words = ["--image", image, "--watchdog", name + ".dog", "--resource", name + ".res", "--port", str(cluster.port)]
    with open(cluster.folder / "conf") as settings:
        done = subprocess.run([QUORUMD, "node3-logged", *WORDS, *words], stdin=settings, stdout=subprocess.PIPE, stderr=subprocess.DEVNULL, text=True, check=False)
    *log, last = done.stdout.splitlines()
    same("%s: its end" % name, (done.returncode, last), (0, "left clean"))
    return log, (cluster.folder / "conf").read_text() + "----\n"


def judged(name, log, head):
    """The record is a whole run, each beginning of it is the beginning of one, and each changed line is named."""
    before = head.count("\n")
    same(name, audit(head + text_of(log), *WORDS, "--images", "3"), (0, "run whole turns %d\n" % turns_of(log)))
    same("%s as one of one image" % name, audit(head + text_of(log), *WORDS)[0], 18)
    for count in range(0, len(log), 3):
        front = log[:count]
        same("%s: %d lines" % (name, count), audit(head + text_of(front), *WORDS, "--images", "3"), (0, "run prefix turns %d\n" % turns_of(front)))
    for place, line in enumerate(log):
        named = (18, "fault NotARun line %d\n" % (before + place + 1))
        wrong = [re.sub(r"^(read|write) (\d+)", lambda words: "%s %d" % (words[1], (int(words[2]) + 1024) % 3072), line)]
        wrong += [re.sub(r"[0-9a-f]{2} ok$", lambda byte: "%02x ok" % (int(byte[0][:2], 16) ^ 1), line)] if line.startswith("write") else []
        wrong += ["disarm ok" if line.startswith("feed") else "feed ok"]
        for other in wrong:
            if other != line:
                same("%s: line %d as %.40s" % (name, place + 1, other), audit(head + text_of(log[:place] + [other] + log[place + 1 :]), *WORDS, "--images", "3"), named)


for name, lost in (("whole", None), ("first-lost", 0), ("last-lost", 2)):
    judged(name, *recorded(name, lost))


class Three:
    """Three images in the place of one: each call on the one is made on the three, of which one may be lost. All images are good, and from
    the clear of the own mailbox on those on which it was done; the own mailbox is read on the good ones alone."""

    def __init__(self, mailbox, lost):
        self.mailbox, self.lost, self.good = mailbox, lost, [True] * 3

    def calls(self, line):
        """The calls on three images for a call on one."""
        name, *rest = line.split(" ")
        if name not in ("read", "write"):
            return [line]
        sector, asked = int(rest[0]), [0, 1, 2]
        if name == "read" and sector == self.mailbox:
            asked = [image for image in asked if self.good[image]]
        calls = [" ".join([name, str(sector + 1024 * image), *self.answer(name, image, rest[1:])]) for image in asked]
        if name == "write" and sector == self.mailbox:
            self.good = [call.endswith("ok") for call in calls]
        return calls

    def answer(self, name, image, rest):
        if image != self.lost:
            return rest
        return ["failed"] if name == "read" else [rest[0], "failed"]


# records of a node on one image, as three that tell the same, and as three of which one is lost
whole = 0
for case in sorted(path for path in (TOP / "tests" / "cases" / "audit").iterdir() if path.is_dir()):
    words = (case / "args").read_text().split("\n")[1:-1]
    head, _, log = (case / "stdin").read_text().partition("----\n") if (case / "stdin").exists() else ("", "", "")
    answer = (case / "stdout").read_text()
    if answer.startswith("run ") and log:
        ids = sorted(map(int, re.findall(r"nodeid: *(\d+)", head)))
        mailbox = 512 + ids.index(int(words[words.index("--id") + 1]))
        for lost in (None, 0, 1, 2):
            three = Three(mailbox, lost)
            lines = [call for line in log.splitlines() for call in three.calls(line)]
            same("%s, lost %s" % (case.name, lost), audit(head + "----\n" + text_of(lines), *words, "--images", "3"), (0, answer))
        whole += 1
same("some records", whole > 1, True)

# words
same("two images", audit("", *WORDS, "--images", "2")[0], 2)
same("one image", audit("", *WORDS, "--images", "1")[0], audit("", *WORDS)[0])
